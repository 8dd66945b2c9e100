/* Lets a signal end a process although a file system does not reply. */
#ifndef GUARD_H
#define GUARD_H

/* In milliseconds: how long guarded code may take after a signal. */
enum { GUARD_MOST = 1800 };

/* Guard the code between the two calls. The signals that end a transport are blocked, and a thread waits for
 * one. If a signal comes, and guard_end() is not called within GUARD_MOST, the thread calls `leave` and ends
 * the process with status 0, because a signal is not a failure. The thread does not consume the signal, so
 * that the transport gets it too. guard_begin() returns 0, or -1 after printing an error. */
int guard_begin(const char *program, void (*leave)(void));
void guard_end(void);

/* Calls a function on another thread, and waits for it for a second. A process that has created a PID
 * namespace for its children cannot create threads: it calls the function itself, and SIGALRM ends it after a
 * second. */
void guard_call(void *(*call)(void *));

#endif
