/* The file SOCKET.pid, which contains the id of the process that serves a socket, and is locked as long as it
 * serves. */
#ifndef SHARE_PID_H
#define SHARE_PID_H

/* Creates and locks the file, unless another server of that socket holds the lock. On error prints a message and
 * returns -1. */
int pid_file_take(const char *socket_path);

/* Writes the id of the calling process to the file. On error prints a message and returns -1. */
int pid_file_write(void);

/* Closes the file in a process that enters a sandbox: the process outside of it keeps the lock. */
void pid_file_leave(void);

/* Removes the file, if there is one, unless another file has its name by now. It may be called by any thread, more
 * than once. */
void pid_file_remove(void);

#endif
