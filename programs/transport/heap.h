/* The heap of a program that keeps files in memory. */
#ifndef HEAP_H
#define HEAP_H

/* Must be called before serving. All threads then share one heap, because the heap of a thread grows by a
 * system call for each page. The heap grows by at least 8 MiB, and shrinks when 64 MiB are free at its
 * end. */
void heap_begin(void);

/* Must be called after each request by the thread that served it. If the heap has grown, its new pages are
 * populated while the next requests are served. */
void heap_look(void);

#endif
