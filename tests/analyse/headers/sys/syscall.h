/* What of <sys/syscall.h> the analysed sources use. */
#ifndef HEADERS_SYSCALL_H
#define HEADERS_SYSCALL_H

enum { SYS_mmap = 9 };

#endif
