/* What of <sys/eventfd.h> the analysed sources use. */
#ifndef HEADERS_EVENTFD_H
#define HEADERS_EVENTFD_H

enum { EFD_CLOEXEC = 02000000, EFD_NONBLOCK = 04000 };

/*@ assigns \result \from count, flags;
    ensures \result >= -1; */
int eventfd(unsigned int count, int flags);

#endif
