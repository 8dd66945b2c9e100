/* What of <sys/epoll.h> the analysed sources use: Frama-C's library lacks it. */
#ifndef HEADERS_EPOLL_H
#define HEADERS_EPOLL_H
#include <stdint.h>

#define EPOLLET (1U << 31)
enum { EPOLLIN = 1, EPOLL_CLOEXEC = 02000000, EPOLL_CTL_ADD = 1, EPOLL_CTL_DEL = 2 };

typedef union {
	void *ptr;
	int fd;
	uint32_t u32;
	uint64_t u64;
} epoll_data_t;

struct epoll_event {
	uint32_t events;
	epoll_data_t data;
};

/*@ assigns \result \from flags;
    ensures \result >= -1; */
int epoll_create1(int flags);
/*@ requires event == \null || \valid_read(event);
    assigns \result \from set, what, fd, *event;
    ensures \result == 0 || \result == -1; */
int epoll_ctl(int set, int what, int fd, struct epoll_event *event);
/*@ requires most >= 1;
    requires \valid(event + (0 .. most - 1));
    assigns \result, event[0 .. most - 1] \from set, time;
    ensures -1 <= \result <= most;
    ensures \result >= 1 ==> \initialized(&event[0 .. \result - 1]); */
int epoll_wait(int set, struct epoll_event *event, int most, int time);

#endif
