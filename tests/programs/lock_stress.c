/* Processes that lock a file, count in it and unlock it, for test_lock_stress.py: two must never be in at once, and no step
 * of a counter may be lost.
 *
 * Usage: lock_stress flock|fcntl SECONDS FILE.. : paths of one file, which the processes share out among themselves
 *
 * Locks are waited for or tried, shared or exclusive, of one counter or of several (fcntl), converted, and given up by
 * unlocking, by closing and by dying. A timer interrupts each process. A second thread of each process opens and
 * closes the file (fcntl), or unlocks by the descriptor that waits (flock): by POSIX and Linux this gives up what the
 * process holds, and leaves alone what it is granted later. So it is done only while another process has all locks,
 * which waits for it (`held_by`): then nothing is held that could be given up.
 *
 * Prints what was done. Status 0: all was right; 1: it was not; 2: it could not start. */
#define _GNU_SOURCE
#include <errno.h>
#include <fcntl.h>
#include <pthread.h>
#include <signal.h>
#include <stdatomic.h>
#include <stdio.h>
#include <stdlib.h>
#include <string.h>
#include <sys/file.h>
#include <sys/mman.h>
#include <sys/time.h>
#include <sys/wait.h>
#include <time.h>
#include <unistd.h>

enum { PROCESSES = 6, COUNTERS = 3 };

/* What all processes see. A process has a number from 0 on, and is written as that plus 1, so that 0 is none. */
struct shared {
	atomic_int stop, wrong;
	/* Who may write a counter, and by bits who may read it. */
	atomic_int inside[COUNTERS];
	atomic_uint reading[COUNTERS];
	/* What the counter is; and whether it is being changed, after which a process that died leaves it either way. */
	atomic_ulong expected[COUNTERS];
	atomic_int writing[COUNTERS];
	/* Who has all locks and waits for second threads; which of these are at work; and who must not be killed. */
	atomic_int held_by, closing[PROCESSES], guarded[PROCESSES];
	/* Who is being killed: what it left is no fault. */
	atomic_int dying[PROCESSES];
	atomic_ulong steps, reads, refused, interrupted, closed, killed;
};

static struct shared *all;
static int is_flock, me, file = -1;
static const char *path;
static unsigned seed;

static unsigned below(unsigned most)
{
	return (unsigned)rand_r(&seed) % most;
}

static void rest(unsigned microseconds)
{
	const struct timespec time = { 0, (long)microseconds * 1000 };

	nanosleep(&time, NULL);
}

static void wrong(const char *what, int counter, long seen, long wanted)
{
	if (!atomic_exchange(&all->wrong, 1))
		printf("WRONG: process %d, counter %d: %s: %ld, %ld\n", me, counter, what, seen, wanted);
	fflush(stdout);
	atomic_store(&all->stop, 1);
}

static void fail(const char *what)
{
	wrong(what, -1, errno, 0);
	_exit(1);
}

/* Locks counters from `first` on, or unlocks them. */
static int lock(int type, int first, int count, int waits)
{
	struct flock range = { .l_type = (short)type, .l_start = 8 * first, .l_len = 8 * count };
	const int kind = type == F_UNLCK ? LOCK_UN : type == F_RDLCK ? LOCK_SH : LOCK_EX;

	return is_flock ? flock(file, kind | (waits ? 0 : LOCK_NB)) :
			  fcntl(file, waits ? F_SETLKW : F_SETLK, &range);
}

static unsigned long counter_at(int counter)
{
	unsigned long value;

	if (pread(file, &value, sizeof(value), 8 * counter) != sizeof(value))
		fail("pread");
	return value;
}

/* Whether a process is there that must not be: one that is dying may have left its number. */
static int is_alive(int number)
{
	return number && !atomic_load(&all->dying[number - 1]);
}

static void check_value(int counter, unsigned long value)
{
	const unsigned long expected = atomic_load(&all->expected[counter]);

	if (value != expected && !(atomic_load(&all->writing[counter]) && value == expected + 1))
		wrong("a step is lost", counter, (long)value, (long)expected);
}

static void step(int counter)
{
	const int other = atomic_exchange(&all->inside[counter], me + 1);
	const unsigned readers = atomic_load(&all->reading[counter]);
	int none = me + 1;
	unsigned long value;

	if (is_alive(other))
		wrong("two are in", counter, other - 1, me);
	for (int i = 0; i < PROCESSES; i++)
		if (readers >> i & 1 && is_alive(i + 1))
			wrong("a reader is in", counter, i, me);
	value = counter_at(counter);
	check_value(counter, value);
	value++;
	atomic_store(&all->writing[counter], 1);
	if (pwrite(file, &value, sizeof(value), 8 * counter) != sizeof(value))
		fail("pwrite");
	atomic_store(&all->expected[counter], value);
	atomic_store(&all->writing[counter], 0);
	atomic_fetch_add(&all->steps, 1);
	if (!atomic_compare_exchange_strong(&all->inside[counter], &none, 0))
		wrong("another came in", counter, none - 1, me);
}

static void look(int counter)
{
	unsigned long value;

	atomic_fetch_or(&all->reading[counter], 1u << me);
	if (is_alive(atomic_load(&all->inside[counter])))
		wrong("a writer is in", counter, atomic_load(&all->inside[counter]) - 1, me);
	value = counter_at(counter);
	check_value(counter, value);
	if (below(4) == 0)
		rest(below(300));
	if (value != counter_at(counter))
		wrong("it changes while it is read", counter, (long)counter_at(counter), (long)value);
	atomic_fetch_and(&all->reading[counter], ~(1u << me));
	atomic_fetch_add(&all->reads, 1);
}

/* With all locks: lets the other processes' second threads do their work, and waits until none is at it. */
static void let_close(void)
{
	atomic_store(&all->guarded[me], 1);
	if (atomic_load(&all->dying[me])) {
		atomic_store(&all->guarded[me], 0);
		return;
	}
	atomic_store(&all->held_by, me + 1);
	rest(below(2000));
	atomic_store(&all->held_by, 0);
	for (int i = 0; i < PROCESSES; i++)
		while (atomic_load(&all->closing[i]) && !atomic_load(&all->dying[i]))
			rest(20);
	atomic_store(&all->guarded[me], 0);
}

/* The second thread. */
static void *close_or_unlock(void *given)
{
	unsigned own = seed + 77;
	int holder, fd;

	(void)given;
	while (!atomic_load(&all->stop)) {
		holder = atomic_load(&all->held_by);
		if (holder && holder != me + 1) {
			atomic_store(&all->closing[me], 1);
			if (atomic_load(&all->held_by) == holder) {
				fd = is_flock ? -1 : open(path, O_RDWR);
				if (is_flock && file >= 0)
					flock(file, LOCK_UN);
				if (fd >= 0)
					close(fd);
				atomic_fetch_add(&all->closed, 1);
			}
			atomic_store(&all->closing[me], 0);
		}
		rest((unsigned)rand_r(&own) % 500);
	}
	return NULL;
}

static void let_go(int first, int count)
{
	int result = 0;

	switch (below(3)) {
	case 0:
		/* (for fcntl a range may be given up in parts) */
		if (!is_flock && count > 1)
			result = lock(F_UNLCK, first + count - 1, 1, 0);
		result |= lock(F_UNLCK, first, count, below(2) ? 1 : 0);
		break;
	case 1:
		/* (the number must not be another file's when the second thread uses it: it is replaced in one step) */
		result = open(path, O_RDWR);
		if (result < 0 || dup2(result, file) < 0)
			fail("open");
		close(result);
		result = 0;
		break;
	default:
		result = lock(F_UNLCK, is_flock ? first : 0, COUNTERS, 0);
	}
	if (result)
		fail("unlock");
}

static void work_once(void)
{
	const int count = is_flock ? 1 : 1 + (int)below(COUNTERS),
		  first = is_flock ? 0 : (int)below((unsigned)(COUNTERS - count + 1));
	const int is_all = is_flock || count == COUNTERS, reads = below(3) == 0, waits = below(4) != 0;

	if (lock(reads ? F_RDLCK : F_WRLCK, first, count, waits)) {
		if (errno == EINTR)
			atomic_fetch_add(&all->interrupted, 1);
		else if (errno == EAGAIN || errno == EACCES)
			atomic_fetch_add(&all->refused, 1);
		else
			fail("lock");
		return;
	}
	if (!reads && is_all && below(3) == 0)
		let_close();
	for (int i = first; i < first + count; i++)
		reads ? look(i) : step(i);
	/* (a conversion by flock loses the lock if it is refused; by fcntl it stays) */
	if (reads && below(4) == 0 && !lock(F_WRLCK, first, count, 0))
		step(first);
	let_go(first, count);
}

static void interrupted(int number)
{
	(void)number;
}

static void work(void)
{
	const struct sigaction action = { .sa_handler = interrupted };
	const struct itimerval timer = { { 0, 3000 + 1000 * me }, { 0, 3000 } };
	sigset_t alarm;
	pthread_t thread;

	seed = (unsigned)(getpid() * 31 + time(NULL));
	file = open(path, O_RDWR);
	if (file < 0)
		fail("open");
	sigemptyset(&alarm);
	sigaddset(&alarm, SIGALRM);
	pthread_sigmask(SIG_BLOCK, &alarm, NULL);
	if (pthread_create(&thread, NULL, close_or_unlock, NULL))
		fail("thread");
	sigaction(SIGALRM, &action, NULL);
	pthread_sigmask(SIG_UNBLOCK, &alarm, NULL);
	setitimer(ITIMER_REAL, &timer, NULL);
	while (!atomic_load(&all->stop))
		work_once();
	pthread_join(thread, NULL);
	close(file);
	_exit(0);
}

static pid_t start(int number, char **paths, int count)
{
	pid_t pid;

	fflush(stdout);
	pid = fork();
	if (pid)
		return pid;
	me = number;
	path = paths[number % count];
	work();
	return 0;
}

/* What a process that died has left is none's. */
static void clear(int number)
{
	for (int i = 0; i < COUNTERS; i++) {
		int left = number + 1;

		atomic_compare_exchange_strong(&all->inside[i], &left, 0);
		atomic_fetch_and(&all->reading[i], ~(1u << number));
	}
	atomic_store(&all->closing[number], 0);
	atomic_store(&all->guarded[number], 0);
	atomic_store(&all->dying[number], 0);
}

/* Kills a process in the midst of whatever it does, and starts another one. */
static void replace(pid_t *pids, int number, char **paths, int count)
{
	atomic_store(&all->dying[number], 1);
	if (atomic_load(&all->guarded[number])) {
		atomic_store(&all->dying[number], 0);
		return;
	}
	kill(pids[number], SIGKILL);
	waitpid(pids[number], NULL, 0);
	clear(number);
	atomic_fetch_add(&all->killed, 1);
	pids[number] = start(number, paths, count);
}

/* What is left at the end: processes that end by themselves, and the counters of the file. */
static void finish(const pid_t *pids)
{
	int status;

	atomic_store(&all->stop, 1);
	for (int i = 0; i < PROCESSES; i++)
		if (waitpid(pids[i], &status, 0) != pids[i] || status)
			wrong("its status", -1, status, 0);
	for (int i = 0; i < COUNTERS; i++)
		check_value(i, counter_at(i));
}

int main(int count, char **words)
{
	const char zeros[8 * COUNTERS] = { 0 };
	pid_t pids[PROCESSES];
	time_t end;

	if (count < 4)
		return 2;
	all = mmap(NULL, sizeof(*all), PROT_READ | PROT_WRITE, MAP_SHARED | MAP_ANONYMOUS, -1, 0);
	is_flock = !strcmp(words[1], "flock");
	path = words[3];
	file = open(path, O_RDWR | O_CREAT, 0644);
	if (all == MAP_FAILED || file < 0 || pwrite(file, zeros, sizeof(zeros), 0) != sizeof(zeros))
		return 2;
	me = PROCESSES;
	seed = (unsigned)time(NULL);
	end = time(NULL) + atoi(words[2]);
	for (int i = 0; i < PROCESSES; i++)
		pids[i] = start(i, words + 3, count - 3);
	while (time(NULL) < end && !atomic_load(&all->stop)) {
		rest(20000);
		replace(pids, (int)below(PROCESSES), words + 3, count - 3);
	}
	finish(pids);
	printf("%lu steps, %lu reads, %lu refused, %lu interrupted, %lu closed by others, %lu killed\n",
	       all->steps, all->reads, all->refused, all->interrupted, all->closed, all->killed);
	return atomic_load(&all->wrong);
}
