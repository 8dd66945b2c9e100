/* Does what programs do with files, and measures its time: for share_speed.py.
 *
 * Usage: share_speed CLASS DIRECTORY JOBS
 *        share_speed CLASS DIRECTORY JOBS SERVER [COMMAND..]
 * Each job is a process with a folder of its own, job-N. The first form creates the folders and the files that the class
 * needs. The second form runs the jobs and prints three numbers of seconds: by the clock, from when all jobs begin until
 * the last one has ended; of processor time of the process SERVER and its descendants; and of processor time of the jobs.
 * SERVER is 0 where no process serves the folder. The class `run` is a command. */
#define _GNU_SOURCE
#include "time_spent.h"

#include <dirent.h>
#include <fcntl.h>
#include <stdint.h>
#include <stdio.h>
#include <stdlib.h>
#include <string.h>
#include <sys/resource.h>
#include <sys/stat.h>
#include <sys/wait.h>
#include <unistd.h>

/* Files of a job, or with MOST of all; how often names are read. Sizes are in bytes. */
enum { FILES = 2000, MANY = 10000, MOST = 100000, TIMES = 5 };
enum { BLOCK = 4096, CHUNK = 1 << 20, CHUNKS = 48, BLOCKS = 3000 };

static char bytes[CHUNK]; /* what is written, and where what is read goes */
static int jobs;

/* What isn't so ends this process, and with it the job, with status 1. */
static void need(int fact, const char *what)
{
	if (!fact) {
		perror(what);
		exit(1);
	}
}

static int open_file(const char *name, int flags)
{
	const int fd = open(name, flags | O_CLOEXEC, 0644);

	need(fd >= 0, name);
	return fd;
}

/* The name of a file, until the next one. */
static const char *name_file(int i)
{
	static char name[32];

	snprintf(name, sizeof(name), "file%05d", i);
	return name;
}

/* ---- what is there before */

static void make_files(int count)
{
	for (int i = 0; i < count; i++)
		close(open_file(name_file(i), O_CREAT | O_WRONLY)); /* empty files */
}

static void make_few(void)
{
	make_files(FILES);
}

static void make_many(void)
{
	make_files(MANY);
}

static void make_large(void)
{
	const int fd = open_file("large", O_CREAT | O_WRONLY);

	for (int i = 0; i < CHUNKS; i++)
		need(pwrite(fd, bytes, CHUNK, (off_t)i * CHUNK) == CHUNK, "large"); /* 48 MiB */
	close(fd);
}

/* (a class that makes its files itself) */
static void make_nothing(void)
{
}

static char **command; /* of the class `run` */

/* ---- what a job does before its time begins */

/* Looks all files up, so that a request about one of them needs no LOOKUP. */
static void look_up(void)
{
	struct stat seen;

	for (int i = 0; i < FILES; i++)
		need(!stat(name_file(i), &seen), "stat");
}

/* ---- what is timed */

/* Asks for the attributes, whatever the kernel remembers of them. */
static void get_attributes(void)
{
	struct statx seen;

	for (int i = 0; i < FILES; i++)
		need(!statx(AT_FDCWD, name_file(i), AT_STATX_FORCE_SYNC, STATX_BASIC_STATS, &seen), "statx");
}

/* (each name is asked for once: the kernel would remember that there is none) */
static void stat_missing(void)
{
	struct stat seen;

	for (int i = 0; i < FILES; i++)
		need(stat(name_file(i), &seen) < 0, "stat"); /* ENOENT, from the server */
}

/* An OPEN and a RELEASE for each, where the names are known. */
static void open_files(void)
{
	for (int i = 0; i < FILES; i++)
		close(open_file(name_file(i), O_RDONLY));
}

static void rename_files(void)
{
	char to[40];

	for (int i = 0; i < FILES; i++) {
		snprintf(to, sizeof(to), "new-%s", name_file(i));
		need(!rename(name_file(i), to), "rename");
	}
}

/* (the folder is empty again after it) */
static void create_and_unlink(void)
{
	make_few();
	for (int i = 0; i < FILES; i++)
		need(!unlink(name_file(i)), "unlink");
}

/* The names alone, some times, as a program that looks for one. */
static void read_names(void)
{
	for (int i = 0; i < TIMES; i++) {
		DIR *dir = opendir(".");
		int count = 0;

		need(dir != NULL, "opendir");
		while (readdir(dir))
			count++;
		closedir(dir);
		need(count == MANY + 2, "the names");
	}
}

/* As `ls -l` does. */
static void read_attributes(void)
{
	const struct dirent *found;
	DIR *dir = opendir(".");
	struct stat seen;
	int count = 0;

	need(dir != NULL, "opendir");
	for (; (found = readdir(dir)); count++)
		need(!lstat(found->d_name, &seen), found->d_name);
	closedir(dir);
	need(count == MANY + 2, "the names");
}

/* What a person does with many files, which the jobs have together. */
static void list_and_remove(void)
{
	make_files(MOST / jobs);
	need(!system("ls -l > /dev/null && find . -type f > /dev/null && rm -r \"$PWD\""), "ls, find or rm");
}

static void write_large(void)
{
	const int fd = open_file("large", O_CREAT | O_WRONLY);

	for (int i = 0; i < CHUNKS; i++)
		need(write(fd, bytes, CHUNK) == CHUNK, "write");
	close(fd);
}

/* Opens the file, and has nothing of it in the kernel's cache. */
static int open_cold(int flags)
{
	const int fd = open_file("large", flags);

	posix_fadvise(fd, 0, 0, POSIX_FADV_DONTNEED);
	return fd;
}

/* One after another, which the kernel may read ahead. */
static void read_large(void)
{
	const int fd = open_cold(O_RDONLY);

	for (int i = 0; i < CHUNKS; i++)
		need(read(fd, bytes, CHUNK) == CHUNK, "read");
	close(fd);
}

/* A place of a block, by chance and always the same. */
static off_t next_place(uint32_t *chance)
{
	*chance = *chance * 1103515245 + 12345; /* a generator of ISO C's text */
	return (off_t)((*chance >> 8) % (CHUNKS * (CHUNK / BLOCK))) * BLOCK;
}

/* Here and there: each is asked for. */
static void read_blocks(void)
{
	const int fd = open_cold(O_RDONLY);
	uint32_t chance = 1;

	posix_fadvise(fd, 0, 0, POSIX_FADV_RANDOM); /* so that the kernel reads no more than is asked for */
	for (int i = 0; i < BLOCKS; i++)
		need(pread(fd, bytes, BLOCK, next_place(&chance)) == BLOCK, "pread");
	close(fd);
}

/* Here and there; with the kernel's own writing later it is another measure. */
static void write_blocks(void)
{
	const int fd = open_cold(O_WRONLY);
	uint32_t chance = 1;

	for (int i = 0; i < BLOCKS; i++)
		need(pwrite(fd, bytes, BLOCK, next_place(&chance)) == BLOCK, "pwrite");
	close(fd);
}

/* The job becomes the command; the pipes stay open there, which no one reads any more. */
static void run_command(void)
{
	execvp(command[0], command);
	need(0, command[0]);
}

static const struct {
	const char *name;
	/* `before` creates files in another run of the program; `warm` runs in each job before its time begins. */
	void (*before)(void), (*warm)(void), (*act)(void);
} classes[] = {
	{ "getattr", make_few, look_up, get_attributes },
	{ "lookup", make_few, make_nothing, look_up },
	{ "missing", make_nothing, make_nothing, stat_missing },
	{ "open-close", make_few, look_up, open_files },
	{ "create-unlink", make_nothing, make_nothing, create_and_unlink },
	{ "rename", make_few, look_up, rename_files },
	{ "readdir", make_many, make_nothing, read_names },
	{ "ls-l", make_many, make_nothing, read_attributes },
	{ "write-1m", make_nothing, make_nothing, write_large },
	{ "overwrite-1m", make_large, make_nothing, write_large },
	{ "read-1m", make_large, make_nothing, read_large },
	{ "write-4k", make_large, make_nothing, write_blocks },
	{ "read-4k", make_large, make_nothing, read_blocks },
	{ "names-100k", make_nothing, make_nothing, list_and_remove },
	{ "run", make_nothing, make_nothing, run_command },
};

/* Makes the folder of a job if there is none, and goes there. */
static void enter(int job)
{
	char folder[32];

	snprintf(folder, sizeof(folder), "job-%d", job);
	mkdir(folder, 0755); /* there already in the second run */
	need(!chdir(folder), folder);
}

static double seconds_of(clockid_t clock)
{
	struct timespec time;

	clock_gettime(clock, &time);
	return (double)time.tv_sec + (double)time.tv_nsec / 1e9;
}

/* A job. It writes the processor time that it has taken so far to the pipe `ready`, because that time is not part of what
 * is measured; then it waits for the end of the pipe `go`, and acts. */
static _Noreturn void run_job(size_t which, int job, const int ready[2], const int go[2])
{
	double taken;
	char byte;

	enter(job);
	classes[which].warm();
	close(go[1]);
	taken = seconds_of(CLOCK_PROCESS_CPUTIME_ID);
	need(write(ready[1], &taken, sizeof(taken)) == sizeof(taken), "a pipe");
	/* (so that the pipe has an end, if another job has failed before it wrote) */
	close(ready[1]);
	/* (all jobs wait for the same end, and so begin at once) */
	need(read(go[0], &byte, 1) == 0, "a pipe");
	classes[which].act();
	_exit(0);
}

/* Makes what the jobs find: in this process, one after another. */
static void prepare(size_t which)
{
	for (int i = 0; i < jobs; i++) {
		enter(i);
		classes[which].before();
		need(!chdir(".."), "..");
	}
}

/* The processor time of all jobs, which have ended, and of the programs that they ran. */
static double time_of_jobs(void)
{
	struct rusage all;

	getrusage(RUSAGE_CHILDREN, &all);
	return (double)(all.ru_utime.tv_sec + all.ru_stime.tv_sec) +
	       (double)(all.ru_utime.tv_usec + all.ru_stime.tv_usec) / 1e6;
}

/* The processor time of a server, of which 0 is none. It waits until a server has gone to sleep, because only then Linux
 * has added its last time. */
static double time_of_server(pid_t server)
{
	const struct timespec pause = { 0, 2000000 }; /* 2 ms */

	nanosleep(&pause, NULL);
	return server ? (double)time_spent(server) / 1e9 : 0;
}

/* Runs the jobs, and prints their times. Returns whether one failed. */
static int measure(size_t which, pid_t server)
{
	int ready[2], go[2], status, is_wrong = 0;
	double from, spent, taken, before = 0;

	need(!pipe(ready) && !pipe(go), "a pipe");
	for (int i = 0; i < jobs; i++)
		/* (a job that fork() did not make is missed by the read below) */
		if (!fork())
			run_job(which, i, ready, go);
	close(ready[1]);
	for (int i = 0; i < jobs; i++) {
		need(read(ready[0], &taken, sizeof(taken)) == sizeof(taken), "a job");
		before += taken;
	}
	spent = time_of_server(server); /* all jobs wait now */
	from = seconds_of(CLOCK_MONOTONIC);
	close(go[0]);
	close(go[1]);
	while (wait(&status) > 0)
		is_wrong |= status;
	from = seconds_of(CLOCK_MONOTONIC) - from;
	printf("%.6f %.6f %.6f\n", from, time_of_server(server) - spent, time_of_jobs() - before);
	return is_wrong ? 1 : 0;
}

int main(int count, char **words)
{
	const size_t known = sizeof(classes) / sizeof(*classes);
	size_t which = 0;

	jobs = count >= 4 ? atoi(words[3]) : 0;
	while (which < known && jobs > 0 && strcmp(classes[which].name, words[1]) != 0)
		which++;
	if (jobs < 1 || which == known) {
		fputs("Usage: share_speed CLASS DIRECTORY JOBS [SERVER [COMMAND..]]\n", stderr);
		return 2;
	}
	memset(bytes, 7, sizeof(bytes)); /* so that no file is one of holes */
	need(!chdir(words[2]), words[2]);
	if (count == 4)
		return prepare(which), 0;
	command = words + 5;
	return measure(which, (pid_t)atol(words[4]));
}
