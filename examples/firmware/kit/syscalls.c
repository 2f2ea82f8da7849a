/* What newlib or picolibc calls: a console for its output, memory for malloc between the variables and the stack, and a
   clock. There are no files, and there is no input: a call for one returns -1 with its error number. start.s has
   _exit. */
#include "device.h"
#include <errno.h>
#include <stddef.h>
#include <string.h>
#include <sys/stat.h>
#include <sys/time.h>
#include <sys/times.h>
#include <time.h>

/* How many steps are a second of the clock, a multiple of CLOCKS_PER_SEC. After 2^32 steps the clock begins again. */
#ifndef STEPS_PER_SECOND
#define STEPS_PER_SECOND 1000000u
#endif

/* A compiler of C++ takes this file too: its calls have C's names. */
#ifdef __cplusplus
extern "C" {
#endif

extern char __heap_begin[], __heap_end[]; /* link.ld */

static int refuse(int error)
{
    errno = error;
    return -1;
}

/* Standard input, output and error are all that is open. */
static int is_open(int file)
{
    return file >= 0 && file <= 2;
}

int _write(int file, const char *bytes, int count)
{
    if (file != 1 && file != 2)
        return refuse(EBADF);
    for (int at = 0; at < count; at++)
        OUT = (unsigned char)bytes[at];
    return count;
}

/* The end of the input. */
int _read(int file, char *bytes, int count)
{
    (void)bytes, (void)count;
    return file == 0 ? 0 : refuse(EBADF);
}

void *_sbrk(ptrdiff_t growth)
{
    static char *end = __heap_begin;
    char *begin = end;
    if (growth > __heap_end - end || growth < __heap_begin - end) {
        errno = ENOMEM;
        return (void *)-1;
    }
    end += growth;
    return begin;
}

/* What is open is a terminal, so that printf writes each line when it ends. */
int _fstat(int file, struct stat *status)
{
    if (!is_open(file))
        return refuse(EBADF);
    memset(status, 0, sizeof *status);
    status->st_mode = S_IFCHR;
    return 0;
}

int _isatty(int file)
{
    if (is_open(file))
        return 1;
    errno = EBADF;
    return 0;
}

int _lseek(int file, int offset, int from)
{
    (void)offset, (void)from;
    return refuse(is_open(file) ? ESPIPE : EBADF);
}

int _close(int file)
{
    return is_open(file) ? 0 : refuse(EBADF);
}

int _fcntl(int file, int command, int word)
{
    (void)command, (void)word;
    return is_open(file) ? 0 : refuse(EBADF);
}

int _open(const char *path, int flags, int mode)
{
    (void)path, (void)flags, (void)mode;
    return refuse(ENOENT);
}

int _stat(const char *path, struct stat *status)
{
    (void)path, (void)status;
    return refuse(ENOENT);
}

int _link(const char *path, const char *other)
{
    (void)path, (void)other;
    return refuse(ENOENT);
}

int _unlink(const char *path)
{
    (void)path;
    return refuse(ENOENT);
}

int _mkdir(const char *path, mode_t mode)
{
    (void)path, (void)mode;
    return refuse(EROFS);
}

/* The clock begins at 0, when the run does. */
int _gettimeofday(struct timeval *time, void *zone)
{
    uint32_t tick = TICK;
    (void)zone;
    time->tv_sec = tick / STEPS_PER_SECOND;
    time->tv_usec = (suseconds_t)((uint64_t)(tick % STEPS_PER_SECOND) * 1000000u / STEPS_PER_SECOND);
    return 0;
}

/* All time is the program's own. */
clock_t _times(struct tms *times)
{
    clock_t clock = TICK / (STEPS_PER_SECOND / CLOCKS_PER_SEC);
    memset(times, 0, sizeof *times);
    times->tms_utime = clock;
    return clock;
}

int _getpid(void)
{
    return 1;
}

/* abort calls it, and then _exit(1). */
int _kill(int process, int signal)
{
    (void)process, (void)signal;
    return refuse(EINVAL);
}

int _fork(void)
{
    return refuse(ENOSYS);
}

int _wait(int *status)
{
    (void)status;
    return refuse(ECHILD);
}

int _execve(const char *path, char *const words[], char *const environment[])
{
    (void)path, (void)words, (void)environment;
    return refuse(ENOENT);
}

/* There is no source of random numbers: arc4random ends the program. */
int getentropy(void *bytes, size_t count)
{
    (void)bytes, (void)count;
    return refuse(ENOSYS);
}

#ifdef __PICOLIBC__
/* picolibc calls them without the underscore. */
#define NAME(call) __typeof__(_##call) call __attribute__((alias("_" #call)))
NAME(close);
NAME(fstat);
NAME(getpid);
NAME(gettimeofday);
NAME(kill);
NAME(lseek);
NAME(open);
NAME(read);
NAME(sbrk);
NAME(stat);
NAME(times);
NAME(unlink);
NAME(write);
#endif

#ifdef __cplusplus
}
#endif
