/* What bench/hostile puts below a program: one call of the system, of this number from 1, fails.

   FAILING is the number, or 0 for none; COUNTED, if it is there, is a file that is told how many
   calls were made. Counted are the opening of a file, reads, writes, seeks and syncs that the
   program makes. Built as a library that is loaded before the C library. */
#define _GNU_SOURCE
#include <errno.h>
#include <fcntl.h>
#include <stdarg.h>
#include <stdio.h>
#include <stdlib.h>
#include <sys/syscall.h>
#include <unistd.h>

static unsigned long calls, failing;

__attribute__((constructor)) static void begin(void)
{
    const char *number = getenv("FAILING");
    failing = number ? strtoul(number, NULL, 10) : 0;
}

__attribute__((destructor)) static void end(void)
{
    char text[32];
    const char *path = getenv("COUNTED");
    int length = snprintf(text, sizeof text, "%lu", calls);
    int file = path ? syscall(SYS_open, path, O_WRONLY | O_CREAT | O_TRUNC, 0666) : -1;
    if (file >= 0 && syscall(SYS_write, file, text, length) == length)
        syscall(SYS_close, file);
}

static int fails(void)
{
    if (++calls != failing)
        return 0;
    errno = EIO;
    return 1;
}

int open(const char *path, int flags, ...)
{
    va_list rest;
    va_start(rest, flags);
    mode_t mode = flags & O_CREAT ? va_arg(rest, mode_t) : 0;
    va_end(rest);
    return fails() ? -1 : syscall(SYS_open, path, flags, mode);
}

ssize_t read(int file, void *out, size_t size)
{
    return fails() ? -1 : syscall(SYS_read, file, out, size);
}

ssize_t write(int file, const void *octets, size_t size)
{
    return fails() ? -1 : syscall(SYS_write, file, octets, size);
}

off_t lseek(int file, off_t at, int from)
{
    return fails() ? -1 : syscall(SYS_lseek, file, at, from);
}

int fsync(int file)
{
    return fails() ? -1 : syscall(SYS_fsync, file);
}

int fdatasync(int file)
{
    return fails() ? -1 : syscall(SYS_fdatasync, file);
}
