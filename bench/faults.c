/* One call of a program to the system fails: the one whose number is in FAULT_AT, counted from 1. The file that FAULT_TOLD names is
 * made then. Counted are reads of standard input, files that are made, new names, writes but those to standard error, and what is to be
 * written to the disk. With FAULT_SYNC nothing can be.
 *
 *     cc -shared -fPIC -o faults.so faults.c -ldl
 *     FAULT_AT=3 LD_PRELOAD=./faults.so relay remux < film.flv
 */
#define _GNU_SOURCE
#include <dlfcn.h>
#include <errno.h>
#include <fcntl.h>
#include <stdarg.h>
#include <stdlib.h>
#include <sys/syscall.h>
#include <sys/types.h>
#include <unistd.h>

static long made, fault_at = -1;

static int fails(int error)
{
    if (fault_at < 0) {
        const char *at = getenv("FAULT_AT");
        fault_at = at ? atol(at) : 0;
    }
    if (++made != fault_at)
        return 0;
    const char *told = getenv("FAULT_TOLD");
    if (told)
        syscall(SYS_close, syscall(SYS_openat, AT_FDCWD, told, O_CREAT | O_WRONLY, 0600));
    errno = error;
    return 1;
}

static void *real(const char *name)
{
    return dlsym(RTLD_NEXT, name);
}

ssize_t read(int fd, void *into, size_t room)
{
    ssize_t (*call)(int, void *, size_t) = real("read");
    return fd == 0 && fails(EIO) ? -1 : call(fd, into, room);
}

ssize_t write(int fd, const void *bytes, size_t count)
{
    ssize_t (*call)(int, const void *, size_t) = real("write");
    return fd != 2 && fails(ENOSPC) ? -1 : call(fd, bytes, count);
}

int open(const char *name, int flags, ...)
{
    int (*call)(const char *, int, ...) = real("open");
    mode_t mode = 0;
    if (flags & O_CREAT) {
        va_list rest;
        va_start(rest, flags);
        mode = va_arg(rest, mode_t);
        va_end(rest);
        if (fails(ENOSPC))
            return -1;
    }
    return call(name, flags, mode);
}

int fsync(int fd)
{
    int (*call)(int) = real("fsync");
    if (getenv("FAULT_SYNC")) {
        errno = EIO;
        return -1;
    }
    return fails(EIO) ? -1 : call(fd);
}

int rename(const char *from, const char *to)
{
    int (*call)(const char *, const char *) = real("rename");
    return fails(EACCES) ? -1 : call(from, to);
}
