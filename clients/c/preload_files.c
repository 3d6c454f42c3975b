// Calls on the descriptor of a POSIX queue as on that of a file: read(2), and fcntl(2) of its flags and of copies. Of other
// descriptors they are the C library's own.
#define _GNU_SOURCE
#include <dlfcn.h>
#include <errno.h>
#include <fcntl.h>
#include <stdarg.h>
#include <sys/syscall.h>
#include <unistd.h>

#include "preload.h"
#include "queue_files.h"

ssize_t redirected_read(int fd, void *bytes, size_t size) IN_PLACE_OF(read);
ssize_t redirected_read_chk(int fd, void *bytes, size_t size, size_t room) IN_PLACE_OF(__read_chk);
int redirected_fcntl(int fd, int what, ...) IN_PLACE_OF(fcntl);
int redirected_fcntl64(int fd, int what, ...) IN_PLACE_OF(fcntl64);

static struct {
    ssize_t (*read)(int, void *, size_t);
    ssize_t (*read_chk)(int, void *, size_t, size_t);
    int (*fcntl)(int, int, ...);
} own;

static void find(void *place, const char *name)
{
    *(void **) place = dlsym(RTLD_NEXT, name);
}

__attribute__((constructor)) static void find_own(void)
{
    find(&own.read, "read");
    find(&own.read_chk, "__read_chk");
    find(&own.fcntl, "fcntl");
}

// There is nothing in it, so that what poll(2) has found stays.
static ssize_t read_nothing(int place)
{
    int flags = flags_of_queue(place);
    if (flags >= 0 && (flags & O_ACCMODE) != O_WRONLY)
        return 0;
    errno = EBADF;
    return -1;
}

// What finds the C library's call may read too, so before that the system's is made.
ssize_t redirected_read(int fd, void *bytes, size_t size)
{
    int place = queue_place(fd);
    if (place >= 0)
        return read_nothing(place);
    return own.read != NULL ? own.read(fd, bytes, size) : syscall(SYS_read, fd, bytes, size);
}

ssize_t redirected_read_chk(int fd, void *bytes, size_t size, size_t room)
{
    if (own.read_chk != NULL && (queue_files == 0 || size > room))
        return own.read_chk(fd, bytes, size, room);
    return redirected_read(fd, bytes, size);
}

static int call_own(int fd, int what, void *value)
{
    return own.fcntl != NULL ? own.fcntl(fd, what, value) : (int) syscall(SYS_fcntl, fd, what, value);
}

static int call_fcntl(int fd, int what, void *value)
{
    if (what == F_GETFL || what == F_SETFL) {
        int place = queue_place(fd);
        if (place >= 0)
            return what == F_GETFL ? flags_of_queue(place) : set_flags_of_queue(place, (long) value);
    } else if (what == F_DUPFD || what == F_DUPFD_CLOEXEC) {
        int place = place_to_copy(fd), room = place < 0 ? -1 : begin_copy(place);
        if (place >= 0)
            return room < 0 ? -1 : end_copy(room, call_own(fd, what, value));
    }
    return call_own(fd, what, value);
}

int redirected_fcntl(int fd, int what, ...)
{
    va_list rest;
    va_start(rest, what);
    void *value = va_arg(rest, void *);
    va_end(rest);
    return call_fcntl(fd, what, value);
}

// On systems whose offsets have 64 bits it is the same.
int redirected_fcntl64(int fd, int what, ...)
{
    va_list rest;
    va_start(rest, what);
    void *value = va_arg(rest, void *);
    va_end(rest);
    return call_fcntl(fd, what, value);
}
