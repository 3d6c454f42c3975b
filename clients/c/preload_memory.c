// Shared memory. Segments of System V come to the server if ipcd-run is told so (--segments), and are mapped. Else they
// stay the kernel's, as those of shm_open do: that is said once, on standard error, when a program asks for some, or
// refused, as ipcd-run is told (--strict).
#define _GNU_SOURCE
#include <dlfcn.h>
#include <errno.h>
#include <stdatomic.h>
#include <stdbool.h>
#include <stdio.h>
#include <stdlib.h>
#include <sys/mman.h>
#include <sys/shm.h>
#include <sys/stat.h>
#include <sys/syscall.h>
#include <sys/types.h>
#include <unistd.h>

#include "again.h"
#include "ipcd.h"
#include "mapped_segments.h"
#include "mapper.h"
#include "memory.h"
#include "named_segments.h"
#include "preload.h"

int redirected_shm_open(const char *name, int oflag, mode_t mode) IN_PLACE_OF(shm_open);
int redirected_shm_unlink(const char *name) IN_PLACE_OF(shm_unlink);
int redirected_ftruncate(int fd, off_t length) IN_PLACE_OF(ftruncate);
int redirected_ftruncate64(int fd, off_t length) IN_PLACE_OF(ftruncate64);
int redirected_posix_fallocate(int fd, off_t offset, off_t length) IN_PLACE_OF(posix_fallocate);
int redirected_posix_fallocate64(int fd, off_t offset, off_t length) IN_PLACE_OF(posix_fallocate64);
int redirected_fstat(int fd, struct stat *status) IN_PLACE_OF(fstat);
int redirected_fstat64(int fd, struct stat *status) IN_PLACE_OF(fstat64);
void *heard_mmap(void *address, size_t length, int protection, int flags, int fd, off_t offset) IN_PLACE_OF(mmap);
void *heard_mmap64(void *address, size_t length, int protection, int flags, int fd, off_t offset)
    IN_PLACE_OF(mmap64);
int redirected_shmget(key_t key, size_t size, int shmflg) IN_PLACE_OF(shmget);
void *redirected_shmat(int shmid, const void *shmaddr, int shmflg) IN_PLACE_OF(shmat);
int redirected_shmdt(const void *shmaddr) IN_PLACE_OF(shmdt);
int redirected_shmctl(int shmid, int cmd, struct shmid_ds *buf) IN_PLACE_OF(shmctl);
int heard_munmap(void *address, size_t length) IN_PLACE_OF(munmap);
int heard_msync(void *address, size_t length, int flags) IN_PLACE_OF(msync);

static struct {
    int (*shm_open)(const char *, int, mode_t);
    int (*shm_unlink)(const char *);
    int (*ftruncate)(int, off_t);
    int (*posix_fallocate)(int, off_t, off_t);
    int (*fstat)(int, struct stat *);
    void *(*mmap)(void *, size_t, int, int, int, off_t);
    int (*shmget)(key_t, size_t, int);
    void *(*shmat)(int, const void *, int);
    int (*shmdt)(const void *);
    int (*shmctl)(int, int, struct shmid_ds *);
    int (*munmap)(void *, size_t);
    int (*msync)(void *, size_t, int);
} own;

static bool is_strict, has_segments;

static void find(void *place, const char *name)
{
    *(void **) place = dlsym(RTLD_NEXT, name);
}

static bool is_set(const char *name)
{
    const char *value = secure_getenv(name);
    return value != NULL && *value != 0;
}

__attribute__((constructor)) static void find_own(void)
{
    find(&own.shm_open, "shm_open");
    find(&own.shm_unlink, "shm_unlink");
    find(&own.ftruncate, "ftruncate");
    find(&own.posix_fallocate, "posix_fallocate");
    find(&own.fstat, "fstat");
    find(&own.mmap, "mmap");
    find(&own.shmget, "shmget");
    find(&own.shmat, "shmat");
    find(&own.shmdt, "shmdt");
    find(&own.shmctl, "shmctl");
    find(&own.munmap, "munmap");
    find(&own.msync, "msync");
    is_strict = is_set("IPCD_STRICT");
    has_segments = is_set("IPCD_SEGMENTS");
}

// Another library's constructor may call before that of this one.
static bool are_served(void)
{
    if (own.shmget == NULL)
        find_own();
    return has_segments;
}

static void say(const char *call)
{
    static atomic_bool is_said;
    char text[100];
    snprintf(text, sizeof text, "shared memory (%s) stays the kernel's, and outlives no crash of the machine", call);
    say_once(&is_said, text);
}

// Whether the kernel's call is to be made.
static bool is_let(const char *call)
{
    if (is_strict) {
        errno = ENOSYS;
        return false;
    }
    say(call);
    return true;
}

int redirected_shm_open(const char *name, int oflag, mode_t mode)
{
    if (!are_served())
        return is_let("shm_open") ? own.shm_open(name, oflag, mode) : -1;
    SERVED(int, open_named(name, oflag, mode), -1);
}

int redirected_shm_unlink(const char *name)
{
    if (!are_served())
        return own.shm_unlink(name);
    SERVED(int, unlink_named(name), -1);
}

// Of what this library itself cuts, maps and looks at the system's calls are made.
static int place_of(int fd)
{
    return named_segments == 0 || holds() ? -1 : named_place(fd);
}

static int cut_segment(int place, int fd, off_t length)
{
    SERVED(int, cut_named(place, fd, length), -1);
}

int redirected_ftruncate(int fd, off_t length)
{
    int place = place_of(fd);
    if (place >= 0)
        return cut_segment(place, fd, length);
    return own.ftruncate != NULL ? own.ftruncate(fd, length) : (int) syscall(SYS_ftruncate, fd, length);
}

int redirected_ftruncate64(int fd, off_t length)
{
    return redirected_ftruncate(fd, length);
}

// A segment has room for each of its bytes.
int redirected_posix_fallocate(int fd, off_t offset, off_t length)
{
    struct stat status;
    int place = place_of(fd), saved = errno;
    are_served();
    if (place < 0 || offset < 0 || length <= 0 || own.fstat(fd, &status) < 0)
        return own.posix_fallocate(fd, offset, length);
    int result = status.st_size >= offset + length ? 0 : cut_segment(place, fd, offset + length);
    int error = result == 0 ? 0 : errno;
    errno = saved;
    return error;
}

int redirected_posix_fallocate64(int fd, off_t offset, off_t length)
{
    return redirected_posix_fallocate(fd, offset, length);
}

int redirected_fstat(int fd, struct stat *status)
{
    are_served();
    int result = own.fstat(fd, status);
    if (result == 0)
        tell_owner(status);
    return result;
}

int redirected_fstat64(int fd, struct stat *status)
{
    return redirected_fstat(fd, status);
}

// What finds the C library's call may map too.
void *heard_mmap(void *address, size_t length, int protection, int flags, int fd, off_t offset)
{
    int place = flags & MAP_SHARED ? place_of(fd) : -1;
    void *made = own.mmap != NULL ? own.mmap(address, length, protection, flags, fd, offset)
                                  : (void *) syscall(SYS_mmap, address, length, protection, flags, fd, offset);
    if (place >= 0 && made != MAP_FAILED)
        note_mapped(place, made, length);
    return made;
}

void *heard_mmap64(void *address, size_t length, int protection, int flags, int fd, off_t offset)
{
    return heard_mmap(address, length, protection, flags, fd, offset);
}

int redirected_shmget(key_t key, size_t size, int shmflg)
{
    if (!are_served())
        return is_let("shmget") ? own.shmget(key, size, shmflg) : -1;
    SERVED(int, ipcd_shmget(key, size, shmflg), -1);
}

void *redirected_shmat(int shmid, const void *shmaddr, int shmflg)
{
    if (!are_served())
        return is_let("shmat") ? own.shmat(shmid, shmaddr, shmflg) : (void *) -1;
    SERVED(void *, ipcd_shmat(shmid, shmaddr, shmflg), (void *) -1);
}

int redirected_shmdt(const void *shmaddr)
{
    if (!are_served())
        return own.shmdt(shmaddr);
    SERVED(int, ipcd_shmdt(shmaddr), -1);
}

int redirected_shmctl(int shmid, int cmd, struct shmid_ds *buf)
{
    if (!are_served())
        return own.shmctl(shmid, cmd, buf);
    SERVED(int, ipcd_shmctl(shmid, cmd, buf), -1);
}

// Before the C library's call is found the system's is made, since what finds it may unmap too.
int heard_munmap(void *address, size_t length)
{
    int result = unmap_range(address, length, own.munmap != NULL ? own.munmap : give_back);
    if (result == 0 && named_segments > 0)
        note_unmapped(address, length);
    return result;
}

static int write_back_of(const void *address, size_t length)
{
    SERVED(int, write_range(address, length), -1);
}

int heard_msync(void *address, size_t length, int flags)
{
    are_served();
    return write_back_of(address, length) < 0 ? -1 : own.msync(address, length, flags);
}
