// Libraries that a program loads, and calls that it finds by name. With RTLD_DEEPBIND a library would take the C
// library's calls before those that are preloaded, and so it is loaded without. Of a call that is redirected the handle
// of the C library gives the one that is preloaded.
#define _GNU_SOURCE
#include <dlfcn.h>
#include <stdatomic.h>
#include <stddef.h>
#include <stdlib.h>
#include <string.h>

#include "preload.h"

// The system sees who calls these by the place to which they return: whose search path counts, and who is next. So what
// stands in their place leaves by a jump.
#ifdef __has_attribute
#if __has_attribute(musttail)
#define BY_A_JUMP __attribute__((musttail))
#endif
#endif
#ifndef BY_A_JUMP
#define BY_A_JUMP
#endif

void *redirected_dlopen(const char *file, int mode) IN_PLACE_OF(dlopen);
void *redirected_dlmopen(Lmid_t list, const char *file, int mode) IN_PLACE_OF(dlmopen);
void *redirected_dlsym(void *restrict handle, const char *restrict name) IN_PLACE_OF(dlsym);

static struct {
    void *(*dlsym)(void *restrict, const char *restrict);
    void *(*dlopen)(const char *, int);
    void *(*dlmopen)(Lmid_t, const char *, int);
} own;

// This library's handle.
static _Atomic(void *) self;

// What it has, as preload.map has it, in the order of strcmp.
static const char *const names[] = {
    "__mq_open_2", "__poll_chk", "__ppoll_chk", "__read_chk", "bsd_signal", "close", "close_range", "closefrom",
    "dlmopen", "dlopen", "dlsym", "dup", "dup2", "dup3", "epoll_ctl", "epoll_pwait", "epoll_pwait2", "epoll_wait",
    "fcntl", "fcntl64", "fstat", "fstat64", "ftruncate", "ftruncate64", "mmap", "mmap64", "mq_close", "mq_getattr",
    "mq_notify", "mq_open", "mq_receive", "mq_send", "mq_setattr", "mq_timedreceive", "mq_timedsend", "mq_unlink", "msgctl",
    "msgget", "msgrcv", "msgsnd", "msync", "munmap", "poll", "posix_fallocate", "posix_fallocate64", "ppoll",
    "pselect", "pthread_cancel", "read", "select", "sem_clockwait", "sem_close", "sem_getvalue", "sem_open",
    "sem_post", "sem_timedwait", "sem_trywait", "sem_unlink", "sem_wait", "semctl", "semget", "semop", "semtimedop",
    "setegid", "seteuid", "setgid", "setregid", "setresgid", "setresuid", "setreuid", "setuid", "shm_open",
    "shm_unlink", "shmat", "shmctl", "shmdt", "shmget", "sigaction", "siginterrupt", "signal", "sigset", "ssignal",
};

// Which version it has is each processor's: the first that the C library had there, and 2.34 on those that are older.
static void find_dlsym(void)
{
    static const char *const versions[] = {
        "GLIBC_2.34", "GLIBC_2.2.5", "GLIBC_2.17", "GLIBC_2.27", "GLIBC_2.2", "GLIBC_2.36"};
    for (size_t i = 0; own.dlsym == NULL && i < sizeof versions / sizeof *versions; i++)
        *(void **) &own.dlsym = dlvsym(RTLD_NEXT, "dlsym", versions[i]);
}

// Another library's constructor may call before any of this one.
static void be_ready(void)
{
    if (own.dlsym == NULL)
        find_dlsym();
}

static void be_ready_to_load(void)
{
    be_ready();
    if (own.dlopen == NULL)
        *(void **) &own.dlopen = own.dlsym(RTLD_NEXT, "dlopen");
    if (own.dlmopen == NULL)
        *(void **) &own.dlmopen = own.dlsym(RTLD_NEXT, "dlmopen");
}

__attribute__((constructor)) static void find_own(void)
{
    be_ready_to_load();
}

static void find_self(void)
{
    Dl_info info;
    be_ready_to_load();
    if (dladdr(&own, &info) != 0)
        self = own.dlopen(info.dli_fname, RTLD_LAZY | RTLD_NOLOAD);
}

static int compare(const void *name, const void *row)
{
    return strcmp(name, *(const char *const *) row);
}

void *redirected_dlopen(const char *file, int mode)
{
    be_ready_to_load();
    BY_A_JUMP return own.dlopen(file, mode & ~RTLD_DEEPBIND);
}

void *redirected_dlmopen(Lmid_t list, const char *file, int mode)
{
    static atomic_bool is_said;
    be_ready_to_load();
    if (list != LM_ID_BASE)
        say_once(&is_said, "calls of a namespace that dlmopen makes stay the kernel's, "
                           "and outlive no crash of the machine");
    BY_A_JUMP return own.dlmopen(list, file, mode & ~RTLD_DEEPBIND);
}

// What was found by a handle, or in its place this library's own, if it is the C library's call of that name. A library
// may have a function of its own with such a name.
static void *redirected(void *found, const char *name)
{
    if (found == NULL || bsearch(name, names, sizeof names / sizeof *names, sizeof *names, compare) == NULL)
        return found;
    if (self == NULL)
        find_self();
    bool is_the_systems = self != NULL && own.dlsym(RTLD_NEXT, name) == found;
    void *ours = is_the_systems ? own.dlsym(self, name) : NULL;
    // Of what is not there the program has not asked.
    dlerror();
    return ours != NULL ? ours : found;
}

void *redirected_dlsym(void *restrict handle, const char *restrict name)
{
    be_ready();
    if (handle != RTLD_NEXT && handle != RTLD_DEFAULT)
        return redirected(own.dlsym(handle, name), name);
    BY_A_JUMP return own.dlsym(handle, name);
}
