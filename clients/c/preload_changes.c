// Calls that change the user of a process, close files, set handlers, or cancel a thread: they do what they did, and
// it is known.
#define _GNU_SOURCE
#include <dlfcn.h>
#include <limits.h>
#include <linux/close_range.h>
#include <pthread.h>
#include <signal.h>
#include <stddef.h>
#include <sys/syscall.h>
#include <sys/types.h>
#include <unistd.h>

#include "cancellation.h"
#include "changes.h"
#include "memory.h"
#include "preload.h"
#include "queue_files.h"

int heard_close(int fd) IN_PLACE_OF(close);
int heard_dup(int from) IN_PLACE_OF(dup);
int heard_dup2(int from, int to) IN_PLACE_OF(dup2);
int heard_dup3(int from, int to, int flags) IN_PLACE_OF(dup3);
int heard_close_range(unsigned first, unsigned last, int flags) IN_PLACE_OF(close_range);
void heard_closefrom(int first) IN_PLACE_OF(closefrom);
int heard_setuid(uid_t user) IN_PLACE_OF(setuid);
int heard_seteuid(uid_t user) IN_PLACE_OF(seteuid);
int heard_setreuid(uid_t real, uid_t effective) IN_PLACE_OF(setreuid);
int heard_setresuid(uid_t real, uid_t effective, uid_t saved) IN_PLACE_OF(setresuid);
int heard_setgid(gid_t group) IN_PLACE_OF(setgid);
int heard_setegid(gid_t group) IN_PLACE_OF(setegid);
int heard_setregid(gid_t real, gid_t effective) IN_PLACE_OF(setregid);
int heard_setresgid(gid_t real, gid_t effective, gid_t saved) IN_PLACE_OF(setresgid);
int heard_sigaction(int number, const struct sigaction *wanted, struct sigaction *before) IN_PLACE_OF(sigaction);
int heard_siginterrupt(int number, int flag) IN_PLACE_OF(siginterrupt);
int heard_pthread_cancel(pthread_t thread) IN_PLACE_OF(pthread_cancel);
sighandler_t heard_signal(int number, sighandler_t handler) IN_PLACE_OF(signal);
sighandler_t heard_bsd_signal(int number, sighandler_t handler) IN_PLACE_OF(bsd_signal);
sighandler_t heard_ssignal(int number, sighandler_t handler) IN_PLACE_OF(ssignal);
sighandler_t heard_sigset(int number, sighandler_t handler) IN_PLACE_OF(sigset);

static struct {
    int (*close)(int);
    int (*dup)(int);
    int (*dup2)(int, int);
    int (*dup3)(int, int, int);
    int (*close_range)(unsigned, unsigned, int);
    void (*closefrom)(int);
    int (*setuid)(uid_t);
    int (*seteuid)(uid_t);
    int (*setreuid)(uid_t, uid_t);
    int (*setresuid)(uid_t, uid_t, uid_t);
    int (*setgid)(gid_t);
    int (*setegid)(gid_t);
    int (*setregid)(gid_t, gid_t);
    int (*setresgid)(gid_t, gid_t, gid_t);
    int (*sigaction)(int, const struct sigaction *, struct sigaction *);
    int (*siginterrupt)(int, int);
    sighandler_t (*signal)(int, sighandler_t);
    sighandler_t (*sigset)(int, sighandler_t);
    int (*pthread_cancel)(pthread_t);
} own;

static void find(void *place, const char *name)
{
    *(void **) place = dlsym(RTLD_NEXT, name);
}

__attribute__((constructor)) static void find_own(void)
{
    find(&own.close, "close");
    find(&own.dup, "dup");
    find(&own.dup2, "dup2");
    find(&own.dup3, "dup3");
    find(&own.close_range, "close_range");
    find(&own.closefrom, "closefrom");
    find(&own.setuid, "setuid");
    find(&own.seteuid, "seteuid");
    find(&own.setreuid, "setreuid");
    find(&own.setresuid, "setresuid");
    find(&own.setgid, "setgid");
    find(&own.setegid, "setegid");
    find(&own.setregid, "setregid");
    find(&own.setresgid, "setresgid");
    find(&own.sigaction, "sigaction");
    find(&own.siginterrupt, "siginterrupt");
    find(&own.signal, "signal");
    find(&own.sigset, "sigset");
    find(&own.pthread_cancel, "pthread_cancel");
    changes.are_heard = true;
}

static int files_changed(int result)
{
    changes.of_files++;
    return result;
}

static int user_changed(int result)
{
    changes.of_users++;
    return result;
}

// Another library's constructor may call before that of this one.
static void be_ready(void)
{
    if (own.close == NULL)
        find_own();
}

int heard_close(int fd)
{
    mqd_t queue = forget_queue_file(fd);
    int result = files_changed(own.close != NULL ? own.close(fd) : (int) syscall(SYS_close, fd));
    return close_queue(queue, result);
}

// A descriptor is another file's now. If it was a queue's, that is closed.
static int is_replaced(int fd)
{
    close_queues((unsigned) fd, (unsigned) fd);
    return fd;
}

int heard_dup(int from)
{
    be_ready();
    int place = place_to_copy(from), room = place < 0 ? -1 : begin_copy(place);
    if (place < 0)
        return own.dup(from);
    return room < 0 ? -1 : end_copy(room, own.dup(from));
}

int heard_dup2(int from, int to)
{
    be_ready();
    int place = from == to ? -1 : place_to_copy(from), room = place < 0 ? -1 : begin_copy(place);
    if (place >= 0 && room < 0)
        return -1;
    int result = files_changed(own.dup2(from, to));
    if (room >= 0)
        return end_copy(room, result);
    return from == to || result < 0 ? result : is_replaced(to);
}

int heard_dup3(int from, int to, int flags)
{
    be_ready();
    int place = from == to ? -1 : place_to_copy(from), room = place < 0 ? -1 : begin_copy(place);
    if (place >= 0 && room < 0)
        return -1;
    int result = files_changed(own.dup3(from, to, flags));
    if (room >= 0)
        return end_copy(room, result);
    return result < 0 ? result : is_replaced(to);
}

int heard_close_range(unsigned first, unsigned last, int flags)
{
    be_ready();
    int result = files_changed(own.close_range(first, last, flags));
    if (result == 0 && !(flags & CLOSE_RANGE_CLOEXEC))
        close_queues(first, last);
    return result;
}

void heard_closefrom(int first)
{
    be_ready();
    own.closefrom(first);
    files_changed(0);
    close_queues(first < 0 ? 0 : (unsigned) first, UINT_MAX);
}

int heard_setuid(uid_t user)
{
    be_ready();
    return user_changed(own.setuid(user));
}

int heard_seteuid(uid_t user)
{
    be_ready();
    return user_changed(own.seteuid(user));
}

int heard_setreuid(uid_t real, uid_t effective)
{
    be_ready();
    return user_changed(own.setreuid(real, effective));
}

int heard_setresuid(uid_t real, uid_t effective, uid_t saved)
{
    be_ready();
    return user_changed(own.setresuid(real, effective, saved));
}

int heard_setgid(gid_t group)
{
    be_ready();
    return user_changed(own.setgid(group));
}

int heard_setegid(gid_t group)
{
    be_ready();
    return user_changed(own.setegid(group));
}

int heard_setregid(gid_t real, gid_t effective)
{
    be_ready();
    return user_changed(own.setregid(real, effective));
}

int heard_setresgid(gid_t real, gid_t effective, gid_t saved)
{
    be_ready();
    return user_changed(own.setresgid(real, effective, saved));
}

// A handler counts before it can run. One that is not set counts too: that costs some time, and changes nothing.
int heard_sigaction(int number, const struct sigaction *wanted, struct sigaction *before)
{
    be_ready();
    if (is_readable(wanted, sizeof *wanted) && (wanted->sa_flags & SA_RESTART))
        changes.some_restart = true;
    return own.sigaction(number, wanted, before);
}

int heard_siginterrupt(int number, int flag)
{
    be_ready();
    changes.some_restart = true;
    return own.siginterrupt(number, flag);
}

sighandler_t heard_signal(int number, sighandler_t handler)
{
    be_ready();
    if (handler != SIG_DFL && handler != SIG_IGN)
        changes.some_restart = true;
    return own.signal(number, handler);
}

sighandler_t heard_bsd_signal(int number, sighandler_t handler)
{
    return heard_signal(number, handler);
}

sighandler_t heard_ssignal(int number, sighandler_t handler)
{
    return heard_signal(number, handler);
}

sighandler_t heard_sigset(int number, sighandler_t handler)
{
    be_ready();
    changes.some_restart = true;
    return own.sigset(number, handler);
}

int heard_pthread_cancel(pthread_t thread)
{
    be_ready();
    int result = own.pthread_cancel(thread);
    if (result == 0)
        end_call_of(thread);
    return result;
}
