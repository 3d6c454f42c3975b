// The client by whose connection bytes of mapped segments go, its lock and its thread: see mapper.h.
#define _GNU_SOURCE
#include "mapper.h"

#include <errno.h>
#include <linux/futex.h>
#include <sys/syscall.h>
#include <unistd.h>

#include "mapped_segments.h"
#include "named_segments.h"

enum { PERIOD = 100 * 1000 * 1000 };

static pthread_mutex_t lock = PTHREAD_MUTEX_INITIALIZER;
static bool has_thread;
static atomic_uint has_begun; // the thread
static bool is_held;          // around a fork
static sigset_t mask_at_fork;
static _Thread_local bool is_holder;

atomic_uint mapped_segments;

struct held hold(void)
{
    struct held held = {.saved_errno = errno};
    sigset_t all_signals;
    sigfillset(&all_signals);
    // In a process that was forked the lock is a new one from then on.
    current_client();
    held.cancellation = hold_cancellation();
    pthread_sigmask(SIG_BLOCK, &all_signals, &held.mask);
    pthread_mutex_lock(&lock);
    held.used = ipcd_use(NULL);
    is_holder = true;
    return held;
}

bool holds(void)
{
    return is_holder;
}

int let(const struct held *held, int result)
{
    int error = errno;
    ipcd_use(held->used);
    is_holder = false;
    pthread_mutex_unlock(&lock);
    pthread_sigmask(SIG_SETMASK, &held->mask, NULL);
    allow_cancellation(held->cancellation);
    errno = result < 0 ? error : held->saved_errno;
    return result;
}

struct ipcd *mapper_of(struct ipcd *client)
{
    if (client->mapper == NULL)
        client->mapper = ipcd_connect(client->path);
    return client->mapper;
}

size_t pages_of(size_t size)
{
    size_t page = (size_t) sysconf(_SC_PAGESIZE);
    return (size + page - 1) / page * page;
}

static int write_each(void)
{
    int result = write_attached();
    return result == 0 ? write_named() : result;
}

int write_mapped_back(void)
{
    struct held held = hold();
    return let(&held, write_each());
}

static void *write_now_and_then(void *none)
{
    sigset_t all_signals;
    sigfillset(&all_signals);
    pthread_sigmask(SIG_BLOCK, &all_signals, NULL);
    has_begun = 1;
    syscall(SYS_futex, &has_begun, FUTEX_WAKE_PRIVATE, 1, NULL, NULL, 0);
    for (;;) {
        nanosleep(&(struct timespec){.tv_nsec = PERIOD}, NULL);
        struct held held = hold();
        write_each();
        leave_unused();
        bool is_needed = mapped_segments > 0;
        has_thread = is_needed;
        let(&held, 0);
        if (!is_needed)
            return none;
    }
}

// What is mapped while a thread begins, as by a sanitizer, is there before the program goes on: it could come to where
// the program wants its next segment. In a forked process there is one thread, and the lock is not needed.
void have_a_thread(void)
{
    pthread_t thread;
    int saved = errno;
    if (has_thread || mapped_segments == 0)
        return;
    has_begun = 0;
    has_thread = pthread_create(&thread, NULL, write_now_and_then, NULL) == 0;
    if (has_thread)
        pthread_detach(thread);
    while (has_thread && !has_begun)
        syscall(SYS_futex, &has_begun, FUTEX_WAIT_PRIVATE, 0, NULL, NULL, 0);
    errno = saved;
}

void hold_mappings(void)
{
    sigset_t all_signals, mask;
    sigfillset(&all_signals);
    pthread_sigmask(SIG_BLOCK, &all_signals, &mask);
    pthread_mutex_lock(&lock);
    mask_at_fork = mask;
    is_held = true;
}

void let_mappings(void)
{
    sigset_t mask = mask_at_fork;
    is_held = false;
    pthread_mutex_unlock(&lock);
    pthread_sigmask(SIG_SETMASK, &mask, NULL);
}

void renew_mappings(void)
{
    // However it was forked: by fork(2) it has the lock, by another call nobody has it any more.
    if (!is_held)
        lock = (pthread_mutex_t) PTHREAD_MUTEX_INITIALIZER;
    has_thread = false;
    have_a_thread();
}
