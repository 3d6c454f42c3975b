// Calls that wait for descriptors: poll(2), select(2), epoll_wait(2) and their kin. If POSIX queues are among these,
// the server is asked how they are, at first and then after longer and longer slices of the system's wait.
#define _GNU_SOURCE
#include <dlfcn.h>
#include <errno.h>
#include <limits.h>
#include <poll.h>
#include <pthread.h>
#include <string.h>
#include <sys/epoll.h>
#include <sys/select.h>
#include <time.h>

#include "memory.h"
#include "preload.h"
#include "queue_files.h"

int redirected_poll(struct pollfd *entries, nfds_t count, int timeout) IN_PLACE_OF(poll);
int redirected_poll_chk(struct pollfd *entries, nfds_t count, int timeout, size_t size) IN_PLACE_OF(__poll_chk);
int redirected_ppoll(struct pollfd *entries, nfds_t count, const struct timespec *timeout, const sigset_t *mask)
    IN_PLACE_OF(ppoll);
int redirected_ppoll_chk(struct pollfd *entries, nfds_t count, const struct timespec *timeout, const sigset_t *mask,
                         size_t size) IN_PLACE_OF(__ppoll_chk);
int redirected_select(int past, fd_set *in, fd_set *out, fd_set *other, struct timeval *timeout)
    IN_PLACE_OF(select);
int redirected_pselect(int past, fd_set *in, fd_set *out, fd_set *other, const struct timespec *timeout,
                       const sigset_t *mask) IN_PLACE_OF(pselect);
int heard_epoll_ctl(int epoll, int change, int fd, struct epoll_event *event) IN_PLACE_OF(epoll_ctl);
int redirected_epoll_wait(int epoll, struct epoll_event *events, int most, int timeout) IN_PLACE_OF(epoll_wait);
int redirected_epoll_pwait(int epoll, struct epoll_event *events, int most, int timeout, const sigset_t *mask)
    IN_PLACE_OF(epoll_pwait);
int redirected_epoll_pwait2(int epoll, struct epoll_event *events, int most, const struct timespec *timeout,
                            const sigset_t *mask) IN_PLACE_OF(epoll_pwait2);

// The longest slice is how late a wait may end.
enum { MILLISECOND = 1000 * 1000, LONGEST = 20 * MILLISECOND };
static const int64_t SECOND = 1000 * 1000 * 1000, FOR_EVER = INT64_MAX;

static struct {
    int (*poll)(struct pollfd *, nfds_t, int);
    int (*poll_chk)(struct pollfd *, nfds_t, int, size_t);
    int (*ppoll)(struct pollfd *, nfds_t, const struct timespec *, const sigset_t *);
    int (*ppoll_chk)(struct pollfd *, nfds_t, const struct timespec *, const sigset_t *, size_t);
    int (*select)(int, fd_set *, fd_set *, fd_set *, struct timeval *);
    int (*pselect)(int, fd_set *, fd_set *, fd_set *, const struct timespec *, const sigset_t *);
    int (*epoll_ctl)(int, int, int, struct epoll_event *);
    int (*epoll_wait)(int, struct epoll_event *, int, int);
    int (*epoll_pwait)(int, struct epoll_event *, int, int, const sigset_t *);
    int (*epoll_pwait2)(int, struct epoll_event *, int, const struct timespec *, const sigset_t *);
} own;

// A wait of the program.
struct wait {
    uint64_t queues;
    int64_t end;              // nanoseconds of CLOCK_MONOTONIC, or FOR_EVER
    const sigset_t *mask;     // what is blocked meanwhile, or NULL for what the thread has
    struct pollfd *entries;
    nfds_t count;
    int past;
    fd_set *sets[3];
    int epoll;                // or -1
    struct epoll_event *events;
    int most;
};

static void find(void *place, const char *name)
{
    *(void **) place = dlsym(RTLD_NEXT, name);
}

__attribute__((constructor)) static void find_own(void)
{
    find(&own.poll_chk, "__poll_chk");
    find(&own.ppoll, "ppoll");
    find(&own.ppoll_chk, "__ppoll_chk");
    find(&own.select, "select");
    find(&own.pselect, "pselect");
    find(&own.epoll_ctl, "epoll_ctl");
    find(&own.epoll_wait, "epoll_wait");
    find(&own.epoll_pwait, "epoll_pwait");
    find(&own.epoll_pwait2, "epoll_pwait2");
    find(&own.poll, "poll");
}

// Another library's constructor may call before that of this one.
static void be_ready(void)
{
    if (own.poll == NULL)
        find_own();
}

static int64_t now(void)
{
    struct timespec time;
    clock_gettime(CLOCK_MONOTONIC, &time);
    return time.tv_sec * SECOND + time.tv_nsec;
}

// A moment that is later than any counts as none.
static int64_t end_after(int64_t seconds, int64_t nanoseconds)
{
    int64_t most = (FOR_EVER - now()) / SECOND - 1;
    return seconds >= most ? FOR_EVER : now() + seconds * SECOND + nanoseconds;
}

static int64_t end_of_milliseconds(int timeout)
{
    return timeout < 0 ? FOR_EVER : end_after(timeout / 1000, (int64_t) (timeout % 1000) * MILLISECOND);
}

static int64_t end_of(const struct timespec *timeout)
{
    return timeout == NULL ? FOR_EVER : end_after(timeout->tv_sec, timeout->tv_nsec);
}

// A time that the system itself refuses, or that it cannot read.
static bool is_time(const struct timespec *timeout)
{
    return timeout == NULL || (is_readable(timeout, sizeof *timeout) && timeout->tv_sec >= 0 &&
        timeout->tv_nsec >= 0 && timeout->tv_nsec < SECOND);
}

// The system changes the sets also if nothing has come: then the program's are still needed, until its time is over.
static int select_once(const struct wait *it, const struct timespec *time)
{
    fd_set sets[3], *given[3] = {NULL};
    for (int i = 0; i < 3; i++)
        if (it->sets[i] != NULL) {
            sets[i] = *it->sets[i];
            given[i] = &sets[i];
        }
    int result = own.pselect(it->past, given[0], given[1], given[2], time, it->mask);
    for (int i = 0; result > 0 && i < 3; i++)
        if (given[i] != NULL)
            *it->sets[i] = sets[i];
    return result;
}

static int wait_once(const struct wait *it, int64_t slice)
{
    struct timespec time = {slice / SECOND, slice % SECOND};
    if (it->entries != NULL)
        return own.ppoll(it->entries, it->count, &time, it->mask);
    if (it->epoll < 0)
        return select_once(it, &time);
    int milliseconds = (int) ((slice + MILLISECOND - 1) / MILLISECOND);
    return own.epoll_pwait(it->epoll, it->events, it->most, milliseconds, it->mask);
}

static void set_mask(void *mask)
{
    pthread_sigmask(SIG_SETMASK, mask, NULL);
}

static int wait_each_slice(const struct wait *it)
{
    struct attempts attempts = begin_attempts();
    int64_t slice = MILLISECOND;
    for (bool is_first = true;; is_first = false) {
        ask_queues(it->queues, is_first && it->epoll >= 0, &attempts);
        int64_t left = it->end == FOR_EVER ? FOR_EVER : it->end - now();
        int result = wait_once(it, left < 0 ? 0 : left < slice ? left : slice);
        if (result != 0 || left <= slice)
            return result;
        slice = 2 * slice < LONGEST ? 2 * slice : LONGEST;
    }
}

// A signal that comes while the server is asked ends the wait, as one does that comes in the wait itself: signals are
// blocked, except in the system's wait.
static int wait_in_slices(struct wait *it)
{
    sigset_t all_signals, before;
    int result, saved = errno;
    sigfillset(&all_signals);
    pthread_sigmask(SIG_BLOCK, &all_signals, &before);
    if (it->mask == NULL)
        it->mask = &before;
    pthread_cleanup_push(set_mask, &before);
    result = wait_each_slice(it);
    if (result >= 0)
        errno = saved;
    pthread_cleanup_pop(true);
    return result;
}

static uint64_t queues_of_entries(const struct pollfd *entries, nfds_t count)
{
    uint64_t found = 0;
    if (queue_files == 0 || count > INT_MAX || !is_readable(entries, count * sizeof *entries))
        return 0;
    for (nfds_t i = 0; i < count; i++)
        found |= queues_behind(entries[i].fd);
    return found;
}

static int poll_in_slices(struct wait it, struct pollfd *entries, nfds_t count)
{
    it.entries = entries;
    it.count = count;
    it.epoll = -1;
    return wait_in_slices(&it);
}

int redirected_poll(struct pollfd *entries, nfds_t count, int timeout)
{
    be_ready();
    uint64_t queues = queues_of_entries(entries, count);
    if (queues == 0)
        return own.poll(entries, count, timeout);
    return poll_in_slices((struct wait){.queues = queues, .end = end_of_milliseconds(timeout)}, entries, count);
}

int redirected_poll_chk(struct pollfd *entries, nfds_t count, int timeout, size_t size)
{
    be_ready();
    if (queue_files == 0 || size / sizeof *entries < count)
        return own.poll_chk(entries, count, timeout, size);
    return redirected_poll(entries, count, timeout);
}

int redirected_ppoll(struct pollfd *entries, nfds_t count, const struct timespec *timeout, const sigset_t *mask)
{
    be_ready();
    uint64_t queues = queues_of_entries(entries, count);
    if (queues == 0 || !is_time(timeout))
        return own.ppoll(entries, count, timeout, mask);
    return poll_in_slices((struct wait){.queues = queues, .end = end_of(timeout), .mask = mask}, entries, count);
}

int redirected_ppoll_chk(struct pollfd *entries, nfds_t count, const struct timespec *timeout, const sigset_t *mask,
                         size_t size)
{
    be_ready();
    if (queue_files == 0 || size / sizeof *entries < count)
        return own.ppoll_chk(entries, count, timeout, mask, size);
    return redirected_ppoll(entries, count, timeout, mask);
}

// A set of more descriptors than an fd_set has is none of this library's.
static uint64_t queues_of_sets(int past, fd_set *const *sets)
{
    uint64_t found = 0;
    if (queue_files == 0 || past < 0 || past > FD_SETSIZE)
        return 0;
    for (int i = 0; i < 3; i++) {
        if (sets[i] == NULL || !is_writable(sets[i], sizeof(fd_set)))
            continue;
        for (int fd = 0; fd < past; fd++)
            if (FD_ISSET(fd, sets[i]))
                found |= queues_behind(fd);
    }
    return found;
}

static int select_in_slices(struct wait it, int past, fd_set *const *sets)
{
    it.past = past;
    it.epoll = -1;
    memcpy(it.sets, sets, sizeof it.sets);
    int result = wait_in_slices(&it);
    for (int i = 0; result == 0 && i < 3; i++)
        if (sets[i] != NULL)
            FD_ZERO(sets[i]);
    return result;
}

// The time that is left goes where the program has that of its wait.
int redirected_select(int past, fd_set *in, fd_set *out, fd_set *other, struct timeval *timeout)
{
    be_ready();
    fd_set *sets[3] = {in, out, other};
    uint64_t queues = queues_of_sets(past, sets);
    bool is_good = timeout == NULL || (is_writable(timeout, sizeof *timeout) && timeout->tv_sec >= 0 &&
        timeout->tv_usec >= 0);
    if (queues == 0 || !is_good)
        return own.select(past, in, out, other, timeout);
    int64_t end = timeout == NULL ? FOR_EVER : end_after(timeout->tv_sec, (int64_t) timeout->tv_usec * 1000);
    int result = select_in_slices((struct wait){.queues = queues, .end = end}, past, sets);
    int64_t left = end == FOR_EVER ? 0 : end - now();
    if (timeout != NULL && end != FOR_EVER)
        *timeout = (struct timeval){left < 0 ? 0 : left / SECOND, left < 0 ? 0 : left % SECOND / 1000};
    return result;
}

int redirected_pselect(int past, fd_set *in, fd_set *out, fd_set *other, const struct timespec *timeout,
                       const sigset_t *mask)
{
    be_ready();
    fd_set *sets[3] = {in, out, other};
    uint64_t queues = queues_of_sets(past, sets);
    if (queues == 0 || !is_time(timeout))
        return own.pselect(past, in, out, other, timeout, mask);
    return select_in_slices((struct wait){.queues = queues, .end = end_of(timeout), .mask = mask}, past, sets);
}

int heard_epoll_ctl(int epoll, int change, int fd, struct epoll_event *event)
{
    be_ready();
    int result = own.epoll_ctl(epoll, change, fd, event), place = result == 0 ? queue_place(fd) : -1;
    if (place >= 0)
        watch_queue(place, epoll, change != EPOLL_CTL_DEL);
    return result;
}

int redirected_epoll_wait(int epoll, struct epoll_event *events, int most, int timeout)
{
    be_ready();
    uint64_t queues = queues_of_epoll(epoll);
    if (queues == 0)
        return own.epoll_wait(epoll, events, most, timeout);
    return redirected_epoll_pwait(epoll, events, most, timeout, NULL);
}

int redirected_epoll_pwait(int epoll, struct epoll_event *events, int most, int timeout, const sigset_t *mask)
{
    be_ready();
    uint64_t queues = queues_of_epoll(epoll);
    if (queues == 0)
        return own.epoll_pwait(epoll, events, most, timeout, mask);
    struct wait it = {.queues = queues, .end = end_of_milliseconds(timeout), .mask = mask};
    it.epoll = epoll;
    it.events = events;
    it.most = most;
    return wait_in_slices(&it);
}

int redirected_epoll_pwait2(int epoll, struct epoll_event *events, int most, const struct timespec *timeout,
                            const sigset_t *mask)
{
    be_ready();
    uint64_t queues = queues_of_epoll(epoll);
    if (queues == 0 || !is_time(timeout))
        return own.epoll_pwait2(epoll, events, most, timeout, mask);
    struct wait it = {.queues = queues, .end = end_of(timeout), .mask = mask};
    it.epoll = epoll;
    it.events = events;
    it.most = most;
    return wait_in_slices(&it);
}
