// Named semaphores: sem_open(3), sem_wait(3), sem_post(3) and their kin.
#define _GNU_SOURCE
#include "named_semaphores.h"

#include <errno.h>
#include <fcntl.h>
#include <stdarg.h>

#include "handles.h"
#include "memory.h"
#include "places.h"

bool is_named_semaphore(const sem_t *sem)
{
    return number_of_place(current_client(), sem) < HANDLES;
}

// One that this process has not open yet is new to others, who are told before it is open.
static int open_named(struct ipcd *client, const char *given, struct wanted *wanted)
{
    char name[NAME_ROOM];
    ssize_t length = read_name(given, NAMED_SEMAPHORE, name);
    if (length >= 0 && handle_of_name(client, name, (size_t) length, NAMED_SEMAPHORE) < 0) {
        wanted->token = new_token();
        wanted->told = tell_open(client, NAMED_SEMAPHORE, name, (size_t) length, wanted->token);
    }
    return length < 0 ? -1 : open_handle(client, name, wanted);
}

sem_t *ipcd_sem_open(const char *name, int oflag, ...)
{
    struct wanted wanted = {.kind = NAMED_SEMAPHORE, .flags = (uint32_t) oflag & (O_CREAT | O_EXCL)};
    if (oflag & O_CREAT) {
        va_list rest;
        va_start(rest, oflag);
        wanted.mode = masked(va_arg(rest, mode_t));
        wanted.value = va_arg(rest, unsigned int);
        va_end(rest);
    }
    struct ipcd *client = current_client();
    int number = open_named(client, name, &wanted);
    return number < 0 ? SEM_FAILED : &place_of(client, (size_t) number)->semaphore;
}

int ipcd_sem_close(sem_t *sem)
{
    struct ipcd *client = current_client();
    return close_handle(client, number_of_place(client, sem), NAMED_SEMAPHORE, EINVAL);
}

static int value_at_server(struct ipcd *client, size_t number)
{
    struct link *link = begin_on(client, number, NAMED_SEMAPHORE, EINVAL, SEM_GETVALUE);
    return link == NULL ? -1 : end_number(link);
}

// Unlinks a semaphore that is open. If nobody else has it, it is the C library's from then on.
static int unlink_open(struct ipcd *client, size_t number, const char *name)
{
    struct place *place = place_of(client, number);
    if (!begin_change(place))
        return unlink_name(client, name, NAMED_SEMAPHORE, SEM_UNLINK);
    int value = value_at_server(client, number);
    if (value < 0 && errno != EINVAL) {
        end_change(place, false);
        return -1;
    }
    int result = unlink_name(client, name, NAMED_SEMAPHORE, SEM_UNLINK);
    struct handle handle;
    bool is_alone = result == 0 && value >= 0 && copy_handle(client, number, NAMED_SEMAPHORE, &handle) &&
        !is_open_elsewhere(client, number, &handle);
    bool is_made = is_alone && system_semaphores()->init(&place->semaphore, 1, (unsigned) value) == 0;
    if (end_change(place, is_made))
        leave_server(client, number);
    return result;
}

// Signals are blocked: a handler that calls in the midst of it would wait for itself.
int ipcd_sem_unlink(const char *given)
{
    struct ipcd *client = current_client();
    char name[NAME_ROOM];
    ssize_t length = read_name(given, NAMED_SEMAPHORE, name);
    if (length < 0)
        return -1;
    int number = handle_of_name(client, name, (size_t) length, NAMED_SEMAPHORE);
    if (number < 0)
        return unlink_name(client, name, NAMED_SEMAPHORE, SEM_UNLINK);
    sigset_t all_signals, mask;
    sigfillset(&all_signals);
    pthread_sigmask(SIG_BLOCK, &all_signals, &mask);
    int result = unlink_open(client, (size_t) number, name);
    pthread_sigmask(SIG_SETMASK, &mask, NULL);
    return result;
}

static struct link *begin_on_semaphore(struct ipcd *client, const sem_t *sem, enum opcode opcode)
{
    return begin_on(client, number_of_place(client, sem), NAMED_SEMAPHORE, EINVAL, opcode);
}

static int wait_on_link(struct ipcd *client, const sem_t *sem, uint64_t deadline)
{
    struct link *link = begin_on_semaphore(client, sem, SEM_WAIT);
    if (link == NULL)
        return -1;
    put_u64(link, deadline);
    return end_empty(link, RESTARTED);
}

static void leave_at_end(void *place)
{
    leave_place(place, 0);
}

// The thread may be cancelled in it.
static int wait_at_server(struct ipcd *client, struct place *place, uint64_t deadline)
{
    int result;
    pthread_cleanup_push(leave_at_end, place);
    result = wait_on_link(client, &place->semaphore, deadline);
    pthread_cleanup_pop(true);
    return result;
}

int ipcd_sem_wait(sem_t *sem)
{
    struct ipcd *client = current_client();
    bool is_own;
    struct place *place = enter_place(client, sem, &is_own);
    if (place == NULL)
        return -1;
    return is_own ? system_semaphores()->wait(sem) : wait_at_server(client, place, NO_TIME);
}

int ipcd_sem_timedwait(sem_t *sem, const struct timespec *abs_timeout)
{
    return ipcd_sem_clockwait(sem, CLOCK_REALTIME, abs_timeout);
}

// The server's clock is CLOCK_REALTIME, so a moment of another is moved to it: 0, or an error.
static int deadline_of(clockid_t clock, const struct timespec *abs_timeout, uint64_t *deadline)
{
    uint64_t now, real;
    struct timespec time, here;
    int refusal = abs_timeout == NULL ? EFAULT : milliseconds(abs_timeout, deadline);
    if (refusal == EINVAL && abs_timeout->tv_nsec >= 0 && abs_timeout->tv_nsec < 1000000000)
        refusal = (int) (*deadline = 0);
    if (refusal == 0 && clock != CLOCK_REALTIME && clock != CLOCK_MONOTONIC)
        refusal = EINVAL;
    if (refusal == 0 && clock == CLOCK_MONOTONIC && *deadline != NO_TIME) {
        clock_gettime(CLOCK_MONOTONIC, &here);
        clock_gettime(CLOCK_REALTIME, &time);
        milliseconds(&here, &now);
        milliseconds(&time, &real);
        *deadline = *deadline > now ? *deadline - now + real : 0;
    }
    return refusal;
}

static int wait_for_own(sem_t *sem, clockid_t clock, const struct timespec *abs_timeout)
{
    const struct system_semaphores *system = system_semaphores();
    return clock == CLOCK_REALTIME ? system->timedwait(sem, abs_timeout) : system->clockwait(sem, clock, abs_timeout);
}

int ipcd_sem_clockwait(sem_t *sem, clockid_t clock, const struct timespec *abs_timeout)
{
    struct ipcd *client = current_client();
    uint64_t deadline;
    bool is_own;
    int refusal = deadline_of(clock, abs_timeout, &deadline);
    if (refusal != 0) {
        errno = refusal;
        return -1;
    }
    struct place *place = enter_place(client, sem, &is_own);
    if (place == NULL)
        return -1;
    return is_own ? wait_for_own(sem, clock, abs_timeout) : wait_at_server(client, place, deadline);
}

static int call_at_server(struct ipcd *client, const sem_t *sem, enum opcode opcode)
{
    struct link *link = begin_on_semaphore(client, sem, opcode);
    return link == NULL ? -1 : end_empty(link, ANSWERED_AT_ONCE);
}

int ipcd_sem_trywait(sem_t *sem)
{
    struct ipcd *client = current_client();
    bool is_own;
    struct place *place = enter_place(client, sem, &is_own);
    if (place == NULL)
        return -1;
    return is_own ? system_semaphores()->trywait(sem) : leave_place(place, call_at_server(client, sem, SEM_TRYWAIT));
}

int ipcd_sem_post(sem_t *sem)
{
    struct ipcd *client = current_client();
    bool is_own;
    struct place *place = enter_place(client, sem, &is_own);
    if (place == NULL)
        return -1;
    return is_own ? system_semaphores()->post(sem) : leave_place(place, call_at_server(client, sem, SEM_POST));
}

int ipcd_sem_getvalue(sem_t *sem, int *sval)
{
    struct ipcd *client = current_client();
    bool is_own;
    if (!is_writable(sval, sizeof *sval)) {
        errno = EFAULT;
        return -1;
    }
    struct place *place = enter_place(client, sem, &is_own);
    if (place == NULL)
        return -1;
    if (is_own)
        return system_semaphores()->getvalue(sem, sval);
    int value = leave_place(place, value_at_server(client, number_of_place(client, sem)));
    if (value < 0)
        return -1;
    *sval = value;
    return 0;
}
