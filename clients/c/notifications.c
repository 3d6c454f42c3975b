// Notifications of mq_notify(3): each registration is a process of the server with a thread that reads its frame.
#define _GNU_SOURCE
#include <errno.h>
#include <limits.h>
#include <linux/futex.h>
#include <mqueue.h>
#include <sched.h>
#include <stdlib.h>
#include <string.h>
#include <sys/mman.h>
#include <sys/socket.h>
#include <sys/syscall.h>
#include <unistd.h>

#include "client.h"
#include "handles.h"
#include "memory.h"
#include "own_queues.h"
#include "processes.h"

enum { NOTIFICATION = 14, ANSWER = 6 };

struct registration {
    struct registration *next;
    struct ipcd *client;
    size_t number;            // of the handle that registered
    pthread_t thread;
    struct link *link;
    uint32_t asked, answered; // serials of the last INTERRUPT that was sent to it, and of the last answer
    struct sigevent event;
    pthread_attr_t attributes; // of the thread of a function
};

static void free_registration(struct registration *it)
{
    no_more(it->client->path, &it->link->life, it->link->pid);
    link_drop(it->link);
    give_back(it->link, sizeof *it->link);
    pthread_attr_destroy(&it->attributes);
    free(it);
}

// A function that is told has a copy of its own of what it is told. Nobody joins its thread.
static void *run_function(void *argument)
{
    struct sigevent event = *(struct sigevent *) argument;
    free(argument);
    event.sigev_notify_function(event.sigev_value);
    return NULL;
}

static void start_function(struct registration *it)
{
    struct sigevent *event = malloc(sizeof *event);
    if (event == NULL)
        return;
    *event = it->event;
    pthread_t thread;
    if (pthread_create(&thread, &it->attributes, run_function, event) != 0)
        free(event);
}

// Copies what a thread's attributes ask: the program may destroy its own at once. A thread is always detached.
static void copy_attributes(pthread_attr_t *to, const pthread_attr_t *from)
{
    int number;
    size_t size;
    void *stack;
    struct sched_param priority;
    cpu_set_t processors;
    if (pthread_attr_getguardsize(from, &size) == 0)
        pthread_attr_setguardsize(to, size);
    // Without a stack its address is as if it ended at 0.
    if (pthread_attr_getstack(from, &stack, &size) == 0 && (uintptr_t) stack + size != 0)
        pthread_attr_setstack(to, stack, size);
    else if (pthread_attr_getstacksize(from, &size) == 0)
        pthread_attr_setstacksize(to, size);
    if (pthread_attr_getinheritsched(from, &number) == 0)
        pthread_attr_setinheritsched(to, number);
    if (pthread_attr_getschedpolicy(from, &number) == 0)
        pthread_attr_setschedpolicy(to, number);
    if (pthread_attr_getschedparam(from, &priority) == 0)
        pthread_attr_setschedparam(to, &priority);
    // Without a choice it is of all that a set has, which is more than the process may be allowed.
    if (pthread_attr_getaffinity_np(from, sizeof processors, &processors) == 0 &&
        CPU_COUNT(&processors) < CPU_SETSIZE)
        pthread_attr_setaffinity_np(to, sizeof processors, &processors);
}

static void deliver(struct registration *it)
{
    siginfo_t info = {.si_signo = it->event.sigev_signo, .si_code = SI_MESGQ, .si_value = it->event.sigev_value};
    if (it->event.sigev_notify == SIGEV_SIGNAL && info.si_signo != 0)
        syscall(SYS_rt_sigqueueinfo, getpid(), info.si_signo, &info);
    if (it->event.sigev_notify == SIGEV_THREAD)
        start_function(it);
}

// Takes a registration off the list: whether it was there. Who took it off frees it.
static bool take_off(struct ipcd *client, struct registration *wanted)
{
    for (struct registration **at = &client->registrations; *at != NULL; at = &(*at)->next) {
        if (*at != wanted)
            continue;
        *at = wanted->next;
        client->registered--;
        return true;
    }
    return false;
}

// Whoever waits for an answer sees that there is one, or that none comes.
static void tell_news(struct ipcd *client)
{
    client->news++;
    syscall(SYS_futex, &client->news, FUTEX_WAKE_PRIVATE, INT_MAX, NULL, NULL, 0);
}

// Reads the answers to INTERRUPTs, up to another frame: its size, or -1.
static ssize_t read_answers(struct registration *it, unsigned char *frame, size_t most)
{
    for (;;) {
        ssize_t size = link_next_frame(it->link, frame, most);
        sigset_t mask;
        if (size != ANSWER || read_u32(frame) == 0 || read_u16(frame + 4) != 0)
            return size;
        lock_handles(it->client, &mask);
        it->answered = read_u32(frame);
        unlock_handles(it->client, &mask);
        tell_news(it->client);
    }
}

// Answers whether it was told, as not NULL, to who joins it.
static void *read_notification(void *argument)
{
    struct registration *it = argument;
    struct ipcd *client = it->client;
    unsigned char frame[NOTIFICATION];
    ssize_t size = read_answers(it, frame, sizeof frame);
    bool is_told = size == NOTIFICATION && read_u32(frame) == 0 && read_u16(frame + 4) == 0;
    sigset_t mask;
    // Before it is off the list: then a send has seen it.
    if (is_told)
        deliver(it);
    lock_handles(client, &mask);
    bool is_mine = take_off(client, it);
    unlock_handles(client, &mask);
    tell_news(client);
    if (is_mine) {
        pthread_detach(pthread_self());
        free_registration(it);
    }
    return is_told ? client : NULL;
}

// The server sees that this process ends, and closes: then the registration is gone. Whether it was told before.
static bool end_thread(struct registration *it)
{
    void *told;
    shutdown(it->link->socket, SHUT_WR);
    pthread_join(it->thread, &told);
    return told != NULL;
}

static void end_one(struct registration *it)
{
    end_thread(it);
    free_registration(it);
}

// Ends the registrations by this handle, by any of the queue of this name, or all.
static void end_each(struct ipcd *client, size_t number, const char *name)
{
    for (;;) {
        sigset_t mask;
        lock_handles(client, &mask);
        struct registration *it = client->registrations;
        for (; it != NULL; it = it->next) {
            bool is_named = name != NULL && strcmp(client->handles[it->number].name, name) == 0;
            if (number == HANDLES || it->number == number || is_named)
                break;
        }
        if (it != NULL)
            take_off(client, it);
        unlock_handles(client, &mask);
        if (it == NULL)
            return;
        end_one(it);
    }
}

void end_registration_of(struct ipcd *client, size_t number)
{
    end_each(client, number, NULL);
}

void end_registrations(struct ipcd *client)
{
    end_each(client, HANDLES, NULL);
}

// What the program gave for the attributes may be gone by now.
void move_registration(struct ipcd *client, size_t number, mqd_t to)
{
    sigset_t mask;
    lock_handles(client, &mask);
    struct registration *it = client->registrations;
    while (it != NULL && it->number != number)
        it = it->next;
    if (it != NULL)
        take_off(client, it);
    unlock_handles(client, &mask);
    if (it == NULL)
        return;
    struct sigevent event = it->event;
    if (event.sigev_notify == SIGEV_THREAD && event.sigev_notify_attributes != NULL)
        event.sigev_notify_attributes = &it->attributes;
    if (!end_thread(it))
        system_queues()->notify(to, &event);
    free_registration(it);
}

// Sends an INTERRUPT over the connection of a registration with a queue, by any handle of this process: its serial, or
// 0. What the server has sent there before comes before the answer.
static uint32_t ask_registration(struct ipcd *client, size_t number)
{
    unsigned char frame[REQUEST_HEAD];
    uint32_t serial = 0;
    sigset_t mask;
    lock_handles(client, &mask);
    const char *name = client->handles[number].name;
    struct registration *it = client->registrations;
    while (it != NULL && it->number != number && strcmp(client->handles[it->number].name, name) != 0)
        it = it->next;
    if (it != NULL) {
        client->asked += client->asked == UINT32_MAX ? 2 : 1;
        it->asked = client->asked;
        write_number(frame, sizeof frame - 4, 4);
        write_number(frame + 4, it->asked, 4);
        frame[REQUEST_HEAD - 1] = INTERRUPT;
        bool is_sent = send(it->link->socket, frame, sizeof frame, MSG_NOSIGNAL) == sizeof frame;
        serial = is_sent ? it->asked : 0;
    }
    unlock_handles(client, &mask);
    return serial;
}

// Whether one that was asked is on the list, and the answer has not come.
static bool is_unanswered(struct ipcd *client, uint32_t serial)
{
    sigset_t mask;
    bool found = false;
    lock_handles(client, &mask);
    for (const struct registration *it = client->registrations; it != NULL && !found; it = it->next)
        found = it->answered < serial && serial <= it->asked;
    unlock_handles(client, &mask);
    return found;
}

void await_registration(struct ipcd *client, size_t number)
{
    int saved = errno, cancellation = hold_cancellation();
    uint32_t serial = number < DESCRIPTORS ? ask_registration(client, number) : 0;
    while (serial != 0) {
        unsigned before = client->news;
        if (!is_unanswered(client, serial))
            break;
        syscall(SYS_futex, &client->news, FUTEX_WAIT_PRIVATE, before, NULL, NULL, 0);
    }
    allow_cancellation(cancellation);
    errno = saved;
}

void forget_registrations(struct ipcd *client)
{
    for (struct registration *it = client->registrations; it != NULL; it = it->next)
        link_drop(it->link);
    client->registrations = NULL;
    client->registered = 0;
}

// Connects, opens the queue and registers: 0, or -1.
static int connect_registration(struct registration *it)
{
    struct handle handle;
    if (!copy_handle(it->client, it->number, POSIX_QUEUE, &handle)) {
        errno = EBADF;
        return -1;
    }
    if (link_connect(it->link, it->client->path) < 0)
        return -1;
    tell_process(it->client->path, &it->link->life, it->link->pid);
    if (open_again(it->link, it->number, &handle) < 0) {
        if (errno == ENOENT)
            errno = EBADF;
        return -1;
    }
    link_begin(it->link, MQ_NOTIFY);
    put_u32(it->link, it->link->opened[it->number].descriptor);
    put_u32(it->link, NOTIFY_FRAME);
    put_u32(it->link, 0);
    return (int) link_exchange(it->link, ANSWERED_AT_ONCE, 0, 0);
}

static int start_thread(struct registration *it)
{
    sigset_t mask;
    lock_handles(it->client, &mask);
    int error = pthread_create(&it->thread, NULL, read_notification, it);
    if (error == 0) {
        it->next = it->client->registrations;
        it->client->registered++;
        it->client->registrations = it;
    }
    unlock_handles(it->client, &mask);
    errno = error == 0 ? errno : ENOMEM;
    return error == 0 ? 0 : -1;
}

static struct registration *make_registration(struct ipcd *client, size_t number, const struct sigevent *event)
{
    struct registration *made = calloc(1, sizeof *made);
    if (made == NULL)
        return NULL;
    made->client = client;
    made->number = number;
    made->event = *event;
    pthread_attr_init(&made->attributes);
    pthread_attr_setdetachstate(&made->attributes, PTHREAD_CREATE_DETACHED);
    if (event->sigev_notify == SIGEV_THREAD && event->sigev_notify_attributes != NULL)
        copy_attributes(&made->attributes, event->sigev_notify_attributes);
    made->link = mmap(NULL, sizeof *made->link, PROT_READ | PROT_WRITE, MAP_PRIVATE | MAP_ANONYMOUS, -1, 0);
    if (made->link != MAP_FAILED) {
        made->link->client = client;
        made->link->socket = -1;
        return made;
    }
    pthread_attr_destroy(&made->attributes);
    free(made);
    errno = ENOMEM;
    return NULL;
}

static int refusal_of(const struct sigevent *event)
{
    if (event == NULL)
        return 0;
    if (!is_readable(event, sizeof *event))
        return EFAULT;
    if (event->sigev_notify == SIGEV_SIGNAL)
        return event->sigev_signo < 0 || event->sigev_signo > SIGRTMAX ? EINVAL : 0;
    const pthread_attr_t *attributes = event->sigev_notify_attributes;
    if (event->sigev_notify == SIGEV_THREAD)
        return attributes != NULL && !is_readable(attributes, sizeof *attributes) ? EFAULT : 0;
    return event->sigev_notify == SIGEV_NONE ? 0 : EINVAL;
}

static int make_or_end(struct ipcd *client, size_t number, const struct sigevent *sevp)
{
    struct handle handle;
    bool is_open = copy_handle(client, number, POSIX_QUEUE, &handle);
    int refusal = is_open ? refusal_of(sevp) : EBADF;
    if (refusal != 0) {
        errno = refusal;
        return -1;
    }
    if (sevp == NULL) {
        end_each(client, number, handle.name);
        return 0;
    }
    // The connection that is there may have ended: then that is said first, as of each call.
    if (ipcd_mq_getattr(FIRST_DESCRIPTOR + (mqd_t) number, &(struct mq_attr){0}) < 0)
        return -1;
    int saved = errno;
    struct registration *made = make_registration(client, number, sevp);
    if (made == NULL)
        return -1;
    if (connect_registration(made) < 0 || start_thread(made) < 0) {
        int error = errno;
        free_registration(made);
        errno = error;
        return -1;
    }
    errno = saved;
    return 0;
}

int ipcd_mq_notify(mqd_t mqdes, const struct sigevent *sevp)
{
    struct ipcd *client = current_client();
    size_t number = handle_of(mqdes);
    int cancellation = hold_cancellation();
    mqd_t own = enter_queue(client, number);
    int result = own >= 0 ? system_queues()->notify(own, sevp) : make_or_end(client, number, sevp);
    if (own < 0)
        leave_queue(client, number);
    allow_cancellation(cancellation);
    return result;
}
