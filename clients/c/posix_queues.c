// POSIX queues: mq_open(3), mq_send(3), mq_receive(3) and their kin; mq_notify(3) has a file of its own.
#define _GNU_SOURCE
#include <errno.h>
#include <fcntl.h>
#include <limits.h>
#include <stdarg.h>
#include <string.h>

#include "client.h"
#include "handles.h"
#include "memory.h"
#include "own_queues.h"
#include "places.h"

// Attributes that are beyond any limit stay so.
static int32_t bounded(long attribute)
{
    return attribute > INT_MAX ? INT_MAX : attribute < 0 ? 0 : (int32_t) attribute;
}

// It is told before it is open, so that a process which unlinks it then knows of this one.
static int open_queue(struct ipcd *client, const char *given, struct wanted *wanted)
{
    char name[NAME_ROOM];
    ssize_t length = read_name(given, POSIX_QUEUE, name);
    if (length < 0)
        return -1;
    wanted->told = tell_open(client, POSIX_QUEUE, name, (size_t) length, new_token());
    return open_handle(client, name, wanted);
}

mqd_t ipcd_mq_open(const char *name, int oflag, ...)
{
    struct wanted wanted = {.kind = POSIX_QUEUE, .flags = (uint32_t) oflag};
    if (oflag & O_CREAT) {
        va_list rest;
        va_start(rest, oflag);
        mode_t mode = va_arg(rest, mode_t);
        const struct mq_attr *attributes = va_arg(rest, const struct mq_attr *);
        va_end(rest);
        if (attributes != NULL && !is_readable(attributes, sizeof *attributes)) {
            errno = EFAULT;
            return -1;
        }
        wanted.mode = masked(mode);
        wanted.has_attributes = attributes != NULL;
        wanted.maxmsg = attributes == NULL ? 0 : bounded(attributes->mq_maxmsg);
        wanted.msgsize = attributes == NULL ? 0 : bounded(attributes->mq_msgsize);
    }
    int number = open_queue(current_client(), name, &wanted);
    return number < 0 ? -1 : FIRST_DESCRIPTOR + number;
}

int ipcd_mq_close(mqd_t mqdes)
{
    return close_handle(current_client(), handle_of(mqdes), POSIX_QUEUE, EBADF);
}

static struct link *begin_on_queue(struct ipcd *client, size_t number, enum opcode opcode)
{
    return begin_on(client, number, POSIX_QUEUE, EBADF, opcode);
}

// A call that may wait at the server, and in which the thread may be cancelled.
struct call {
    struct ipcd *client;
    size_t number;
};

static void leave_at_end(void *call)
{
    const struct call *it = call;
    leave_queue(it->client, it->number);
}

static int send_on_link(
    const struct call *it, const char *msg_ptr, size_t msg_len, unsigned msg_prio, uint64_t deadline)
{
    struct link *link = begin_on_queue(it->client, it->number, MQ_SEND);
    if (link == NULL)
        return -1;
    put_u64(link, deadline);
    put_u32(link, msg_prio);
    // A longer text is EMSGSIZE as this one is.
    if (msg_len <= PIECE_MOST)
        put_text(link, msg_ptr, msg_len);
    else
        link->end += PIECE_MOST + 1;
    return end_empty(link, RESTARTED);
}

int ipcd_mq_timedsend(mqd_t mqdes, const char *msg_ptr, size_t msg_len, unsigned int msg_prio,
                      const struct timespec *abs_timeout)
{
    uint64_t deadline;
    int result, refusal = milliseconds(abs_timeout, &deadline);
    if (refusal != 0) {
        errno = refusal;
        return -1;
    }
    struct call call = {current_client(), handle_of(mqdes)};
    mqd_t own = enter_queue(call.client, call.number);
    if (own >= 0)
        return system_queues()->timedsend(own, msg_ptr, msg_len, msg_prio, abs_timeout);
    pthread_cleanup_push(leave_at_end, &call);
    result = send_on_link(&call, msg_ptr, msg_len, msg_prio, deadline);
    pthread_cleanup_pop(true);
    if (result == 0 && call.client->registered > 0)
        await_registration(call.client, call.number);
    return result;
}

int ipcd_mq_send(mqd_t mqdes, const char *msg_ptr, size_t msg_len, unsigned int msg_prio)
{
    return ipcd_mq_timedsend(mqdes, msg_ptr, msg_len, msg_prio, NULL);
}

static ssize_t receive_on_link(
    const struct call *it, char *msg_ptr, size_t msg_len, unsigned *msg_prio, uint64_t deadline)
{
    struct link *link = begin_on_queue(it->client, it->number, MQ_RECEIVE);
    if (link == NULL)
        return -1;
    put_u64(link, deadline);
    put_u32(link, msg_len > UINT32_MAX ? UINT32_MAX : (uint32_t) msg_len);
    size_t most = msg_len < PIECE_MOST ? msg_len : PIECE_MOST;
    ssize_t size = link_exchange(link, RESTARTED, 4, 4 + most);
    if (size < 0)
        return end(link, -1);
    size -= 4;
    if (!is_writable_on(msg_ptr, 1, (size_t) size)) {
        errno = EFAULT;
        return end(link, -1);
    }
    memcpy(msg_ptr, link->body + 4, (size_t) size);
    if (msg_prio != NULL)
        *msg_prio = read_u32(link->body);
    return end(link, size);
}

ssize_t ipcd_mq_timedreceive(mqd_t mqdes, char *msg_ptr, size_t msg_len, unsigned int *msg_prio,
                             const struct timespec *abs_timeout)
{
    uint64_t deadline;
    ssize_t size;
    int refusal = milliseconds(abs_timeout, &deadline);
    if (refusal == 0 && msg_prio != NULL && !is_writable(msg_prio, sizeof *msg_prio))
        refusal = EFAULT;
    if (refusal == 0 && msg_len > 0 && !is_writable(msg_ptr, 1))
        refusal = EFAULT;
    if (refusal != 0) {
        errno = refusal;
        return -1;
    }
    struct call call = {current_client(), handle_of(mqdes)};
    mqd_t own = enter_queue(call.client, call.number);
    if (own >= 0)
        return system_queues()->timedreceive(own, msg_ptr, msg_len, msg_prio, abs_timeout);
    pthread_cleanup_push(leave_at_end, &call);
    size = receive_on_link(&call, msg_ptr, msg_len, msg_prio, deadline);
    pthread_cleanup_pop(true);
    return size;
}

ssize_t ipcd_mq_receive(mqd_t mqdes, char *msg_ptr, size_t msg_len, unsigned int *msg_prio)
{
    return ipcd_mq_timedreceive(mqdes, msg_ptr, msg_len, msg_prio, NULL);
}

// The attributes that a call answers: 0, or -1.
static int read_attributes(struct link *link, struct mq_attr *attributes)
{
    if (link_exchange(link, ANSWERED_AT_ONCE, 16, 16) < 0)
        return -1;
    if (attributes != NULL) {
        memset(attributes, 0, sizeof *attributes);
        attributes->mq_flags = read_u32(link->body);
        attributes->mq_maxmsg = read_u32(link->body + 4);
        attributes->mq_msgsize = read_u32(link->body + 8);
        attributes->mq_curmsgs = read_u32(link->body + 12);
    }
    return 0;
}

int ipcd_mq_getattr(mqd_t mqdes, struct mq_attr *attr)
{
    if (!is_writable(attr, sizeof *attr)) {
        errno = EFAULT;
        return -1;
    }
    struct ipcd *client = current_client();
    size_t number = handle_of(mqdes);
    mqd_t own = enter_queue(client, number);
    if (own >= 0)
        return system_queues()->getattr(own, attr);
    struct link *link = begin_on_queue(client, number, MQ_GETATTR);
    int result = link == NULL ? -1 : (int) end(link, read_attributes(link, attr));
    leave_queue(client, number);
    return result;
}

// Notes the flag of the queue that was set on this link. The handle may have been closed meanwhile.
static void note_nonblocking(struct link *link, size_t number, bool nonblocking)
{
    struct ipcd *client = link->client;
    sigset_t mask;
    link->opened[number].nonblocking = nonblocking;
    lock_handles(client, &mask);
    if (client->handles[number].generation == link->generations[number])
        client->handles[number].nonblocking = nonblocking;
    unlock_handles(client, &mask);
}

static int set_on_link(struct ipcd *client, size_t number, long flags, struct mq_attr *oldattr)
{
    struct link *link = begin_on_queue(client, number, MQ_SETATTR);
    if (link == NULL)
        return -1;
    put_u32(link, (uint32_t) flags);
    int result = read_attributes(link, oldattr);
    if (result == 0)
        note_nonblocking(link, number, flags != 0);
    return (int) end(link, result);
}

int ipcd_mq_setattr(mqd_t mqdes, const struct mq_attr *newattr, struct mq_attr *oldattr)
{
    if (newattr == NULL)
        return ipcd_mq_getattr(mqdes, oldattr);
    if (!is_readable(newattr, sizeof *newattr) || (oldattr != NULL && !is_writable(oldattr, sizeof *oldattr))) {
        errno = EFAULT;
        return -1;
    }
    long flags = newattr->mq_flags;
    if (flags & ~(long) O_NONBLOCK) {
        errno = EINVAL;
        return -1;
    }
    struct ipcd *client = current_client();
    size_t number = handle_of(mqdes);
    mqd_t own = enter_queue(client, number);
    if (own >= 0)
        return system_queues()->setattr(own, newattr, oldattr);
    int result = set_on_link(client, number, flags, oldattr);
    leave_queue(client, number);
    return result;
}
