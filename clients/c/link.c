// A link: connecting, frames in and out, and how a signal handler ends a call that waits.
#define _GNU_SOURCE
#include "link.h"

#include "cancellation.h"
#include "changes.h"

#include <errno.h>
#include <fcntl.h>
#include <poll.h>
#include <pthread.h>
#include <sched.h>
#include <signal.h>
#include <string.h>
#include <sys/socket.h>
#include <sys/syscall.h>
#include <sys/time.h>
#include <sys/uio.h>
#include <sys/un.h>
#include <time.h>
#include <unistd.h>

// Some headers have no number for it.
#ifndef SO_COOKIE
#define SO_COOKIE 57
#endif

// Where the numbers of sockets begin: programs count on low ones.
enum { HELLOS = 30, HELLO_PAUSE = 10 * 1000 * 1000, OUT_OF_THE_WAY = 200 };

static uint64_t cookie_of(int socket)
{
    uint64_t cookie = 0;
    socklen_t size = sizeof cookie;
    return getsockopt(socket, SOL_SOCKET, SO_COOKIE, &cookie, &size) == 0 ? cookie : 0;
}

bool link_is_there(const struct link *link)
{
    return link->socket >= 0 && cookie_of(link->socket) == link->cookie;
}

static void forget_opened(struct link *link)
{
    for (size_t i = 0; i < HANDLES; i++)
        link->generations[i] = 0;
}

atomic_uint adjustments_lost;

void link_drop(struct link *link)
{
    int saved = errno;
    adjustments_lost += link->has_undone;
    if (link_is_there(link))
        close(link->socket);
    link->socket = -1;
    link->has_undone = false;
    forget_opened(link);
    errno = saved;
}

void link_begin(struct link *link, enum opcode opcode)
{
    link->filled -= link->taken;
    memmove(link->input, link->input + link->taken, link->filled);
    link->taken = 0;
    link->request[REQUEST_HEAD - 1] = (unsigned char) opcode;
    link->end = link->request + REQUEST_HEAD;
    link->text_size = link->into_size = link->placed = 0;
}

void read_into(struct link *link, void *into, size_t size)
{
    link->into = into;
    link->into_size = size;
}

void put_text(struct link *link, const void *text, size_t size)
{
    link->text = text;
    link->text_size = size;
}

size_t room_left(const struct link *link)
{
    return (size_t) (link->request + sizeof link->request - link->end);
}

void put_bytes(struct link *link, const void *bytes, size_t size)
{
    if (size == 0 || size > room_left(link))
        return;
    memcpy(link->end, bytes, size);
    link->end += size;
}

void put_number(struct link *link, uint64_t number, size_t bytes)
{
    if (bytes > room_left(link))
        return;
    write_number(link->end, number, bytes);
    link->end += bytes;
}

void put_u16(struct link *link, uint32_t number) { put_number(link, number, 2); }
void put_u32(struct link *link, uint32_t number) { put_number(link, number, 4); }
void put_u64(struct link *link, uint64_t number) { put_number(link, number, 8); }

// Writes the length and a new serial into the request.
static void seal(struct link *link)
{
    link->serial = link->serial == UINT32_MAX ? 1 : link->serial + 1;
    write_number(link->request, (uint64_t) (link->end - link->request) - 4 + link->text_size, 4);
    write_number(link->request + 4, link->serial, 4);
}

// Writes all of it. If the server is gone, what it has said before can still be read, and tells more.
static int write_all(int socket, const unsigned char *bytes, size_t size)
{
    while (size > 0) {
        ssize_t done = send(socket, bytes, size, MSG_NOSIGNAL);
        if (done < 0 && errno != EINTR)
            return errno;
        if (done > 0) {
            bytes += done;
            size -= (size_t) done;
        }
    }
    return 0;
}

// Writes the request: 0, or an error. Of one that is EFAULT nothing was sent, since the system takes it at once.
static int write_request(struct link *link)
{
    size_t head = (size_t) (link->end - link->request);
    if (link->text_size == 0)
        return write_all(link->socket, link->request, head);
    struct iovec parts[2] = {{link->request, head}, {(void *) link->text, link->text_size}};
    struct msghdr message = {.msg_iov = parts, .msg_iovlen = 2};
    ssize_t done;
    do
        done = sendmsg(link->socket, &message, MSG_NOSIGNAL);
    while (done < 0 && errno == EINTR);
    if (done < 0)
        return errno;
    size_t sent = (size_t) done;
    if (sent == head + link->text_size)
        return 0;
    int fault = sent < head ? write_all(link->socket, link->request + sent, head - sent) : 0;
    size_t past = sent < head ? 0 : sent - head;
    if (fault == 0)
        fault = write_all(link->socket, (const unsigned char *) link->text + past, link->text_size - past);
    if (fault == EFAULT)
        link_drop(link);
    return fault;
}

// Reads what has come: a reply that is whole into the caller's memory. What is not goes to the input as ever.
static ssize_t read_more(struct link *link)
{
    size_t head = REPLY_HEAD, size = link->into_size;
    unsigned char *input = link->input;
    if (size == 0 || link->filled != 0)
        return recv(link->socket, input + link->filled, sizeof link->input - link->filled, 0);
    struct iovec parts[3] = {{input, head}, {link->into, size}, {input + head + size, FRAME_BYTES}};
    struct msghdr message = {.msg_iov = parts, .msg_iovlen = 3};
    ssize_t came = recvmsg(link->socket, &message, 0);
    if (came < 0 && errno == EFAULT) {
        link->into_size = 0;
        return recv(link->socket, input, sizeof link->input, 0);
    }
    if (came <= (ssize_t) head)
        return came;
    size_t there = (size_t) came - head < size ? (size_t) came - head : size;
    link->into_size = 0;
    if ((size_t) came == 4 + (size_t) read_u32(input))
        link->placed = there;
    else
        memcpy(input + head, link->into, there);
    return came;
}

int64_t clock_now(void)
{
    struct timespec time;
    clock_gettime(CLOCK_MONOTONIC, &time);
    return (int64_t) time.tv_sec * 1000 + time.tv_nsec / 1000000;
}

// Waits until there is something to read, until a moment, which is made of PATIENCE if it is 0.
static bool comes_in_time(const struct link *link, int64_t *end)
{
    struct pollfd entry = {link->socket, POLLIN, 0};
    if (*end == 0)
        *end = clock_now() + PATIENCE;
    for (;;) {
        int64_t left = *end - clock_now();
        int ready = poll(&entry, 1, left < 0 ? 0 : (int) left);
        if (ready >= 0 || errno != EINTR)
            return ready != 0;
    }
}

// Reads until a whole frame stands in the input from an offset on: 0, or an error; EINTR only if handlers stop it.
// A frame that has begun, or is the second of two, comes in time.
static int fill(struct link *link, size_t offset, bool stops)
{
    int64_t end = 0;
    for (;;) {
        size_t have = link->filled - offset;
        if (have >= 4) {
            size_t length = read_u32(link->input + offset);
            if (length < FRAME_LEAST || length > FRAME_MOST)
                return EPROTO;
            if (have >= 4 + length)
                return 0;
        }
        if (link->filled > 0 && !comes_in_time(link, &end))
            return EPROTO;
        ssize_t came = read_more(link);
        if (came > 0)
            link->filled += (size_t) came;
        else if (came == 0)
            return ECONNRESET;
        else if (errno == EINTR && stops)
            return EINTR;
        else if (errno != EINTR && errno != EAGAIN)
            return ECONNRESET;
    }
}

// Handlers end a read of a socket that has a limit of time, also those with SA_RESTART. See signal(7).
static void choose_ending(struct link *link, enum waiting waiting)
{
    bool always = waiting == ENDED_BY_HANDLERS && (changes.some_restart || !changes.are_heard);
    if (waiting == ANSWERED_AT_ONCE || always == link->ends_always)
        return;
    struct timeval limit = {.tv_sec = always ? 86400 : 0};
    setsockopt(link->socket, SOL_SOCKET, SO_RCVTIMEO, &limit, sizeof limit);
    link->ends_always = always;
}

static uint32_t next_serial(const struct link *link)
{
    return link->serial == UINT32_MAX ? 1 : link->serial + 1;
}

static void send_interrupt(struct link *link)
{
    unsigned char frame[REQUEST_HEAD];
    write_number(frame, sizeof frame - 4, 4);
    write_number(frame + 4, next_serial(link), 4);
    frame[REQUEST_HEAD - 1] = INTERRUPT;
    write_all(link->socket, frame, sizeof frame);
}

// After an INTERRUPT: reads the reply to the call, which may be one that came before, and then that to INTERRUPT.
static int read_interrupted(struct link *link)
{
    int fault = fill(link, 0, false);
    if (fault != 0)
        return fault;
    if (read_u32(link->input + 4) != link->serial)
        return 0;
    size_t second = 4 + (size_t) read_u32(link->input);
    fault = fill(link, second, false);
    if (fault != 0)
        return fault;
    const unsigned char *answer = link->input + second;
    if (read_u32(answer) != FRAME_LEAST || read_u32(answer + 4) != next_serial(link) || read_u16(answer + 8) != 0)
        return EPROTO;
    link->filled -= REPLY_HEAD;
    memmove(link->input + second, answer + REPLY_HEAD, link->filled - second);
    return 0;
}

// What `lending` says. One that asks sends the INTERRUPT, and whose call it is waits for it, also if that has ended.
enum { NOT_LENT, WAITS, IS_ASKING, IS_ASKED };

void link_ask(struct link *link)
{
    int waits = WAITS;
    sigset_t all_signals, mask;
    if (link->lending != WAITS)
        return;
    sigfillset(&all_signals);
    pthread_sigmask(SIG_BLOCK, &all_signals, &mask);
    if (atomic_compare_exchange_strong(&link->lending, &waits, IS_ASKING)) {
        send_interrupt(link);
        link->lending = IS_ASKED;
    }
    pthread_sigmask(SIG_SETMASK, &mask, NULL);
}

static bool was_asked(struct link *link)
{
    int waits = WAITS;
    if (atomic_compare_exchange_strong(&link->lending, &waits, NOT_LENT))
        return false;
    // In a process that a handler has forked meanwhile nobody asks.
    while (link->lending == IS_ASKING)
        sched_yield();
    return atomic_exchange(&link->lending, NOT_LENT) == IS_ASKED;
}

static ssize_t is_lost(struct link *link, int error)
{
    link_drop(link);
    errno = error;
    return -1;
}

// What the first frame of the input answers.
static ssize_t judge(struct link *link, size_t least, size_t most)
{
    size_t length = read_u32(link->input);
    uint32_t serial = read_u32(link->input + 4);
    int error = read_u16(link->input + 8);
    size_t size = length - FRAME_LEAST;
    link->taken = 4 + length;
    link->body = link->input + REPLY_HEAD;
    if (error > ERROR_MOST || (error != 0 && size != 0) || (serial != link->serial && serial != 0))
        return is_lost(link, EPROTO);
    if (serial == 0 || error == EPROTO)
        return is_lost(link, error == 0 ? EPROTO : error);
    if (error != 0) {
        errno = error;
        return -1;
    }
    if (size < least || size > most)
        return is_lost(link, EPROTO);
    return (ssize_t) size;
}

// Not a call with a relative limit of time, which would begin again.
static bool may_be_lent(const struct link *link, enum waiting waiting)
{
    enum opcode opcode = link->request[REQUEST_HEAD - 1];
    return waiting == RESTARTED || (waiting == ENDED_BY_HANDLERS && (opcode == MSGSND || opcode == MSGRCV));
}

// Waits for the reply: 0, or an error. Whether another thread has ended the wait, and no handler has.
static int await_reply(struct link *link, enum waiting waiting, bool *is_for_another)
{
    bool is_lent = may_be_lent(link, waiting);
    if (is_lent)
        link->lending = WAITS;
    // Who cancels it now sees that it waits, and who has cancelled it before is seen.
    if (is_lent && link->cancellation == PTHREAD_CANCEL_ENABLE && is_cancelled())
        link_ask(link);
    int fault = fill(link, 0, waiting != ANSWERED_AT_ONCE);
    bool is_asked = is_lent && was_asked(link);
    *is_for_another = is_asked && fault == 0;
    if (fault == EINTR && !is_asked)
        send_interrupt(link);
    if (fault == EINTR || *is_for_another) {
        link->into_size = 0;
        fault = read_interrupted(link);
    }
    return fault;
}

static bool is_interrupted(const struct link *link)
{
    return read_u32(link->input + 4) == link->serial && read_u16(link->input + 8) == EINTR;
}

ssize_t link_exchange(struct link *link, enum waiting waiting, size_t least, size_t most)
{
    bool is_for_another;
    void *into = link->into;
    size_t into_size = link->into_size;
    do {
        read_into(link, into, into_size);
        seal(link);
        choose_ending(link, waiting);
        link->may_wait = waiting != ANSWERED_AT_ONCE;
        if (write_request(link) == EFAULT) {
            errno = EFAULT;
            return -1;
        }
        int fault = await_reply(link, waiting, &is_for_another);
        if (fault != 0)
            return is_lost(link, fault);
        is_for_another = is_for_another && is_interrupted(link);
        fault = is_for_another ? lend(link, waiting) : 0;
        if (fault != 0) {
            errno = fault;
            return -1;
        }
    } while (is_for_another);
    return judge(link, least, most);
}

int link_send(struct link *link)
{
    seal(link);
    int fault = write_request(link);
    errno = fault;
    return fault == 0 ? 0 : -1;
}

ssize_t link_next_frame(struct link *link, unsigned char *frame, size_t most)
{
    link_begin(link, INTERRUPT);
    int fault = fill(link, 0, false);
    size_t length = fault == 0 ? read_u32(link->input) : 0;
    if (fault != 0 || length > most) {
        errno = fault == 0 ? EPROTO : fault;
        return -1;
    }
    memcpy(frame, link->input + 4, length);
    link->taken = 4 + length;
    return (ssize_t) length;
}

static int open_socket(const char *path)
{
    struct sockaddr_un address = {.sun_family = AF_UNIX};
    if (strlen(path) >= sizeof address.sun_path) {
        errno = ENAMETOOLONG;
        return -1;
    }
    strcpy(address.sun_path, path);
    int made = socket(AF_UNIX, SOCK_STREAM | SOCK_CLOEXEC, 0);
    if (made < 0)
        return -1;
    int moved = fcntl(made, F_DUPFD_CLOEXEC, OUT_OF_THE_WAY);
    if (moved >= 0) {
        close(made);
        made = moved;
    }
    int done;
    do
        done = connect(made, (struct sockaddr *) &address, sizeof address);
    while (done < 0 && errno == EINTR);
    if (done == 0)
        return made;
    int error = errno == ENOENT ? ECONNREFUSED : errno;
    close(made);
    errno = error;
    return -1;
}

int link_connect(struct link *link, const char *path)
{
    int made = open_socket(path);
    if (made < 0)
        return -1;
    link->socket = made;
    link->cookie = cookie_of(made);
    link->filled = link->taken = 0;
    link->ends_always = link->has_undone = false;
    link->known.count = 0;
    forget_opened(link);
    uid_t uid = (uid_t) syscall(SYS_geteuid);
    gid_t gid = (gid_t) syscall(SYS_getegid);
    link->user = user_of(uid, gid);
    ssize_t done = -1;
    for (int i = 0; i < HELLOS; i++) {
        link_begin(link, HELLO);
        put_u32(link, uid);
        put_u32(link, gid);
        // The pid. From version 3 on that number follows, and a later server may tell more.
        done = link_exchange(link, ANSWERED_AT_ONCE, 4, BODY_MOST);
        if (done >= 0 || errno != ENFILE || link->socket < 0)
            break;
        nanosleep(&(struct timespec){.tv_nsec = HELLO_PAUSE}, NULL);
    }
    if (done < 0) {
        link_drop(link);
        return -1;
    }
    link->pid = read_u32(link->body);
    link->pids_come_again = done > 4;
    link->life = link->pids_come_again ? life_of(link->socket) : (struct life){0, 0};
    return 0;
}
