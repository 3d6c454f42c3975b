// The descriptor of a POSIX queue: what mq_overview(7), poll(2), select(2) and epoll(7) say of it, on the kernel's
// objects and redirected.
#define _GNU_SOURCE
#include <fcntl.h>
#include <mqueue.h>
#include <poll.h>
#include <sys/epoll.h>
#include <sys/ioctl.h>
#include <sys/resource.h>
#include <sys/select.h>
#include <sys/syscall.h>
#include <sys/time.h>

#include "check.h"

enum { ROOM = 3, SIZE = 8 };

static char buffer[SIZE];
static mqd_t queue;
static const char *program;

static mqd_t make_queue(int flags)
{
    struct mq_attr attributes = {.mq_maxmsg = ROOM, .mq_msgsize = SIZE};
    mq_unlink("/ipcd_polls");
    queue = mq_open("/ipcd_polls", O_RDWR | O_CREAT | O_EXCL | flags, 0600, &attributes);
    CHECK(queue != -1);
    return queue;
}

static void remove_queue(void)
{
    CHECK(mq_close(queue) == 0 && mq_unlink("/ipcd_polls") == 0);
}

static void is_sent(void)
{
    CHECK(mq_send(queue, "a", 1, 0) == 0);
}

static void comes(void)
{
    CHECK(mq_receive(queue, buffer, sizeof buffer, NULL) == 1);
}

// What poll(2) finds at once.
static int found(int fd)
{
    struct pollfd entry = {fd, POLLIN | POLLOUT, 0};
    int count = poll(&entry, 1, 0);
    CHECK(count == (entry.revents != 0));
    return entry.revents;
}

static void sends_soon(void *unused)
{
    (void) unused;
    pause_for(0.2);
    is_sent();
}

static void receives(void *unused)
{
    (void) unused;
    comes();
}

// Each way to wait for a message, with no limit of time or with one of milliseconds: how many descriptors are ready.
static int by_poll(int milliseconds)
{
    struct pollfd entry = {queue, POLLIN, 0};
    int count = poll(&entry, 1, milliseconds);
    CHECK(count <= 0 || entry.revents == POLLIN);
    return count;
}

static const struct timespec *time_of(int milliseconds)
{
    static struct timespec time;
    time = (struct timespec){milliseconds / 1000, milliseconds % 1000 * 1000000};
    return milliseconds < 0 ? NULL : &time;
}

static int by_ppoll(int milliseconds)
{
    struct pollfd entries[2] = {{-1, POLLIN, 0}, {queue, POLLIN, 0}};
    int count = ppoll(entries, 2, time_of(milliseconds), NULL);
    CHECK(count <= 0 || (entries[0].revents == 0 && entries[1].revents == POLLIN));
    return count;
}

static int by_select(int milliseconds)
{
    struct timeval time = {milliseconds / 1000, milliseconds % 1000 * 1000};
    fd_set in;
    FD_ZERO(&in);
    FD_SET(queue, &in);
    int count = select(queue + 1, &in, NULL, NULL, milliseconds < 0 ? NULL : &time);
    CHECK(count < 0 || count == (FD_ISSET(queue, &in) != 0));
    CHECK(count != 0 || (time.tv_sec == 0 && time.tv_usec == 0));
    return count;
}

static int by_pselect(int milliseconds)
{
    fd_set in, other;
    FD_ZERO(&in);
    FD_ZERO(&other);
    FD_SET(queue, &in);
    FD_SET(queue, &other);
    int count = pselect(queue + 1, &in, NULL, &other, time_of(milliseconds), NULL);
    CHECK(count < 0 || (count == (FD_ISSET(queue, &in) != 0) && !FD_ISSET(queue, &other)));
    return count;
}

static int watching(uint32_t events)
{
    int epoll = epoll_create1(EPOLL_CLOEXEC);
    struct epoll_event event = {.events = events, .data.u64 = 42};
    CHECK(epoll >= 0 && epoll_ctl(epoll, EPOLL_CTL_ADD, queue, &event) == 0);
    return epoll;
}

static int of_epoll(int epoll, int count, const struct epoll_event *event)
{
    CHECK(count <= 0 || (count == 1 && event->events == EPOLLIN && event->data.u64 == 42));
    int error = errno;
    CHECK(close(epoll) == 0);
    errno = error;
    return count;
}

static int by_epoll_wait(int milliseconds)
{
    struct epoll_event event;
    int epoll = watching(EPOLLIN);
    return of_epoll(epoll, epoll_wait(epoll, &event, 1, milliseconds), &event);
}

static int by_epoll_pwait(int milliseconds)
{
    struct epoll_event event;
    int epoll = watching(EPOLLIN);
    return of_epoll(epoll, epoll_pwait(epoll, &event, 1, milliseconds, NULL), &event);
}

static int by_epoll_pwait2(int milliseconds)
{
    struct epoll_event event;
    int epoll = watching(EPOLLIN);
    return of_epoll(epoll, epoll_pwait2(epoll, &event, 1, time_of(milliseconds), NULL), &event);
}

// An epoll instance that is waited for itself.
static int by_poll_of_epoll(int milliseconds)
{
    int epoll = watching(EPOLLIN);
    struct pollfd entry = {epoll, POLLIN, 0};
    int count = poll(&entry, 1, milliseconds);
    int error = errno;
    CHECK((count <= 0 || entry.revents == POLLIN) && close(epoll) == 0);
    errno = error;
    return count;
}

static int (*const ways[])(int) = {
    by_poll, by_ppoll, by_select, by_pselect, by_epoll_wait, by_epoll_pwait, by_epoll_pwait2, by_poll_of_epoll};
enum { WAYS = sizeof ways / sizeof *ways };

static void shows_its_state(void)
{
    make_queue(0);
    CHECK(found(queue) == POLLOUT);
    is_sent();
    CHECK(found(queue) == (POLLIN | POLLOUT));
    is_sent();
    is_sent();
    CHECK(found(queue) == POLLIN);
    comes();
    CHECK(found(queue) == (POLLIN | POLLOUT));
    // What another process takes or sends.
    ends_well(start(receives, NULL));
    ends_well(start(receives, NULL));
    CHECK(found(queue) == POLLOUT);
    // With any access.
    mqd_t reader = mq_open("/ipcd_polls", O_RDONLY), writer = mq_open("/ipcd_polls", O_WRONLY);
    is_sent();
    CHECK(found(reader) == (POLLIN | POLLOUT) && found(writer) == (POLLIN | POLLOUT));
    CHECK(mq_close(reader) == 0 && mq_close(writer) == 0);
    comes();
    remove_queue();
}

static void waits(void)
{
    make_queue(0);
    for (int i = 0; i < WAYS; i++) {
        CHECK(ways[i](0) == 0);
        double began = now();
        CHECK(ways[i](150) == 0 && now() - began > 0.14 && now() - began < 3);
        pid_t child = start(sends_soon, NULL);
        began = now();
        CHECK(ways[i](-1) == 1 && now() - began > 0.1 && now() - began < 3);
        CHECK(ways[i](-1) == 1 && ways[i](5000) == 1 && ways[i](0) == 1);
        comes();
        CHECK(ways[i](0) == 0);
        ends_well(child);
    }
    remove_queue();
}

// A full queue, until another process receives.
static void receives_soon(void *unused)
{
    pause_for(0.2);
    receives(unused);
}

static void waits_for_room(void)
{
    make_queue(0);
    struct pollfd entry = {queue, POLLOUT, 0};
    for (int i = 0; i < ROOM; i++)
        is_sent();
    CHECK(poll(&entry, 1, 50) == 0);
    pid_t child = start(receives_soon, NULL);
    CHECK(poll(&entry, 1, -1) == 1 && entry.revents == POLLOUT);
    ends_well(child);
    for (int i = 1; i < ROOM; i++)
        comes();
    remove_queue();
}

// What else is waited for comes first.
static void waits_for_others(void)
{
    int ends[2];
    make_queue(0);
    CHECK(pipe(ends) == 0);
    struct pollfd entries[2] = {{queue, POLLIN, 0}, {ends[0], POLLIN, 0}};
    pid_t child = fork();
    if (child == 0) {
        pause_for(0.2);
        _exit(write(ends[1], "p", 1) != 1);
    }
    CHECK(poll(entries, 2, -1) == 1 && entries[0].revents == 0 && entries[1].revents == POLLIN);
    ends_well(child);
    is_sent();
    CHECK(poll(entries, 2, -1) == 2 && entries[0].revents == POLLIN && entries[1].revents == POLLIN);
    comes();
    CHECK(close(ends[0]) == 0 && close(ends[1]) == 0);
    remove_queue();
}

static volatile sig_atomic_t rang;

static void ring(int number)
{
    (void) number;
    rang = rang + 1;
}

static void ring_after(double seconds)
{
    struct itimerval timer = {.it_value.tv_usec = (suseconds_t) (seconds * 1e6)};
    CHECK(setitimer(ITIMER_REAL, &timer, NULL) == 0);
}

// A handler ends each wait, also one with SA_RESTART; and one of a signal that is blocked but in the wait.
static void is_interrupted(void)
{
    struct sigaction action = {.sa_handler = ring, .sa_flags = SA_RESTART}, before;
    make_queue(0);
    CHECK(sigaction(SIGALRM, &action, &before) == 0);
    for (int i = 0; i < WAYS; i++) {
        rang = 0;
        ring_after(0.15);
        REFUSED(ways[i](5000), EINTR);
        CHECK(rang == 1);
    }
    sigset_t none, alarm_signal, mask;
    sigemptyset(&none), sigemptyset(&alarm_signal);
    sigaddset(&alarm_signal, SIGALRM);
    CHECK(sigprocmask(SIG_BLOCK, &alarm_signal, NULL) == 0);
    struct pollfd entry = {queue, POLLIN, 0};
    struct epoll_event event;
    int epoll = watching(EPOLLIN);
    for (int i = 0; i < 3; i++) {
        rang = 0;
        CHECK(raise(SIGALRM) == 0 && rang == 0);
        if (i == 0)
            REFUSED(ppoll(&entry, 1, NULL, &none), EINTR);
        else if (i == 1)
            REFUSED(pselect(0, NULL, NULL, NULL, NULL, &none), EINTR);
        else
            REFUSED(epoll_pwait(epoll, &event, 1, -1, &none), EINTR);
        CHECK(rang == 1 && sigprocmask(SIG_BLOCK, NULL, &mask) == 0 && sigismember(&mask, SIGALRM) == 1);
    }
    CHECK(sigprocmask(SIG_UNBLOCK, &alarm_signal, NULL) == 0 && sigaction(SIGALRM, &before, NULL) == 0);
    CHECK(close(epoll) == 0);
    alarm(60);
    remove_queue();
}

// Who drains a queue hears of each message after that, with EPOLLET; and once with EPOLLONESHOT.
static void reports_edges(void)
{
    struct epoll_event event;
    make_queue(O_NONBLOCK);
    int epoll = watching(EPOLLIN | EPOLLET);
    for (int i = 0; i < 5; i++) {
        CHECK(epoll_wait(epoll, &event, 1, 20) == 0);
        is_sent();
        CHECK(epoll_wait(epoll, &event, 1, 5000) == 1 && event.events == EPOLLIN);
        comes();
        REFUSED(mq_receive(queue, buffer, sizeof buffer, NULL), EAGAIN);
        // One more between the last receive and the wait.
        is_sent();
        CHECK(epoll_wait(epoll, &event, 1, 5000) == 1 && event.events == EPOLLIN);
        comes();
    }
    event = (struct epoll_event){.events = EPOLLIN | EPOLLONESHOT};
    CHECK(epoll_ctl(epoll, EPOLL_CTL_MOD, queue, &event) == 0);
    is_sent();
    CHECK(epoll_wait(epoll, &event, 1, 5000) == 1 && epoll_wait(epoll, &event, 1, 50) == 0);
    CHECK(epoll_ctl(epoll, EPOLL_CTL_DEL, queue, NULL) == 0 && close(epoll) == 0);
    comes();
    remove_queue();
}

static int flags_of(int fd)
{
    return fcntl(fd, F_GETFL) & (O_ACCMODE | O_NONBLOCK);
}

// It is the lowest that is free, closed by an exec, and its flags are the queue's.
static void is_a_descriptor(void)
{
    struct mq_attr attributes;
    int lowest = dup(0);
    CHECK(close(lowest) == 0 && make_queue(0) == lowest);
    CHECK(fcntl(queue, F_GETFD) == FD_CLOEXEC && flags_of(queue) == O_RDWR);
    CHECK(fcntl(queue, F_SETFD, 0) == 0 && fcntl(queue, F_GETFD) == 0);
    mqd_t reader = mq_open("/ipcd_polls", O_RDONLY | O_NONBLOCK);
    CHECK(reader == lowest + 1 && flags_of(reader) == (O_RDONLY | O_NONBLOCK));
    CHECK(fcntl(queue, F_SETFL, O_NONBLOCK) == 0 && flags_of(queue) == (O_RDWR | O_NONBLOCK));
    REFUSED(mq_receive(queue, buffer, sizeof buffer, NULL), EAGAIN);
    CHECK(mq_getattr(queue, &attributes) == 0 && attributes.mq_flags == O_NONBLOCK);
    CHECK(mq_setattr(queue, &(struct mq_attr){0}, NULL) == 0 && flags_of(queue) == O_RDWR);
    CHECK(fcntl(reader, F_SETFL, 0) == 0 && flags_of(reader) == O_RDONLY);
    is_sent();
    // What is read is no message, and takes none.
    char text[200];
    ssize_t size = read(queue, text, sizeof text);
    CHECK(is_on_kernel() ? size > 0 : size == 0);
    CHECK(found(queue) == (POLLIN | POLLOUT));
    mqd_t writer = mq_open("/ipcd_polls", O_WRONLY);
    CHECK(writer == lowest + 2);
    REFUSED(read(writer, text, sizeof text), EBADF);
    CHECK(mq_close(reader) == 0 && mq_close(writer) == 0);
    comes();
    remove_queue();
}

// Each way to close a descriptor closes its queue, and that number may be another's.
static void is_closed(void)
{
    struct mq_attr attributes;
    for (int i = 0; i < 6; i++) {
        make_queue(0);
        if (i == 0)
            CHECK(close(queue) == 0);
        else if (i == 1)
            CHECK(dup2(0, queue) == queue);
        else if (i == 2)
            CHECK(dup3(0, queue, O_CLOEXEC) == queue);
        else if (i == 3)
            CHECK(close_range((unsigned) queue, (unsigned) queue, 0) == 0);
        else if (i == 4)
            closefrom(queue);
        else
            CHECK(mq_close(queue) == 0);
        REFUSED(mq_getattr(queue, &attributes), EBADF);
        REFUSED(mq_send(queue, "a", 1, 0), EBADF);
        if (i == 1 || i == 2)
            CHECK(fcntl(queue, F_GETFD) >= 0 && close(queue) == 0);
        REFUSED(fcntl(queue, F_GETFD), EBADF);
        REFUSED(close(queue), EBADF);
    }
    // As often as a process may have them, so none is left open.
    for (int i = 0; i < 100; i++)
        CHECK(make_queue(0) >= 0 && close(queue) == 0);
    make_queue(0);
    CHECK(dup2(queue, queue) == queue);
    is_sent();
    comes();
    remove_queue();
}

// Children have the descriptor. What a child of vfork(2) closes is open here.
static void is_inherited(void)
{
    make_queue(0);
    pid_t child = fork();
    if (child == 0) {
        alarm(60);
        CHECK(by_poll(-1) == 1);
        comes();
        CHECK(by_poll(0) == 0 && close(queue) == 0);
        _exit(0);
    }
    pause_for(0.1);
    is_sent();
    ends_well(child);
    CHECK(by_poll(0) == 0);
    child = vfork();
    if (child == 0) {
        close(queue);
        _exit(0);
    }
    ends_well(child);
    is_sent();
    CHECK(by_poll(0) == 1);
    comes();
    remove_queue();
}

static void is_unlinked(void)
{
    make_queue(0);
    int epoll = watching(EPOLLIN);
    struct epoll_event event;
    is_sent();
    CHECK(mq_unlink("/ipcd_polls") == 0);
    CHECK(found(queue) == (POLLIN | POLLOUT) && epoll_wait(epoll, &event, 1, 0) == 1);
    comes();
    CHECK(found(queue) == POLLOUT && epoll_wait(epoll, &event, 1, 0) == 0);
    pid_t child = start(sends_soon, NULL);
    CHECK(epoll_wait(epoll, &event, 1, -1) == 1);
    comes();
    ends_well(child);
    CHECK(close(epoll) == 0 && mq_close(queue) == 0);
}

// Each way to copy a descriptor.
static int copied(int way, int file)
{
    int to = dup(0);
    CHECK(to >= 0);
    if (way == 0 || way > 2)
        CHECK(close(to) == 0);
    int copy = way == 0 ? dup(file) : way == 1 ? dup2(file, to) : way == 2 ? dup3(file, to, O_CLOEXEC)
        : fcntl(file, way == 3 ? F_DUPFD : F_DUPFD_CLOEXEC, to);
    CHECK(copy == to && fcntl(copy, F_GETFD) == (way == 2 || way == 4 ? FD_CLOEXEC : 0));
    return copy;
}

// A copy is of the same queue, with its flags and what it waits for, also after the first was closed. The last that is
// closed closes the queue.
static void is_copied(void)
{
    struct mq_attr attributes;
    for (int way = 0; way < 5; way++) {
        int first = make_queue(0), copy = copied(way, queue), third = copied(way, copy);
        CHECK(flags_of(copy) == O_RDWR && fcntl(copy, F_SETFL, O_NONBLOCK) == 0);
        CHECK(flags_of(first) == (O_RDWR | O_NONBLOCK));
        REFUSED(mq_receive(first, buffer, sizeof buffer, NULL), EAGAIN);
        is_sent();
        CHECK(found(copy) == (POLLIN | POLLOUT) && found(third) == (POLLIN | POLLOUT));
        CHECK(mq_receive(copy, buffer, sizeof buffer, NULL) == 1 && found(first) == POLLOUT);
        CHECK(way % 2 == 0 ? close(first) == 0 : mq_close(first) == 0);
        REFUSED(mq_getattr(first, &attributes), EBADF);
        queue = copy;
        int epoll = watching(EPOLLIN);
        struct epoll_event event;
        CHECK(mq_send(third, "a", 1, 0) == 0 && epoll_wait(epoll, &event, 1, 0) == 1);
        comes();
        CHECK(epoll_wait(epoll, &event, 1, 0) == 0 && close(epoll) == 0);
        CHECK(close(copy) == 0 && mq_getattr(third, &attributes) == 0 && attributes.mq_curmsgs == 0);
        pid_t child = fork();
        if (child == 0) {
            CHECK(mq_send(third, "a", 1, 0) == 0 && close(third) == 0);
            REFUSED(mq_getattr(third, &attributes), EBADF);
            _exit(0);
        }
        ends_well(child);
        CHECK(mq_receive(third, buffer, sizeof buffer, NULL) == 1);
        queue = third;
        remove_queue();
        REFUSED(mq_getattr(third, &attributes), EBADF);
        REFUSED(close(third), EBADF);
    }
}

// Copies take the places of others, and of each other.
static void replaces(void)
{
    struct mq_attr attributes;
    int first = make_queue(0), copy = dup(queue), other = mq_open("/ipcd_polls", O_RDONLY);
    CHECK(copy >= 0 && other >= 0 && dup2(copy, other) == other && flags_of(other) == O_RDWR);
    is_sent();
    CHECK(mq_receive(other, buffer, sizeof buffer, NULL) == 1);
    CHECK(dup2(copy, first) == first && dup2(first, copy) == copy && dup2(copy, copy) == copy);
    CHECK(dup2(0, copy) == copy);
    REFUSED(mq_getattr(copy, &attributes), EBADF);
    CHECK(close(copy) == 0);
    REFUSED(dup3(first, first, 0), EINVAL);
    REFUSED(fcntl(first, F_DUPFD, -1), EINVAL);
    REFUSED(dup2(first, -1), EBADF);
    // What was refused has not opened it once more.
    CHECK(close_range((unsigned) other, (unsigned) other, 0) == 0 && mq_close(first) == 0);
    REFUSED(mq_getattr(first, &attributes), EBADF);
    // A child of vfork(2) has its own copy: it is none here.
    make_queue(0);
    int lowest = dup(0);
    CHECK(close(lowest) == 0);
    pid_t child = vfork();
    if (child == 0)
        _exit(dup(queue) == lowest && close(lowest) == 0 ? 0 : 1);
    ends_well(child);
    REFUSED(mq_getattr(lowest, &attributes), EBADF);
    is_sent();
    comes();
    remove_queue();
    // As often as a process may have them, so none is left open.
    for (int i = 0; i < 200; i++) {
        make_queue(0);
        CHECK((copy = dup(queue)) >= 0 && close(queue) == 0 && close(copy) == 0);
        REFUSED(mq_getattr(copy, &attributes), EBADF);
    }
    mq_unlink("/ipcd_polls");
}

// The close of a copy ends the registration of the process, as that of each descriptor does.
static void ends_a_registration(bool is_unlinked)
{
    struct sigevent event = {.sigev_notify = SIGEV_NONE};
    make_queue(0);
    int copy = dup(queue);
    CHECK(copy >= 0 && (!is_unlinked || mq_unlink("/ipcd_polls") == 0));
    CHECK(mq_notify(queue, &event) == 0);
    REFUSED(mq_notify(copy, &event), EBUSY);
    CHECK(close(copy) == 0 && mq_notify(queue, &event) == 0);
    is_sent();
    CHECK(mq_notify(queue, &event) == 0 && mq_notify(queue, NULL) == 0);
    comes();
    copy = dup(queue);
    CHECK(close(queue) == 0);
    queue = copy;
    is_sent();
    comes();
    CHECK(mq_close(copy) == 0);
    REFUSED(mq_send(copy, "a", 1, 0), EBADF);
    mq_unlink("/ipcd_polls");
}

// Without a descriptor no queue is made.
static void needs_a_descriptor(void)
{
    struct rlimit limit, before;
    CHECK(getrlimit(RLIMIT_NOFILE, &before) == 0);
    limit = before;
    mq_unlink("/ipcd_polls");
    limit.rlim_cur = (rlim_t) dup(0);
    CHECK(close((int) limit.rlim_cur) == 0 && setrlimit(RLIMIT_NOFILE, &limit) == 0);
    REFUSED(mq_open("/ipcd_polls", O_RDWR | O_CREAT, 0600, NULL), EMFILE);
    CHECK(setrlimit(RLIMIT_NOFILE, &before) == 0);
    REFUSED(mq_open("/ipcd_polls", O_RDWR), ENOENT);
}

// What the next program has, if the descriptor is not closed by an exec.
static void is_no_queue(int fd)
{
    struct mq_attr attributes;
    CHECK(fcntl(fd, F_GETFD) == 0);
    REFUSED(mq_getattr(fd, &attributes), EBADF);
}

// Where a server differs from the kernel: there are at most 64 copies of descriptors, waits that nobody hears of have old
// news, and EPOLLET is more than edges.
static void differs(void)
{
    struct mq_attr attributes;
    struct epoll_event event;
    int yes = 1;
    make_queue(O_NONBLOCK);
    int copies[64], epoll = watching(EPOLLIN | EPOLLET);
    for (int i = 0; i < 64; i++)
        CHECK((copies[i] = dup(queue)) >= 0);
    REFUSED(dup(queue), EMFILE);
    REFUSED(dup2(queue, copies[0]), EMFILE);
    REFUSED(fcntl(queue, F_DUPFD, 0), EMFILE);
    for (int i = 0; i < 64; i++)
        CHECK(mq_getattr(copies[i], &attributes) == 0 && close(copies[i]) == 0);
    is_sent();
    struct pollfd entry = {queue, POLLIN, 0};
    CHECK(syscall(SYS_ppoll, &entry, 1, time_of(100), NULL, 0) == 0);
    for (int i = 0; i < 3; i++)
        CHECK(epoll_wait(epoll, &event, 1, 1000) == 1);
    CHECK(mq_setattr(queue, &(struct mq_attr){0}, NULL) == 0 && ioctl(queue, FIONBIO, &yes) == 0);
    CHECK(mq_getattr(queue, &attributes) == 0 && attributes.mq_flags == 0);
    pid_t child = fork();
    if (child == 0) {
        char number[12];
        snprintf(number, sizeof number, "%d", queue);
        CHECK(fcntl(queue, F_SETFD, 0) == 0);
        execl(program, program, "no_queue", number, NULL);
        _exit(1);
    }
    ends_well(child);
    CHECK(close(epoll) == 0);
    comes();
    remove_queue();
}

// The server is restarted while nobody asks it: a wait ends, and the next call hears why, once.
static void outlives_the_server(void)
{
    char line[20];
    make_queue(O_NONBLOCK);
    CHECK(by_poll(0) == 0 && puts("now") >= 0 && fflush(stdout) == 0);
    CHECK(fgets(line, sizeof line, stdin) != NULL);
    if (getenv("IPCD_WAIT") != NULL) {
        CHECK(by_poll(100) == 0);
    } else {
        CHECK(by_poll(-1) == 1);
        REFUSED(mq_receive(queue, buffer, sizeof buffer, NULL), ECONNRESET);
        CHECK(by_poll(0) == 0);
    }
    is_sent();
    CHECK(by_poll(-1) == 1);
    comes();
    remove_queue();
}

int main(int count, char **words)
{
    alarm(60);
    program = words[0];
    if (count > 1 && strcmp(words[1], "restart") == 0) {
        outlives_the_server();
        return 0;
    }
    if (count > 2 && strcmp(words[1], "no_queue") == 0) {
        is_no_queue(atoi(words[2]));
        return 0;
    }
    shows_its_state();
    waits();
    waits_for_room();
    waits_for_others();
    is_interrupted();
    reports_edges();
    is_a_descriptor();
    is_closed();
    is_inherited();
    is_unlinked();
    is_copied();
    replaces();
    ends_a_registration(false);
    ends_a_registration(true);
    needs_a_descriptor();
    if (!is_on_kernel())
        differs();
    return 0;
}
