// POSIX queues: what mq_overview(7) and its pages say, on the kernel's objects and on a server's.
#define _GNU_SOURCE
#include <fcntl.h>
#include <mqueue.h>
#include <poll.h>
#include <pthread.h>
#include <sched.h>
#include <sys/stat.h>

#include "check.h"

static char buffer[8192];

static void is_sent(mqd_t queue, const char *text, unsigned priority)
{
    CHECK(mq_send(queue, text, strlen(text), priority) == 0);
}

static void comes(mqd_t queue, const char *text, unsigned priority)
{
    unsigned found = 12345;
    memset(buffer, 0, sizeof buffer);
    CHECK(mq_receive(queue, buffer, sizeof buffer, &found) == (ssize_t) strlen(text));
    CHECK(found == priority && strcmp(buffer, text) == 0);
}

static void opens(void)
{
    static char longest[400];
    memset(longest, 'n', 300);
    longest[0] = '/';
    REFUSED(mq_open("none", O_RDONLY), EINVAL);
    REFUSED(mq_open("/", O_RDONLY), ENOENT);
    REFUSED(mq_open("/a/b", O_RDONLY), EACCES);
    REFUSED(mq_open(longest, O_RDONLY), ENAMETOOLONG);
    // With its slash a name has 255 bytes at most, as mq_overview(7) has it. The kernel takes one byte more.
    longest[256] = 0;
    REFUSED(mq_open(longest, O_RDONLY), is_on_kernel() ? ENOENT : ENAMETOOLONG);
    longest[255] = 0;
    REFUSED(mq_open(longest, O_RDONLY), ENOENT);
    REFUSED(mq_open("/ipcd_none", O_RDONLY), ENOENT);
    REFUSED(mq_unlink("/ipcd_none"), ENOENT);
    struct mq_attr attributes = {.mq_maxmsg = 0, .mq_msgsize = 8};
    REFUSED(mq_open("/ipcd_none", O_RDWR | O_CREAT, 0600, &attributes), EINVAL);
    attributes = (struct mq_attr){.mq_maxmsg = 1, .mq_msgsize = -1};
    REFUSED(mq_open("/ipcd_none", O_RDWR | O_CREAT, 0600, &attributes), EINVAL);
    REFUSED(mq_close(-1), EBADF);
    REFUSED(mq_send(0, "x", 1, 0), EBADF);
}

static void keeps_order(void)
{
    mqd_t queue = mq_open("/ipcd_a", O_RDWR | O_CREAT | O_EXCL, 0600, NULL);
    CHECK(queue != -1);
    REFUSED(mq_open("/ipcd_a", O_RDWR | O_CREAT | O_EXCL, 0600, NULL), EEXIST);
    is_sent(queue, "low", 1);
    is_sent(queue, "high", 30);
    is_sent(queue, "second", 30);
    is_sent(queue, "", 0);
    comes(queue, "high", 30);
    comes(queue, "second", 30);
    comes(queue, "low", 1);
    comes(queue, "", 0);
    struct mq_attr attributes;
    memset(&attributes, 0xff, sizeof attributes);
    CHECK(mq_getattr(queue, &attributes) == 0);
    CHECK(attributes.mq_flags == 0 && attributes.mq_maxmsg == 10 && attributes.mq_msgsize == 8192);
    CHECK(attributes.mq_curmsgs == 0);
    REFUSED(mq_send(queue, "x", 1, 32768), EINVAL);
    REFUSED(mq_send(queue, buffer, 8193, 1), EMSGSIZE);
    REFUSED(mq_receive(queue, buffer, 8191, NULL), EMSGSIZE);
    CHECK(mq_close(queue) == 0);
    REFUSED(mq_close(queue), EBADF);
    REFUSED(mq_getattr(queue, &attributes), EBADF);
    CHECK(mq_unlink("/ipcd_a") == 0);
}

static void has_flags(void)
{
    struct mq_attr attributes = {.mq_maxmsg = 2, .mq_msgsize = 8}, before;
    mqd_t queue = mq_open("/ipcd_b", O_RDWR | O_CREAT | O_NONBLOCK, 0600, &attributes);
    CHECK(queue != -1);
    REFUSED(mq_receive(queue, buffer, 8, NULL), EAGAIN);
    is_sent(queue, "a", 0);
    is_sent(queue, "b", 0);
    REFUSED(mq_send(queue, "c", 1, 0), EAGAIN);
    REFUSED(mq_send(queue, "too long!", 9, 0), EMSGSIZE);
    attributes.mq_flags = 0;
    CHECK(mq_setattr(queue, &attributes, &before) == 0);
    CHECK(before.mq_flags == O_NONBLOCK && before.mq_maxmsg == 2 && before.mq_curmsgs == 2);
    struct timespec soon = moment(CLOCK_REALTIME, 0.3);
    double began = now();
    REFUSED(mq_timedsend(queue, "c", 1, 0, &soon), ETIMEDOUT);
    CHECK(now() - began > 0.25 && now() - began < 2);
    // What the C library's headers cannot see is a call of another name, if they are fortified.
    volatile int access = O_RDONLY;
    mqd_t reader = mq_open("/ipcd_b", access);
    mqd_t writer = mq_open("/ipcd_b", O_WRONLY | O_NONBLOCK);
    CHECK(reader != -1 && writer != -1 && reader != writer && reader != queue);
    REFUSED(mq_send(reader, "x", 1, 0), EBADF);
    REFUSED(mq_receive(writer, buffer, 8, NULL), EBADF);
    comes(reader, "a", 0);
    comes(reader, "b", 0);
    soon = moment(CLOCK_REALTIME, 0.2);
    REFUSED(mq_timedreceive(reader, buffer, 8, NULL, &soon), ETIMEDOUT);
    soon.tv_nsec = -1;
    REFUSED(mq_timedreceive(reader, buffer, 8, NULL, &soon), EINVAL);
    CHECK(mq_getattr(writer, &before) == 0 && before.mq_flags == O_NONBLOCK);
    CHECK(mq_close(reader) == 0 && mq_close(writer) == 0);
    CHECK(mq_unlink("/ipcd_b") == 0);
    is_sent(queue, "stays", 3);
    comes(queue, "stays", 3);
    CHECK(mq_close(queue) == 0);
}

static volatile sig_atomic_t told;
static siginfo_t told_of;

static void hear(int number, siginfo_t *info, void *context)
{
    (void) number, (void) context;
    told_of = *info;
    told = told + 1;
}

static void run(union sigval value)
{
    *(volatile int *) value.sival_ptr = 1;
}

static void is_told(volatile int *place)
{
    for (double began = now(); now() - began < 5 && !*place;)
        pause_for(0.01);
    CHECK(*place == 1);
}

static volatile int stack_is_small;

static void look_at_stack(union sigval value)
{
    pthread_attr_t own;
    size_t size = 0;
    int state = 0;
    (void) value;
    CHECK(pthread_getattr_np(pthread_self(), &own) == 0 && pthread_attr_getstacksize(&own, &size) == 0);
    CHECK(pthread_attr_getdetachstate(&own, &state) == 0 && state == PTHREAD_CREATE_DETACHED);
    pthread_attr_destroy(&own);
    stack_is_small = size <= 300000 ? 1 : 2;
}

// A function's thread has the attributes that are given, though they are gone when it begins. Nobody has to join it.
static void has_attributes(mqd_t queue)
{
    pthread_attr_t attributes;
    cpu_set_t processors;
    CHECK(pthread_attr_init(&attributes) == 0 && pthread_attr_setstacksize(&attributes, 262144) == 0);
    CHECK(sched_getaffinity(0, sizeof processors, &processors) == 0);
    CHECK(pthread_attr_setaffinity_np(&attributes, sizeof processors, &processors) == 0);
    struct sigevent event = {.sigev_notify = SIGEV_THREAD, .sigev_notify_function = look_at_stack};
    event.sigev_notify_attributes = &attributes;
    CHECK(mq_notify(queue, &event) == 0);
    CHECK(pthread_attr_destroy(&attributes) == 0);
    memset(&attributes, 0x55, sizeof attributes);
    is_sent(queue, "d", 0);
    is_told(&stack_is_small);
    comes(queue, "d", 0);
}

static void notifies(void)
{
    mqd_t queue = mq_open("/ipcd_c", O_RDWR | O_CREAT | O_NONBLOCK, 0600, NULL);
    CHECK(queue != -1);
    struct sigaction action = {.sa_sigaction = hear, .sa_flags = SA_SIGINFO | SA_RESTART};
    CHECK(sigaction(SIGUSR1, &action, NULL) == 0);
    struct sigevent event = {.sigev_notify = SIGEV_SIGNAL, .sigev_signo = SIGUSR1, .sigev_value.sival_int = 42};
    CHECK(mq_notify(queue, &event) == 0);
    REFUSED(mq_notify(queue, &event), EBUSY);
    is_sent(queue, "a", 0);
    is_told((volatile int *) &told);
    CHECK(told_of.si_code == SI_MESGQ && told_of.si_value.sival_int == 42 && told_of.si_signo == SIGUSR1);
    if (!is_on_kernel())
        CHECK(told_of.si_pid == 0 && told_of.si_uid == 0);
    comes(queue, "a", 0);
    is_sent(queue, "b", 0);
    comes(queue, "b", 0);
    CHECK(told == 1);
    volatile int has_run = 0;
    event = (struct sigevent){.sigev_notify = SIGEV_THREAD, .sigev_notify_function = run};
    event.sigev_value.sival_ptr = (void *) &has_run;
    CHECK(mq_notify(queue, &event) == 0);
    CHECK(mq_notify(queue, NULL) == 0);
    CHECK(mq_notify(queue, &event) == 0);
    is_sent(queue, "c", 0);
    is_told(&has_run);
    comes(queue, "c", 0);
    has_attributes(queue);
    event = (struct sigevent){.sigev_notify = SIGEV_NONE};
    CHECK(mq_notify(queue, &event) == 0);
    REFUSED(mq_notify(queue, &event), EBUSY);
    CHECK(mq_close(queue) == 0);
    REFUSED(mq_notify(queue, NULL), EBADF);
    queue = mq_open("/ipcd_c", O_RDWR);
    CHECK(queue != -1 && mq_notify(queue, &event) == 0);
    event.sigev_notify = 99;
    REFUSED(mq_notify(queue, &event), EINVAL);
    CHECK(mq_close(queue) == 0 && mq_unlink("/ipcd_c") == 0);
}

// When mq_send answers, the handler of its own process has run.
static void notifies_at_once(void)
{
    mqd_t queue = mq_open("/ipcd_c", O_RDWR | O_CREAT, 0600, NULL);
    struct sigevent event = {.sigev_notify = SIGEV_SIGNAL, .sigev_signo = SIGUSR1};
    for (int i = 0; i < 50; i++) {
        told = 0;
        CHECK(mq_notify(queue, &event) == 0);
        is_sent(queue, "a", 0);
        CHECK(told == 1);
        // Nobody is told of the second message, and mq_send waits for nothing.
        is_sent(queue, "a", 0);
        comes(queue, "a", 0);
        comes(queue, "a", 0);
        CHECK(told == 1);
    }
    CHECK(mq_close(queue) == 0 && mq_unlink("/ipcd_c") == 0);
}

static void refuses_bad_addresses(void)
{
    // The C library itself reads the name.
    if (!is_on_kernel()) {
        REFUSED(mq_open((char *) 8, O_RDONLY), EFAULT);
        REFUSED(mq_unlink((char *) 8), EFAULT);
    }
    mqd_t queue = mq_open("/ipcd_d", O_RDWR | O_CREAT | O_NONBLOCK, 0600, NULL);
    CHECK(queue != -1);
    REFUSED(mq_send(queue, (char *) 8, 1, 0), EFAULT);
    REFUSED(mq_timedsend(queue, "a", 1, 0, (struct timespec *) 8), EFAULT);
    REFUSED(mq_getattr(queue, (struct mq_attr *) 8), EFAULT);
    REFUSED(mq_setattr(queue, (struct mq_attr *) 8, NULL), EFAULT);
    if (!is_on_kernel()) {
        struct sigevent event = {.sigev_notify = SIGEV_THREAD, .sigev_notify_function = run};
        event.sigev_notify_attributes = (void *) 8;
        REFUSED(mq_notify(queue, &event), EFAULT);
        REFUSED(mq_notify(queue, (struct sigevent *) 8), EFAULT);
    }
    is_sent(queue, "a", 0);
    REFUSED(mq_receive(queue, (char *) 8, 8192, NULL), EFAULT);
    CHECK(mq_close(queue) == 0 && mq_unlink("/ipcd_d") == 0);
}

#ifdef PREFIXED
// A descriptor of the library is no file's, so calls on files refuse it.
static void is_no_file(void)
{
    mqd_t queue = mq_open("/ipcd_e", O_RDWR | O_CREAT, 0600, NULL);
    CHECK(queue != -1);
    REFUSED(read(queue, buffer, 1), EBADF);
    REFUSED(close(queue), EBADF);
    REFUSED(fcntl(queue, F_GETFD), EBADF);
    struct pollfd entry = {queue, POLLIN, 0};
    CHECK(poll(&entry, 1, 0) == 1 && entry.revents == POLLNVAL);
    is_sent(queue, "here", 0);
    comes(queue, "here", 0);
    CHECK(mq_close(queue) == 0 && mq_unlink("/ipcd_e") == 0);
}
#endif

int main(void)
{
    alarm(60);
    // What a run before this has left.
    mq_unlink("/ipcd_a"), mq_unlink("/ipcd_b"), mq_unlink("/ipcd_c"), mq_unlink("/ipcd_d"), mq_unlink("/ipcd_e");
    opens();
    keeps_order();
    has_flags();
    notifies();
    if (tries_bad_addresses()) {
        // Tools keep signals for a while.
        notifies_at_once();
        refuses_bad_addresses();
    }
#ifdef PREFIXED
    is_no_file();
#endif
    return 0;
}
