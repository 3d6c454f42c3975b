// Signal handlers that run while a call waits: which calls end with EINTR, see signal(7), and that no message is lost.
#define _GNU_SOURCE
#include <fcntl.h>
#include <mqueue.h>
#include <semaphore.h>
#include <sys/ipc.h>
#include <sys/msg.h>
#include <sys/sem.h>
#include <sys/time.h>

#include "check.h"

enum { RACES = 1000, FEW_RACES = 100, SLOW_RACES = 4 };

struct message {
    long type;
    int number;
    char rest[8188];
};

static struct message message = {.type = 1};
static int races = RACES;
// After so many microseconds a call waits.
static int while_it_waits = 150000;
static volatile sig_atomic_t handled;
// A pipe: there is a byte for each handler that has told that it runs.
static int told[2];
static int queue, set;
static mqd_t full, empty;
static sem_t *sem;
static char buffer[64];

static void handle(int number)
{
    (void) number;
    handled = handled + 1;
}

static void tell(int number)
{
    handle(number);
    CHECK(write(told[1], "t", 1) == 1);
}

static void handle_with(void (*handler)(int), int flags)
{
    struct sigaction action = {.sa_handler = handler, .sa_flags = flags};
    CHECK(sigaction(SIGALRM, &action, NULL) == 0);
}

static void ring_after(int microseconds)
{
    struct itimerval time = {.it_value = {0, microseconds}};
    CHECK(setitimer(ITIMER_REAL, &time, NULL) == 0);
}

static void ring(void)
{
    handled = 0;
    ring_after(while_it_waits);
}

// They are never begun again.
static void system_v(int flags)
{
    handle_with(handle, flags);
    ring();
    REFUSED(msgrcv(queue, &message, 8, 7, 0), EINTR);
    CHECK(handled == 1);
    message.type = 1;
    int sent = 0, received = 0;
    while (msgsnd(queue, &message, 8192, IPC_NOWAIT) == 0)
        sent++;
    CHECK(errno == EAGAIN);
    ring();
    REFUSED(msgsnd(queue, &message, 1, 0), EINTR);
    CHECK(handled == 1);
    while (msgrcv(queue, &message, 8192, 0, IPC_NOWAIT) == 8192)
        received++;
    CHECK(errno == ENOMSG && sent >= 2 && received == sent);
    struct sembuf down = {0, -1, 0};
    struct timespec time = {5, 0};
    ring();
    REFUSED(semop(set, &down, 1), EINTR);
    ring();
    REFUSED(semtimedop(set, &down, 1, &time), EINTR);
    CHECK(semctl(set, 0, GETVAL) == 0 && semctl(set, 0, GETNCNT) == 0);
}

static void posix_without_restart(void)
{
    struct timespec later = moment(CLOCK_REALTIME, 20);
    handle_with(handle, 0);
    ring();
    REFUSED(mq_receive(empty, buffer, sizeof buffer, NULL), EINTR);
    ring();
    REFUSED(mq_timedreceive(empty, buffer, sizeof buffer, NULL, &later), EINTR);
    ring();
    REFUSED(mq_send(full, "x", 1, 0), EINTR);
    ring();
    REFUSED(sem_wait(sem), EINTR);
    ring();
    REFUSED(sem_timedwait(sem, &later), EINTR);
    int value;
    CHECK(sem_getvalue(sem, &value) == 0 && value == 0);
}

static void after_a_handler(void)
{
    char byte;
    CHECK(read(told[0], &byte, 1) == 1);
    pause_for(0.2);
}

static void let_go_on(void *unused)
{
    (void) unused;
    after_a_handler();
    CHECK(mq_send(empty, "came", 4, 1) == 0);
    after_a_handler();
    CHECK(mq_receive(full, buffer, sizeof buffer, NULL) == 1);
    for (int i = 0; i < 3; i++) {
        after_a_handler();
        CHECK(sem_post(sem) == 0);
    }
    after_a_handler();
    CHECK(mq_send(empty, "in time", 7, 1) == 0);
    after_a_handler();
    CHECK(mq_receive(full, buffer, sizeof buffer, NULL) == 1);
}

static void posix_with_restart(void)
{
    CHECK(pipe(told) == 0);
    handle_with(tell, SA_RESTART);
    pid_t child = start(let_go_on, NULL);
    ring();
    CHECK(mq_receive(empty, buffer, sizeof buffer, NULL) == 4 && handled == 1);
    ring();
    CHECK(mq_send(full, "x", 1, 0) == 0 && handled == 1);
    ring();
    CHECK(sem_wait(sem) == 0 && handled == 1);
    struct timespec later = moment(CLOCK_REALTIME, 20), much_later = moment(CLOCK_MONOTONIC, 20);
    // The C library ends these two, other than signal(7) has it.
    int ended = is_on_kernel() ? EINTR : 0;
    ring();
    CHECK((sem_timedwait(sem, &later) == 0 ? 0 : errno) == ended && handled == 1);
    CHECK(ended == 0 || sem_wait(sem) == 0);
    ring();
    CHECK((sem_clockwait(sem, CLOCK_MONOTONIC, &much_later) == 0 ? 0 : errno) == ended && handled == 1);
    CHECK(ended == 0 || sem_wait(sem) == 0);
    ring();
    CHECK(mq_timedreceive(empty, buffer, sizeof buffer, NULL, &later) == 7 && handled == 1);
    ring();
    CHECK(mq_timedsend(full, "y", 1, 0, &later) == 0 && handled == 1);
    ends_well(child);
    CHECK(close(told[0]) == 0 && close(told[1]) == 0);
}

static void call(int number)
{
    static struct message other = {.type = 3};
    handle(number);
    CHECK(msgsnd(queue, &other, 4, 0) == 0 && sem_post(sem) == 0 && semctl(set, 0, GETVAL) == 0);
}

// A handler calls while the call that it ends waits still.
static void calls_in_a_handler(void)
{
    handle_with(call, 0);
    ring();
    REFUSED(msgrcv(queue, &message, 8, 7, 0), EINTR);
    CHECK(msgrcv(queue, &message, 8, 3, IPC_NOWAIT) == 4 && sem_trywait(sem) == 0);
    ring();
    CHECK(msgrcv(queue, &message, 8, 3, 0) == 4 || (errno == EINTR && msgrcv(queue, &message, 8, 3, 0) == 4));
    CHECK(sem_trywait(sem) == 0);
}

// In a few races the handler runs for certain before the message comes, and while a call waits for it.
static bool is_slow(int race)
{
    return race % (races / SLOW_RACES) == 0;
}

static void send_all(void *unused)
{
    struct msqid_ds record = {.msg_qnum = 1};
    (void) unused;
    for (message.number = 0; message.number < races; message.number++) {
        if (is_slow(message.number)) {
            while (msgctl(queue, IPC_STAT, &record) == 0 && record.msg_qnum > 0)
                pause_for(0.001);
            pause_for(2 * while_it_waits / 1e6);
        }
        pause_for(rand() % 400 / 1e6);
        CHECK(msgsnd(queue, &message, sizeof message.number, 0) == 0);
    }
}

// Each message comes, in order, though a handler ends some of the calls that wait for them.
static void drops_no_message(void)
{
    int ended = 0;
    handle_with(handle, 0);
    message.type = 1;
    pid_t child = start(send_all, NULL);
    for (int i = 0; i < races;) {
        ring_after(is_slow(i) ? while_it_waits : 20 + rand() % 400);
        ssize_t size = msgrcv(queue, &message, sizeof message.number, 0, 0);
        if (size < 0) {
            CHECK(errno == EINTR);
            ended++;
            continue;
        }
        CHECK(size == sizeof message.number && message.number == i);
        i++;
    }
    ring_after(0);
    ends_well(child);
    CHECK(ended > 0);
    REFUSED(msgrcv(queue, &message, 8, 0, IPC_NOWAIT), ENOMSG);
}

int main(void)
{
    struct mq_attr one = {.mq_maxmsg = 1, .mq_msgsize = 8};
    // Memcheck is slow.
    if (!tries_bad_addresses()) {
        races = FEW_RACES;
        while_it_waits = 600000;
    }
    // What a run before this has left.
    mq_unlink("/ipcd_full"), mq_unlink("/ipcd_empty"), sem_unlink("/ipcd_h");
    queue = msgget(IPC_PRIVATE, 0600);
    set = semget(IPC_PRIVATE, 1, 0600);
    full = mq_open("/ipcd_full", O_RDWR | O_CREAT, 0600, &one);
    empty = mq_open("/ipcd_empty", O_RDWR | O_CREAT, 0600, &one);
    sem = sem_open("/ipcd_h", O_CREAT, 0600, 0);
    CHECK(queue >= 0 && set >= 0 && full != -1 && empty != -1 && sem != SEM_FAILED);
    CHECK(mq_send(full, "f", 1, 0) == 0);
    system_v(0);
    system_v(SA_RESTART);
    posix_without_restart();
    posix_with_restart();
    calls_in_a_handler();
    drops_no_message();
    CHECK(msgctl(queue, IPC_RMID, NULL) == 0 && semctl(set, 0, IPC_RMID) == 0);
    CHECK(mq_unlink("/ipcd_full") == 0 && mq_unlink("/ipcd_empty") == 0 && sem_unlink("/ipcd_h") == 0);
    return 0;
}
