// Named semaphores and queues that are unlinked and still used, by forked processes, threads and others: what
// sem_unlink(3) and mq_unlink(3) say. The word says which test.
#define _GNU_SOURCE
#include <fcntl.h>
#include <limits.h>
#include <mqueue.h>
#include <pthread.h>
#include <semaphore.h>
#include <stdatomic.h>
#include <sys/time.h>

#include "check.h"

enum { MANY = 100 };

static const char *const name = "/ipcd_unlinked";
static sem_t *sem, *other;

static int value_of(sem_t *it)
{
    int value = -1;
    CHECK(sem_getvalue(it, &value) == 0);
    return value;
}

static sem_t *open_new(unsigned value)
{
    sem_t *made = sem_open(name, O_CREAT | O_EXCL, 0600, value);
    CHECK(made != SEM_FAILED);
    return made;
}

static void wait_a_minute(sem_t *it)
{
    struct timespec soon = moment(CLOCK_REALTIME, 60);
    CHECK(sem_timedwait(it, &soon) == 0);
}

// Each call does what it did, and errno stays.
static void counts(void)
{
    sem = open_new(2);
    CHECK(sem_wait(sem) == 0);
    errno = 77;
    CHECK(sem_unlink(name) == 0 && errno == 77);
    REFUSED(sem_unlink(name), ENOENT);
    CHECK(value_of(sem) == 1);
    errno = 77;
    CHECK(sem_trywait(sem) == 0 && errno == 77);
    REFUSED(sem_trywait(sem), EAGAIN);
    struct timespec soon = moment(CLOCK_REALTIME, 0.1);
    REFUSED(sem_timedwait(sem, &soon), ETIMEDOUT);
    soon = moment(CLOCK_MONOTONIC, 0.1);
    REFUSED(sem_clockwait(sem, CLOCK_MONOTONIC, &soon), ETIMEDOUT);
    REFUSED(sem_clockwait(sem, CLOCK_BOOTTIME, &soon), EINVAL);
    soon.tv_nsec = -1;
    REFUSED(sem_timedwait(sem, &soon), EINVAL);
    CHECK(sem_post(sem) == 0 && sem_post(sem) == 0 && value_of(sem) == 2);
    // The name is another's.
    CHECK(sem_open(name, 0) == SEM_FAILED && errno == ENOENT);
    other = open_new(7);
    CHECK(other != sem && value_of(other) == 7 && value_of(sem) == 2);
    CHECK(sem_close(sem) == 0 && sem_post(other) == 0 && value_of(other) == 8);
    CHECK(sem_unlink(name) == 0 && value_of(other) == 8 && sem_close(other) == 0);
    sem = open_new(SEM_VALUE_MAX);
    CHECK(sem_unlink(name) == 0);
    REFUSED(sem_post(sem), EOVERFLOW);
    CHECK(sem_close(sem) == 0);
    // Two opens are one address, which is open until the second close.
    sem = open_new(0);
    CHECK(sem_open(name, 0) == sem && sem_unlink(name) == 0 && sem_close(sem) == 0);
    CHECK(sem_post(sem) == 0 && value_of(sem) == 1 && sem_close(sem) == 0);
    if (!is_on_kernel()) {
        REFUSED(sem_post(sem), EINVAL);
        REFUSED(sem_close(sem), EINVAL);
    }
}

static void take_and_give(void *unused)
{
    (void) unused;
    wait_a_minute(sem);
    CHECK(sem_post(other) == 0);
    CHECK(sem_close(sem) == 0 && sem_close(other) == 0);
}

// As locks of programs are made: unlinked at once, and then forked.
static void forks(void)
{
    sem = open_new(0);
    CHECK(sem_unlink(name) == 0);
    other = open_new(0);
    CHECK(sem_unlink(name) == 0);
    for (int i = 0; i < 3; i++) {
        pid_t child = start(take_and_give, NULL);
        CHECK(sem_post(sem) == 0);
        wait_a_minute(other);
        ends_well(child);
    }
    CHECK(value_of(sem) == 0 && value_of(other) == 0);
}

static int go[2], done[2];

static void step(int *ends)
{
    CHECK(write(ends[1], "s", 1) == 1);
}

static void wait_for_step(int *ends)
{
    char byte;
    CHECK(read(ends[0], &byte, 1) == 1);
}

static void use_before_and_after(void *uses_before)
{
    if (uses_before != NULL)
        CHECK(sem_post(sem) == 0);
    step(done);
    wait_for_step(go);
    wait_a_minute(sem);
    CHECK(sem_post(other) == 0);
    step(done);
    wait_for_step(go);
    CHECK(value_of(sem) == 0 && sem_post(sem) == 0);
}

// A child that was forked before it is unlinked, and has used it by then or not.
static void forks_before(void)
{
    CHECK(pipe(go) == 0 && pipe(done) == 0);
    for (int i = 0; i < 2; i++) {
        sem = open_new(0);
        other = sem_open("/ipcd_unlinked_too", O_CREAT | O_EXCL, 0600, 0);
        CHECK(other != SEM_FAILED);
        pid_t child = start(use_before_and_after, i == 0 ? NULL : "before");
        wait_for_step(done);
        CHECK(value_of(sem) == i && sem_unlink(name) == 0 && sem_unlink("/ipcd_unlinked_too") == 0);
        CHECK(value_of(sem) == i && (i == 1 || sem_post(sem) == 0));
        step(go);
        wait_for_step(done);
        wait_a_minute(other);
        step(go);
        ends_well(child);
        CHECK(value_of(sem) == 1 && value_of(other) == 0 && sem_close(sem) == 0 && sem_close(other) == 0);
    }
}

static void unlink_it(void *unused)
{
    (void) unused;
    CHECK(sem_post(sem) == 0 && sem_unlink(name) == 0 && sem_post(sem) == 0);
}

// It is a child that unlinks, and the name has another semaphore then.
static void child_unlinks(void)
{
    sem = open_new(0);
    ends_well(start(unlink_it, NULL));
    other = open_new(5);
    CHECK(other != sem && value_of(other) == 5 && value_of(sem) == 2);
    CHECK(sem_wait(sem) == 0 && value_of(sem) == 1 && value_of(other) == 5);
    CHECK(sem_close(sem) == 0 && sem_unlink(name) == 0 && sem_close(other) == 0);
}

static void open_and_use(void *unused)
{
    (void) unused;
    wait_for_step(go);
    sem = sem_open(name, 0);
    CHECK(sem != SEM_FAILED && sem_post(sem) == 0);
    step(done);
    wait_for_step(go);
    CHECK(value_of(sem) == 1 && sem_post(sem) == 0 && sem_post(sem) == 0);
    step(done);
    wait_for_step(go);
    CHECK(value_of(sem) == 1);
    wait_a_minute(sem);
    CHECK(sem_close(sem) == 0);
}

// A process that has opened it by itself has the same, whoever unlinks it.
static void others_have_it(void)
{
    CHECK(pipe(go) == 0 && pipe(done) == 0);
    pid_t child = start(open_and_use, NULL);
    sem = open_new(0);
    step(go);
    wait_for_step(done);
    CHECK(value_of(sem) == 1 && sem_unlink(name) == 0 && value_of(sem) == 1);
    step(go);
    wait_for_step(done);
    CHECK(value_of(sem) == 3 && sem_wait(sem) == 0 && sem_wait(sem) == 0);
    step(go);
    ends_well(child);
    CHECK(value_of(sem) == 0 && sem_close(sem) == 0);
}

static void wait_long(void *unused)
{
    (void) unused;
    wait_a_minute(sem);
    wait_a_minute(sem);
}

// One waits while it is unlinked, and is woken by who has unlinked it.
static void waits_meanwhile(void)
{
    sem = open_new(0);
    pid_t child = start(wait_long, NULL);
    pause_for(0.3);
    CHECK(sem_unlink(name) == 0);
    CHECK(sem_post(sem) == 0 && sem_post(sem) == 0);
    ends_well(child);
    CHECK(value_of(sem) == 0 && sem_close(sem) == 0);
}

static void *wait_in_thread(void *unused)
{
    wait_a_minute(sem);
    CHECK(sem_post(other) == 0);
    return unused;
}

// While one thread waits, others call.
static void threads(void)
{
    pthread_t them[4];
    sem = open_new(0);
    CHECK(sem_unlink(name) == 0);
    other = open_new(0);
    CHECK(sem_unlink(name) == 0);
    for (int i = 0; i < 4; i++)
        CHECK(pthread_create(&them[i], NULL, wait_in_thread, NULL) == 0);
    pause_for(0.1);
    for (int i = 0; i < 4; i++)
        CHECK(sem_post(sem) == 0);
    for (int i = 0; i < 4; i++)
        CHECK(pthread_join(them[i], NULL) == 0);
    CHECK(value_of(other) == 4 && value_of(sem) == 0 && sem_close(sem) == 0 && sem_close(other) == 0);
}

static sem_t *volatile posted;

// The next one comes some time after a handler has ended, however long it took.
static const struct itimerval soon = {{0, 0}, {0, 300}}, never = {{0, 0}, {0, 0}};

static void post_in_handler(int number)
{
    (void) number;
    int saved = errno;
    if (posted != NULL)
        CHECK(sem_post(posted) == 0 && setitimer(ITIMER_REAL, &soon, NULL) == 0);
    errno = saved;
}

static void post_once(void *unused)
{
    (void) unused;
    CHECK(sem_post(sem) == 0);
}

// Handlers call at any moment, also while it is unlinked.
static void handlers(void)
{
    struct sigaction action = {.sa_handler = post_in_handler, .sa_flags = SA_RESTART};
    CHECK(sigaction(SIGALRM, &action, NULL) == 0);
    for (int i = 0; i < 20; i++) {
        posted = sem = open_new(0);
        CHECK(setitimer(ITIMER_REAL, &soon, NULL) == 0);
        CHECK(sem_unlink(name) == 0);
        posted = NULL;
        CHECK(setitimer(ITIMER_REAL, &never, NULL) == 0);
        int value = value_of(sem);
        ends_well(start(post_once, NULL));
        CHECK(value_of(sem) == value + 1 && sem_close(sem) == 0);
    }
}

// More than a server has, or a process of it: what is unlinked takes no room there.
static void many(void)
{
    static sem_t *each[MANY];
    for (int i = 0; i < MANY; i++) {
        each[i] = open_new((unsigned) i);
        CHECK(sem_unlink(name) == 0);
    }
    for (int i = 0; i < MANY; i++)
        CHECK(value_of(each[i]) == i && sem_close(each[i]) == 0);
}

// One thread waits while another one unlinks, and is woken by it.
static void waits_in_a_thread(void)
{
    pthread_t waits;
    sem = open_new(0);
    other = sem_open("/ipcd_unlinked_too", O_CREAT | O_EXCL, 0600, 0);
    CHECK(other != SEM_FAILED && pthread_create(&waits, NULL, wait_in_thread, NULL) == 0);
    pause_for(0.2);
    CHECK(sem_unlink(name) == 0 && sem_unlink("/ipcd_unlinked_too") == 0);
    CHECK(value_of(sem) == 0 && sem_post(sem) == 0);
    wait_a_minute(other);
    CHECK(pthread_join(waits, NULL) == 0 && value_of(sem) == 0 && sem_close(sem) == 0 && sem_close(other) == 0);
}

enum { ROUNDS = 10, RECEIVERS = 3 };

static mqd_t letters, answers;

static mqd_t open_unlinked(long most)
{
    struct mq_attr attributes = {.mq_maxmsg = most, .mq_msgsize = 8};
    mqd_t made = mq_open(name, O_RDWR | O_CREAT | O_EXCL, 0600, &attributes);
    CHECK(made != -1 && mq_unlink(name) == 0);
    return made;
}

static void *answer_letters(void *count)
{
    char text[8];
    for (int i = 0; i < *(int *) count; i++) {
        CHECK(mq_receive(letters, text, sizeof text, NULL) == 6 && memcmp(text, "letter", 6) == 0);
        CHECK(mq_send(answers, "answer", 6, 0) == 0);
    }
    return count;
}

static void receive_answer(void)
{
    char text[8];
    struct timespec soon = moment(CLOCK_REALTIME, 60);
    CHECK(mq_timedreceive(answers, text, sizeof text, NULL, &soon) == 6 && memcmp(text, "answer", 6) == 0);
}

// While one thread waits in a queue that is unlinked, another one uses it; and more wait at once.
static void queue_threads(void)
{
    pthread_t one, more[RECEIVERS];
    struct mq_attr found;
    int rounds = ROUNDS, once = 1;
    letters = open_unlinked(2), answers = open_unlinked(1);
    CHECK(pthread_create(&one, NULL, answer_letters, &rounds) == 0);
    pause_for(0.1);
    for (int i = 0; i < ROUNDS; i++) {
        CHECK(mq_getattr(letters, &found) == 0 && found.mq_maxmsg == 2 && found.mq_curmsgs == 0);
        CHECK(mq_send(letters, "letter", 6, 0) == 0);
        receive_answer();
    }
    CHECK(pthread_join(one, NULL) == 0);
    for (int i = 0; i < RECEIVERS; i++)
        CHECK(pthread_create(&more[i], NULL, answer_letters, &once) == 0);
    pause_for(0.3);
    for (int i = 0; i < RECEIVERS; i++)
        CHECK(mq_send(letters, "letter", 6, 0) == 0);
    for (int i = 0; i < RECEIVERS; i++)
        receive_answer();
    for (int i = 0; i < RECEIVERS; i++)
        CHECK(pthread_join(more[i], NULL) == 0);
    CHECK(mq_getattr(letters, &found) == 0 && found.mq_curmsgs == 0);
    CHECK(mq_close(letters) == 0 && mq_close(answers) == 0);
}

static void *wait_until_it_is_over(void *seconds)
{
    char text[8];
    double began = now(), length = *(double *) seconds;
    struct timespec end = moment(CLOCK_REALTIME, length);
    REFUSED(mq_timedreceive(letters, text, sizeof text, NULL, &end), ETIMEDOUT);
    CHECK(now() - began >= length - 0.01);
    return seconds;
}

static atomic_bool has_ended;

static void *wait_until_interrupted(void *unused)
{
    char text[8];
    REFUSED(mq_receive(letters, text, sizeof text, NULL), EINTR);
    has_ended = true;
    return unused;
}

static void hear(int number)
{
    (void) number;
}

// Its time is over when it is, and a handler ends it, though others use the queue meanwhile.
static void queue_ends(void)
{
    pthread_t waits;
    struct mq_attr found;
    double seconds = 0.5;
    struct sigaction action = {.sa_handler = hear};
    letters = open_unlinked(1);
    CHECK(sigaction(SIGUSR1, &action, NULL) == 0);
    CHECK(pthread_create(&waits, NULL, wait_until_it_is_over, &seconds) == 0);
    for (int i = 0; i < 50; i++) {
        pause_for(0.015);
        CHECK(mq_getattr(letters, &found) == 0);
    }
    CHECK(pthread_join(waits, NULL) == 0);
    CHECK(pthread_create(&waits, NULL, wait_until_interrupted, NULL) == 0);
    pause_for(0.1);
    CHECK(mq_getattr(letters, &found) == 0);
    while (!has_ended) {
        CHECK(pthread_kill(waits, SIGUSR1) == 0);
        pause_for(0.05);
    }
    CHECK(pthread_join(waits, NULL) == 0 && mq_close(letters) == 0);
}

static void is_sent(mqd_t to, const char *text, unsigned priority)
{
    CHECK(mq_send(to, text, strlen(text), priority) == 0);
}

static void comes(mqd_t from, const char *text, unsigned priority)
{
    char found[8] = "";
    unsigned of = 77;
    struct timespec soon = moment(CLOCK_REALTIME, 60);
    CHECK(mq_timedreceive(from, found, sizeof found, &of, &soon) == (ssize_t) strlen(text));
    CHECK(strncmp(found, text, sizeof found) == 0 && of == priority);
}

static void has_flags(mqd_t it, long flags, long messages)
{
    struct mq_attr found;
    CHECK(mq_getattr(it, &found) == 0 && found.mq_flags == flags && found.mq_curmsgs == messages);
    CHECK(found.mq_maxmsg == 5 && found.mq_msgsize == 8);
}

// What is in a queue stays there, in its order, and each descriptor is what it was.
static void queue_keeps(void)
{
    char text[8];
    struct mq_attr attributes = {.mq_maxmsg = 5, .mq_msgsize = 8}, blocks = {.mq_flags = 0};
    letters = mq_open(name, O_RDWR | O_CREAT | O_EXCL, 0600, &attributes);
    mqd_t reader = mq_open(name, O_RDONLY | O_NONBLOCK), writer = mq_open(name, O_WRONLY);
    CHECK(letters != -1 && reader != -1 && writer != -1);
    is_sent(letters, "low", 1);
    is_sent(letters, "high", 30);
    is_sent(writer, "", 0);
    is_sent(writer, "second", 30);
    errno = 77;
    CHECK(mq_unlink(name) == 0 && errno == 77);
    REFUSED(mq_unlink(name), ENOENT);
    REFUSED(mq_open(name, O_RDWR), ENOENT);
    answers = open_unlinked(1);
    has_flags(letters, 0, 4);
    has_flags(reader, O_NONBLOCK, 4);
    REFUSED(mq_send(reader, "a", 1, 0), EBADF);
    REFUSED(mq_receive(writer, text, sizeof text, NULL), EBADF);
    REFUSED(mq_receive(letters, text, 7, NULL), EMSGSIZE);
    comes(reader, "high", 30);
    comes(letters, "second", 30);
    comes(reader, "low", 1);
    CHECK(mq_close(writer) == 0);
    REFUSED(mq_close(writer), EBADF);
    comes(letters, "", 0);
    REFUSED(mq_receive(reader, text, sizeof text, NULL), EAGAIN);
    CHECK(mq_setattr(reader, &blocks, NULL) == 0);
    has_flags(reader, 0, 0);
    struct timespec end = moment(CLOCK_REALTIME, 0.1);
    REFUSED(mq_timedreceive(reader, text, sizeof text, NULL, &end), ETIMEDOUT);
    is_sent(letters, "last", 3);
    CHECK(mq_close(letters) == 0);
    comes(reader, "last", 3);
    CHECK(mq_close(reader) == 0 && mq_close(answers) == 0);
    REFUSED(mq_getattr(reader, &attributes), EBADF);
}

static void answer_and_close(void *unused)
{
    (void) unused;
    comes(letters, "letter", 0);
    is_sent(answers, "answer", 0);
    CHECK(mq_close(letters) == 0 && mq_close(answers) == 0);
}

// As queues of programs are made: unlinked at once, and then forked. One waits in a child, or before it begins.
static void queue_forks(void)
{
    letters = open_unlinked(2), answers = open_unlinked(1);
    for (int i = 0; i < 4; i++) {
        if (i % 2 == 1)
            is_sent(letters, "letter", 0);
        pid_t child = start(answer_and_close, NULL);
        pause_for(0.05);
        if (i % 2 == 0)
            is_sent(letters, "letter", 0);
        receive_answer();
        ends_well(child);
    }
    CHECK(mq_close(letters) == 0 && mq_close(answers) == 0);
}

static void send_and_unlink(void *unused)
{
    (void) unused;
    is_sent(letters, "a", 0);
    CHECK(mq_unlink(name) == 0);
    is_sent(letters, "b", 0);
}

// It is a child that unlinks.
static void queue_child_unlinks(void)
{
    struct mq_attr attributes = {.mq_maxmsg = 5, .mq_msgsize = 8};
    letters = mq_open(name, O_RDWR | O_CREAT | O_EXCL, 0600, &attributes);
    CHECK(letters != -1);
    ends_well(start(send_and_unlink, NULL));
    REFUSED(mq_open(name, O_RDWR), ENOENT);
    comes(letters, "a", 0);
    comes(letters, "b", 0);
    CHECK(mq_close(letters) == 0);
}

static void open_and_answer(void *unused)
{
    (void) unused;
    wait_for_step(go);
    letters = mq_open(name, O_RDWR);
    CHECK(letters != -1);
    step(done);
    wait_for_step(go);
    comes(letters, "letter", 0);
    is_sent(letters, "answer", 0);
}

// A process that has opened it by itself has the same.
static void queue_others(void)
{
    struct mq_attr attributes = {.mq_maxmsg = 1, .mq_msgsize = 8};
    CHECK(pipe(go) == 0 && pipe(done) == 0);
    pid_t child = start(open_and_answer, NULL);
    letters = mq_open(name, O_RDWR | O_CREAT | O_EXCL, 0600, &attributes);
    CHECK(letters != -1);
    step(go);
    wait_for_step(done);
    CHECK(mq_unlink(name) == 0);
    is_sent(letters, "letter", 0);
    step(go);
    ends_well(child);
    comes(letters, "answer", 0);
    CHECK(mq_close(letters) == 0);
}

// A thread waits in it while it is unlinked.
static void queue_waits_meanwhile(void)
{
    pthread_t waits;
    int once = 1;
    struct mq_attr attributes = {.mq_maxmsg = 1, .mq_msgsize = 8};
    letters = mq_open(name, O_RDWR | O_CREAT | O_EXCL, 0600, &attributes);
    CHECK(letters != -1 && pthread_create(&waits, NULL, answer_letters, &once) == 0);
    pause_for(0.2);
    CHECK(mq_unlink(name) == 0);
    answers = open_unlinked(1);
    is_sent(letters, "letter", 0);
    receive_answer();
    CHECK(pthread_join(waits, NULL) == 0 && mq_close(letters) == 0 && mq_close(answers) == 0);
}

enum { LETTERS = 5 };

static void *send_letters(void *unused)
{
    static const char *const texts[LETTERS] = {"a", "b", "c", "d", "e"};
    for (int i = 0; i < LETTERS; i++)
        is_sent(letters, texts[i], 3);
    return unused;
}

// A thread sends while it is unlinked: nothing is lost, and the order is that of the sends.
static void queue_races(void)
{
    for (int i = 0; i < 30; i++) {
        pthread_t sends;
        struct mq_attr attributes = {.mq_maxmsg = LETTERS, .mq_msgsize = 8};
        letters = mq_open(name, O_RDWR | O_CREAT | O_EXCL, 0600, &attributes);
        CHECK(letters != -1 && pthread_create(&sends, NULL, send_letters, NULL) == 0);
        pause_for(0.00002 * i);
        CHECK(mq_unlink(name) == 0 && pthread_join(sends, NULL) == 0);
        has_flags(letters, 0, LETTERS);
        for (char text[] = "a"; *text <= 'e'; ++*text)
            comes(letters, text, 3);
        CHECK(mq_close(letters) == 0);
    }
}

static void *close_soon(void *after)
{
    pause_for(*(double *) after);
    CHECK(mq_close(letters) == 0);
    return NULL;
}

// A thread closes it while it is unlinked: the next one, which may have its number, is another.
static void queue_closes_meanwhile(void)
{
    static const char *const next = "/ipcd_unlinked_too";
    struct mq_attr attributes = {.mq_maxmsg = 5, .mq_msgsize = 8};
    for (int i = 0; i < 100; i++) {
        pthread_t closes;
        double after = 0.00002 * i;
        letters = mq_open(name, O_RDWR | O_CREAT | O_EXCL, 0600, &attributes);
        CHECK(letters != -1 && pthread_create(&closes, NULL, close_soon, &after) == 0);
        CHECK(mq_unlink(name) == 0 && pthread_join(closes, NULL) == 0);
        mqd_t writes = mq_open(next, O_WRONLY | O_CREAT | O_EXCL, 0600, &attributes);
        mqd_t reads = mq_open(next, O_RDONLY);
        CHECK(writes != -1 && reads != -1);
        is_sent(writes, "a", 1);
        comes(reads, "a", 1);
        CHECK(mq_unlink(next) == 0 && mq_close(writes) == 0 && mq_close(reads) == 0);
    }
}

static pid_t forked = -1;

static void fork_now(int number)
{
    int saved = errno;
    (void) number;
    forked = fork();
    errno = saved;
}

static void send_later(void *unused)
{
    (void) unused;
    pause_for(0.5);
    is_sent(letters, "letter", 0);
    is_sent(letters, "letter", 0);
}

// A handler forks while the thread waits: the child waits too. A server ends the call of the child, once.
static void queue_forks_in_handler(void)
{
    char text[8];
    ssize_t size;
    struct mq_attr attributes = {.mq_maxmsg = 5, .mq_msgsize = 8};
    struct sigaction action = {.sa_handler = fork_now, .sa_flags = SA_RESTART};
    struct itimerval later = {{0, 0}, {0, 100000}};
    letters = mq_open(name, O_RDWR | O_CREAT | O_EXCL, 0600, &attributes);
    CHECK(letters != -1 && sigaction(SIGALRM, &action, NULL) == 0);
    pid_t sends = start(send_later, NULL);
    CHECK(setitimer(ITIMER_REAL, &later, NULL) == 0);
    size = mq_receive(letters, text, sizeof text, NULL);
    CHECK(forked >= 0 && (size == 6 || (forked == 0 && errno == ECONNRESET)));
    // A child has no alarm of its parent's.
    CHECK(sigaction(SIGALRM, &(struct sigaction){.sa_handler = SIG_DFL}, NULL) == 0);
    alarm(60);
    if (size < 0)
        comes(letters, "letter", 0);
    if (forked == 0)
        exit(0);
    ends_well(forked);
    ends_well(sends);
    CHECK(mq_unlink(name) == 0 && mq_close(letters) == 0);
}

static atomic_int rings;
static siginfo_t last_ring;

static void ring(int number, siginfo_t *info, void *context)
{
    (void) number, (void) context;
    last_ring = *info;
    rings++;
}

static void ring_in_thread(union sigval value)
{
    rings += value.sival_int;
}

static void rings_become(int number)
{
    for (double began = now(); now() - began < 30 && rings != number;)
        pause_for(0.01);
    CHECK(rings == number);
}

// A registration is of the queue, whether it is made before that or after it.
static void queue_notifies(void)
{
    struct mq_attr attributes = {.mq_maxmsg = 5, .mq_msgsize = 8};
    struct sigaction action = {.sa_sigaction = ring, .sa_flags = SA_SIGINFO | SA_RESTART};
    struct sigevent by_signal = {.sigev_notify = SIGEV_SIGNAL, .sigev_signo = SIGUSR1, .sigev_value.sival_int = 42};
    struct sigevent by_thread = {.sigev_notify = SIGEV_THREAD, .sigev_notify_function = ring_in_thread};
    by_thread.sigev_value.sival_int = 1;
    CHECK(sigaction(SIGUSR1, &action, NULL) == 0);
    for (int i = 0; i < 4; i++) {
        const struct sigevent *event = i % 2 == 0 ? &by_signal : &by_thread;
        rings = 0;
        letters = mq_open(name, O_RDWR | O_CREAT | O_EXCL, 0600, &attributes);
        CHECK(letters != -1 && (i >= 2 || mq_notify(letters, event) == 0));
        CHECK(mq_unlink(name) == 0 && (i < 2 || mq_notify(letters, event) == 0));
        REFUSED(mq_notify(letters, event), EBUSY);
        is_sent(letters, "a", 0);
        rings_become(1);
        is_sent(letters, "b", 0);
        comes(letters, "a", 0);
        comes(letters, "b", 0);
        CHECK(mq_notify(letters, event) == 0 && mq_notify(letters, NULL) == 0);
        is_sent(letters, "c", 0);
        pause_for(0.05);
        CHECK(rings == 1 && mq_close(letters) == 0);
    }
    CHECK(last_ring.si_code == SI_MESGQ && last_ring.si_value.sival_int == 42);
    CHECK(last_ring.si_pid == getpid() && last_ring.si_uid == getuid());
}

// One more than a user may have of the kernel, if the queues are of the greatest size.
static void many_queues(void)
{
    enum { QUEUES = 12 };
    mqd_t each[QUEUES];
    for (int i = 0; i < QUEUES; i++) {
        each[i] = mq_open(name, O_RDWR | O_CREAT | O_EXCL, 0600, NULL);
        CHECK(each[i] != -1 && mq_unlink(name) == 0);
    }
    for (int i = 0; i < QUEUES; i++) {
        char text[8192];
        is_sent(each[i], "a", (unsigned) i);
        CHECK(mq_receive(each[i], text, sizeof text, NULL) == 1 && mq_close(each[i]) == 0);
    }
}

// What was unlinked goes on without a server. Whoever runs this ends it when it is asked.
static void outlives_the_server(void)
{
    sem = open_new(3);
    CHECK(sem_unlink(name) == 0);
    letters = open_unlinked(1);
    is_sent(letters, "letter", 5);
    CHECK(puts("now") >= 0 && fflush(stdout) == 0 && getchar() == 'a');
    CHECK(sem_wait(sem) == 0 && value_of(sem) == 2 && sem_close(sem) == 0);
    comes(letters, "letter", 5);
    CHECK(mq_close(letters) == 0);
}

static const struct {
    const char *word;
    void (*test)(void);
} tests[] = {
    {"counts", counts}, {"forks", forks}, {"forks_before", forks_before}, {"child_unlinks", child_unlinks},
    {"others_have_it", others_have_it}, {"waits_meanwhile", waits_meanwhile}, {"threads", threads},
    {"handlers", handlers}, {"many", many}, {"waits_in_a_thread", waits_in_a_thread},
    {"queue_threads", queue_threads}, {"queue_ends", queue_ends}, {"queue_keeps", queue_keeps},
    {"queue_forks", queue_forks}, {"queue_child_unlinks", queue_child_unlinks}, {"queue_others", queue_others},
    {"queue_waits_meanwhile", queue_waits_meanwhile}, {"queue_races", queue_races},
    {"queue_closes_meanwhile", queue_closes_meanwhile}, {"queue_forks_in_handler", queue_forks_in_handler},
    {"queue_notifies", queue_notifies}, {"many_queues", many_queues}, {"outlives_the_server", outlives_the_server},
};

int main(int count, char **words)
{
    alarm(60);
    // What a run before this has left.
    sem_unlink(name), sem_unlink("/ipcd_unlinked_too"), mq_unlink(name), mq_unlink("/ipcd_unlinked_too");
    for (size_t i = 0; count == 2 && i < sizeof tests / sizeof *tests; i++) {
        if (strcmp(tests[i].word, words[1]) != 0)
            continue;
        tests[i].test();
        return 0;
    }
    fprintf(stderr, "there is no such test\n");
    return 2;
}
