// Threads that use the same handles, handles of their own, and connections of their own at once. It is of the library's
// own names, and for ThreadSanitizer: what one thread reads while another writes it is reported there.
#define _GNU_SOURCE
#include <fcntl.h>
#include <pthread.h>

#include "check.h"

enum { THREADS = 6, ROUNDS = 30 };

static pthread_barrier_t begun;
static int queue;

struct message {
    long type;
    int number;
};

// All have one handle, which the last of those who have it open closes.
static void use_the_same(void)
{
    int value;
    sem_t *sem = sem_open("/ipcd_races", O_CREAT, 0600, 1);
    CHECK(sem != SEM_FAILED);
    CHECK(sem_post(sem) == 0);
    CHECK(sem_getvalue(sem, &value) == 0 && value >= 1);
    CHECK(sem_wait(sem) == 0 && sem_close(sem) == 0);
}

static void use_its_own(int number)
{
    char name[32], text[8];
    struct mq_attr attributes = {.mq_maxmsg = 1, .mq_msgsize = 8}, found;
    snprintf(name, sizeof name, "/ipcd_races_%d", number);
    mqd_t letters = mq_open(name, O_RDWR | O_CREAT, 0600, &attributes);
    CHECK(letters != -1);
    CHECK(mq_setattr(letters, &(struct mq_attr){.mq_flags = O_NONBLOCK}, NULL) == 0);
    CHECK(mq_notify(letters, &(struct sigevent){.sigev_notify = SIGEV_NONE}) == 0);
    CHECK(mq_send(letters, "letter", 6, 1) == 0);
    REFUSED(mq_send(letters, "letter", 6, 1), EAGAIN);
    CHECK(mq_receive(letters, text, sizeof text, NULL) == 6);
    CHECK(mq_getattr(letters, &found) == 0 && found.mq_flags == O_NONBLOCK && found.mq_curmsgs == 0);
    CHECK(mq_close(letters) == 0);
}

static void use_a_connection_of_its_own(int number)
{
    struct message message = {100 + number, number};
    struct ipcd *connection = ipcd_connect(NULL);
    CHECK(connection != NULL && ipcd_use(connection) == NULL);
    CHECK(msgsnd(queue, &message, sizeof message.number, 0) == 0);
    CHECK(msgrcv(queue, &message, sizeof message.number, message.type, 0) == 4 && message.number == number);
    use_the_same();
    CHECK(ipcd_use(NULL) == connection);
    ipcd_disconnect(connection);
}

static void *call(void *place)
{
    int number = *(int *) place;
    // The first calls of the process come at once.
    pthread_barrier_wait(&begun);
    for (int i = 0; i < ROUNDS; i++) {
        use_the_same();
        if (number % 3 == 0)
            use_its_own(number);
        else if (number % 3 == 1)
            use_a_connection_of_its_own(number);
    }
    return NULL;
}

// Its link is busy as long as the others call.
static void *wait_for_the_end(void *unused)
{
    struct message message;
    CHECK(msgrcv(queue, &message, sizeof message.number, 7, 0) == 4);
    return unused;
}

int main(void)
{
    pthread_t them[THREADS], waits;
    int numbers[THREADS];
    alarm(90);
    // A child makes the queue, so that the first call here is one of the threads'.
    int ends[2];
    CHECK(pipe(ends) == 0);
    pid_t child = fork();
    CHECK(child >= 0);
    if (child == 0) {
        queue = msgget(IPC_PRIVATE, 0600);
        CHECK(write(ends[1], &queue, sizeof queue) == sizeof queue);
        _exit(0);
    }
    ends_well(child);
    CHECK(read(ends[0], &queue, sizeof queue) == sizeof queue && queue >= 0);
    CHECK(pthread_barrier_init(&begun, NULL, THREADS) == 0);
    for (int i = 0; i < THREADS; i++) {
        numbers[i] = i;
        CHECK(pthread_create(&them[i], NULL, call, &numbers[i]) == 0);
    }
    CHECK(pthread_create(&waits, NULL, wait_for_the_end, NULL) == 0);
    for (int i = 0; i < THREADS; i++)
        CHECK(pthread_join(them[i], NULL) == 0);
    struct message message = {7, 0};
    CHECK(msgsnd(queue, &message, sizeof message.number, 0) == 0);
    CHECK(pthread_join(waits, NULL) == 0);
    CHECK(msgctl(queue, IPC_RMID, NULL) == 0 && sem_unlink("/ipcd_races") == 0);
    return 0;
}
