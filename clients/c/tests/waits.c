// What ipcd-run's options give a program: calls that wait for a server, and what is said or refused of shared memory. The
// word says which test. It prints a line when somebody else has to do something.
#define _GNU_SOURCE
#include <fcntl.h>
#include <mqueue.h>
#include <semaphore.h>
#include <sys/ipc.h>
#include <sys/mman.h>
#include <sys/msg.h>
#include <sys/sem.h>
#include <sys/shm.h>
#include <sys/stat.h>

#include "check.h"

struct message {
    long type;
    char text[8];
};

static void say(const char *line)
{
    CHECK(puts(line) >= 0 && fflush(stdout) == 0);
}

static void wait_for_a_line(void)
{
    CHECK(getchar() == '\n');
}

// There is no server yet.
static void begins_before(void)
{
    struct message message = {1, "early"};
    errno = ERANGE;
    int queue = msgget(7, IPC_CREAT | 0600);
    CHECK(queue >= 0 && errno == ERANGE);
    CHECK(msgsnd(queue, &message, sizeof message.text, 0) == 0);
}

// The server ends while calls wait, and while what is open is idle. They go on with the next one.
static void goes_on(void)
{
    struct message message;
    int queue = msgget(8, IPC_CREAT | 0600);
    mqd_t letters = mq_open("/ipcd_waits", O_RDWR | O_CREAT, 0600, NULL);
    sem_t *ready = sem_open("/ipcd_waits", O_CREAT, 0600, 1);
    CHECK(queue >= 0 && letters != -1 && ready != SEM_FAILED);
    say("kill it while I wait");
    CHECK(msgrcv(queue, &message, sizeof message.text, 0, 0) == 5 && memcmp(message.text, "again", 5) == 0);
    say("kill it now");
    wait_for_a_line();
    CHECK(mq_send(letters, "letter", 6, 0) == 0 && sem_wait(ready) == 0);
    say("kill it now");
    wait_for_a_line();
    CHECK(mq_close(letters) == 0 && sem_close(ready) == 0);
    CHECK(mq_unlink("/ipcd_waits") == 0 && sem_unlink("/ipcd_waits") == 0);
}

// What was locked with SEM_UNDO is locked no more: the program hears so, once.
static void hears_of_a_lost_lock(void)
{
    struct sembuf down = {0, -1, SEM_UNDO};
    int set = semget(9, 1, IPC_CREAT | 0600);
    CHECK(set >= 0 && semctl(set, 0, SETVAL, 1) == 0 && semop(set, &down, 1) == 0);
    say("kill it now");
    wait_for_a_line();
    REFUSED(semctl(set, 0, GETVAL), ECONNRESET);
    CHECK(semctl(set, 0, GETVAL) == 1);
}

// A semop that takes one from a semaphore, and one that adds it again: what is there after each.
static void take_one(int set, int left)
{
    struct sembuf down = {1, -1, 0};
    errno = ERANGE;
    CHECK(semop(set, &down, 1) == 0 && errno == ERANGE && semctl(set, 1, GETVAL) == left);
}

static void add_one(int set, int left)
{
    struct sembuf up = {1, 1, 0};
    CHECK(semop(set, &up, 1) == 0 && semctl(set, 1, GETVAL) == left);
}

// Whether this process has set the value, has added to it or has taken from it before, or nothing over the connection
// that is lost then.
static void takes_once(void)
{
    int set = semget(IPC_PRIVATE, 2, 0600);
    CHECK(set >= 0 && semctl(set, 1, SETVAL, 1) == 0);
    for (int i = 0; i < 5; i++) {
        take_one(set, 0);
        add_one(set, 1);
    }
    CHECK(semctl(set, 1, SETVAL, 2) == 0);
    take_one(set, 1);
    take_one(set, 0);
    CHECK(semctl(set, 0, SETALL, (unsigned short[]){0, 1}) == 0);
    take_one(set, 0);
    CHECK(semctl(set, 0, IPC_RMID) == 0);
}

// It has changed more semaphores than the library keeps in mind. What is not done is made again.
static void takes_one_of_many(void)
{
    enum { MANY = 64 };
    unsigned short values[MANY] = {0};
    int many = semget(IPC_PRIVATE, MANY, 0600), set = semget(IPC_PRIVATE, 2, 0600);
    CHECK(many >= 0 && set >= 0 && semctl(many, 0, SETALL, values) == 0 && semctl(set, 1, SETVAL, 3) == 0);
    for (int left = 2; left >= 0; left--)
        take_one(set, left);
    CHECK(semctl(many, 0, IPC_RMID) == 0 && semctl(set, 0, IPC_RMID) == 0);
}

// It has released a semaphore that another process has taken then. While it waits for it the server ends.
static void waits_for_its_turn(void)
{
    int set = semget(77, 1, IPC_CREAT | 0600);
    struct sembuf down = {0, -1, 0}, up = {0, 1, 0};
    CHECK(set >= 0 && semctl(set, 0, SETVAL, 0) == 0 && semop(set, &up, 1) == 0);
    say("take it");
    wait_for_a_line();
    CHECK(semop(set, &down, 1) == 0);
    say("taken");
    wait_for_a_line();
}

// Nobody comes.
static void gives_up(void)
{
    double began = now();
    REFUSED(msgget(7, 0), ECONNREFUSED);
    CHECK(now() - began >= 0.4);
}

static void uses_memory(bool is_let)
{
    for (int i = 0; i < 2; i++) {
        int file = shm_open("/ipcd_waits", O_RDWR | O_CREAT, 0600);
        int segment = shmget(IPC_PRIVATE, 100, 0600);
        if (!is_let) {
            CHECK(file == -1 && segment == -1);
            REFUSED(shm_open("/ipcd_waits", O_RDWR | O_CREAT, 0600), ENOSYS);
            REFUSED(shmget(IPC_PRIVATE, 100, 0600), ENOSYS);
            REFUSED(shmat(0, NULL, 0), ENOSYS);
            continue;
        }
        CHECK(file >= 0 && segment >= 0);
        void *place = shmat(segment, NULL, 0);
        CHECK(place != (void *) -1 && shmdt(place) == 0);
        CHECK(shmctl(segment, IPC_RMID, NULL) == 0 && shm_unlink("/ipcd_waits") == 0 && close(file) == 0);
    }
}

// Its standard error is another file by now, in which only its own lines may stand.
static void has_other_errors(void)
{
    CHECK(close(2) == 0 && open("own", O_WRONLY | O_CREAT | O_TRUNC, 0600) == 2);
    uses_memory(true);
    CHECK(write(2, "own\n", 4) == 4);
}

// No call of a server lists its objects.
static void asks_for_lists(void)
{
    struct msqid_ds queue;
    struct semid_ds set;
    for (int i = 0; i < 2; i++) {
        REFUSED(msgctl(i, MSG_STAT, &queue), EINVAL);
        REFUSED(semctl(i, 0, SEM_STAT, &set), EINVAL);
    }
}

int main(int count, char **words)
{
    const char *word = count > 1 ? words[1] : "";
    alarm(60);
    if (strcmp(word, "begins_before") == 0)
        begins_before();
    else if (strcmp(word, "goes_on") == 0)
        goes_on();
    else if (strcmp(word, "lost_lock") == 0)
        hears_of_a_lost_lock();
    else if (strcmp(word, "takes_once") == 0)
        takes_once();
    else if (strcmp(word, "takes_one_of_many") == 0)
        takes_one_of_many();
    else if (strcmp(word, "its_turn") == 0)
        waits_for_its_turn();
    else if (strcmp(word, "gives_up") == 0)
        gives_up();
    else if (strcmp(word, "memory") == 0)
        uses_memory(true);
    else if (strcmp(word, "strict") == 0)
        uses_memory(false);
    else if (strcmp(word, "lists") == 0)
        asks_for_lists();
    else if (strcmp(word, "other_errors") == 0)
        has_other_errors();
    else
        return 2;
    return 0;
}
