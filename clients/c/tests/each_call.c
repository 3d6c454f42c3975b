// One call of the library, named by the first word, over a server that says anything: whether it answered an error,
// and that another call after it is made over another connection. It prints the error's number, or 0. If the second
// word is `interrupted`, a handler runs while the call waits.
#define _GNU_SOURCE
#include <fcntl.h>
#include <sys/ipc.h>
#include <sys/msg.h>
#include <sys/sem.h>
#include <sys/shm.h>
#include <sys/stat.h>
#include <sys/time.h>

#include "../ipcd.h"
#include "check.h"

static struct { long type; char text[8192]; } message = {.type = 1};
static struct msqid_ds queue_record;
static struct semid_ds set_record;
static struct shmid_ds segment_record;
static struct mq_attr attributes;
static struct stat status;
static struct sembuf operation = {0, -1, 0};
static struct timespec second = {1, 0};
static unsigned short values[64];
static struct sigevent silent = {.sigev_notify = SIGEV_NONE};
static mqd_t letters;
static sem_t *sem;
static int segment, attachment;

static long open_queue(void) { return ipcd_mq_open("/other", O_RDWR); }
static long open_sem(void) { return ipcd_sem_open("/other", 0) == SEM_FAILED ? -1 : 0; }
static long get_value(void) { int value; return ipcd_sem_getvalue(sem, &value); }

static long timed_wait(void)
{
    struct timespec soon = moment(CLOCK_REALTIME, 1);
    return ipcd_sem_timedwait(sem, &soon);
}

static long clock_wait(void)
{
    struct timespec soon = moment(CLOCK_MONOTONIC, 1);
    return ipcd_sem_clockwait(sem, CLOCK_MONOTONIC, &soon);
}

static long timed_send(void)
{
    struct timespec soon = moment(CLOCK_REALTIME, 1);
    return ipcd_mq_timedsend(letters, "text", 4, 1, &soon);
}

static long timed_receive(void)
{
    struct timespec soon = moment(CLOCK_REALTIME, 1);
    return ipcd_mq_timedreceive(letters, message.text, 8192, NULL, &soon);
}

static const char *wanted;

#define CALL(name, expression) \
    if (strcmp(wanted, name) == 0) { errno = 0; return expression; }

static long system_v(void)
{
    CALL("hello", ipcd_msgget(1, 0))
    CALL("msgget", ipcd_msgget(1, 0))
    CALL("msgsnd", ipcd_msgsnd(1, &message, 5, 0))
    CALL("msgrcv", ipcd_msgrcv(1, &message, 8192, 0, 0))
    CALL("msgctl_stat", ipcd_msgctl(1, IPC_STAT, &queue_record))
    CALL("msgctl_set", ipcd_msgctl(1, IPC_SET, &queue_record))
    CALL("msgctl_rmid", ipcd_msgctl(1, IPC_RMID, NULL))
    CALL("semget", ipcd_semget(1, 1, 0))
    CALL("semop", ipcd_semop(1, &operation, 1))
    CALL("semtimedop", ipcd_semtimedop(1, &operation, 1, &second))
    CALL("getval", ipcd_semctl(1, 0, GETVAL))
    CALL("getpid", ipcd_semctl(1, 0, GETPID))
    CALL("getncnt", ipcd_semctl(1, 0, GETNCNT))
    CALL("getzcnt", ipcd_semctl(1, 0, GETZCNT))
    CALL("setval", ipcd_semctl(1, 0, SETVAL, 1))
    CALL("getall", ipcd_semctl(1, 0, GETALL, values))
    CALL("setall", ipcd_semctl(1, 0, SETALL, values))
    CALL("semctl_stat", ipcd_semctl(1, 0, IPC_STAT, &set_record))
    CALL("semctl_set", ipcd_semctl(1, 0, IPC_SET, &set_record))
    CALL("semctl_rmid", ipcd_semctl(1, 0, IPC_RMID))
    CALL("shmget", ipcd_shmget(1, 1, 0))
    CALL("shmctl_stat", ipcd_shmctl(1, IPC_STAT, &segment_record))
    CALL("shmctl_set", ipcd_shmctl(1, IPC_SET, &segment_record))
    CALL("shmctl_rmid", ipcd_shmctl(1, IPC_RMID, NULL))
    CALL("shmattach", ipcd_shmattach(2, 0))
    CALL("shmat", ipcd_shmat(2, NULL, 0) == (void *) -1 ? -1 : 0)
    CALL("shmdetach", ipcd_shmdetach(attachment))
    CALL("shmread", ipcd_shmread(attachment, message.text, 8, 0))
    CALL("shmwrite", ipcd_shmwrite(attachment, "text", 4, 0))
    return -2;
}

static long posix(void)
{
    CALL("mq_open", open_queue())
    CALL("mq_unlink", ipcd_mq_unlink("/q"))
    CALL("mq_send", ipcd_mq_send(letters, "text", 4, 1))
    CALL("mq_receive", ipcd_mq_receive(letters, message.text, 8192, NULL))
    CALL("mq_timedsend", timed_send())
    CALL("mq_timedreceive", timed_receive())
    CALL("mq_getattr", ipcd_mq_getattr(letters, &attributes))
    CALL("mq_setattr", ipcd_mq_setattr(letters, &attributes, NULL))
    CALL("mq_notify", ipcd_mq_notify(letters, &silent))
    CALL("mq_close", ipcd_mq_close(letters))
    CALL("sem_open", open_sem())
    CALL("sem_unlink", ipcd_sem_unlink("/s"))
    CALL("sem_wait", ipcd_sem_wait(sem))
    CALL("sem_timedwait", timed_wait())
    CALL("sem_clockwait", clock_wait())
    CALL("sem_trywait", ipcd_sem_trywait(sem))
    CALL("sem_post", ipcd_sem_post(sem))
    CALL("sem_getvalue", get_value())
    CALL("sem_close", ipcd_sem_close(sem))
    CALL("shm_open", ipcd_shm_open("/other", O_RDWR, 0))
    CALL("shm_unlink", ipcd_shm_unlink("/m"))
    CALL("ftruncate", ipcd_ftruncate(segment, 10))
    CALL("pread", ipcd_pread(segment, message.text, 8, 0))
    CALL("pwrite", ipcd_pwrite(segment, "text", 4, 0))
    CALL("fstat", ipcd_fstat(segment, &status))
    CALL("close", ipcd_close(segment))
    return -2;
}

static void open_all(void)
{
    letters = ipcd_mq_open("/q", O_RDWR);
    sem = ipcd_sem_open("/s", 0);
    segment = ipcd_shm_open("/m", O_RDWR, 0);
    attachment = ipcd_shmattach(1, SHM_RDONLY);
    CHECK(letters != -1 && sem != SEM_FAILED && segment != -1 && attachment != -1);
}

static void handle(int number)
{
    (void) number;
}

static void ring_in_the_call(void)
{
    struct sigaction action = {.sa_handler = handle};
    struct itimerval again = {{0, 50000}, {0, 50000}};
    CHECK(sigaction(SIGALRM, &action, NULL) == 0 && setitimer(ITIMER_REAL, &again, NULL) == 0);
}

int main(int count, char **words)
{
    CHECK(count == 3);
    wanted = words[1];
    if (strcmp(wanted, "hello") != 0)
        open_all();
    if (strcmp(words[2], "interrupted") == 0)
        ring_in_the_call();
    else
        alarm(20);
    long result = system_v();
    if (result == -2)
        result = posix();
    CHECK(result != -2);
    printf("%d\n", result == -1 ? errno : 0);
    // The next is answered, by the connection that is made then.
    CHECK(ipcd_msgget(0x69706341, 0) == 41);
    return 0;
}
