// The System V calls of the C library, redirected.
#define _GNU_SOURCE
#include <stdarg.h>
#include <sys/msg.h>
#include <sys/sem.h>
#include <time.h>

#include "again.h"
#include "ipcd.h"
#include "preload.h"
#include "semaphore_values.h"

int redirected_msgget(key_t key, int msgflg) IN_PLACE_OF(msgget);
int redirected_msgsnd(int msqid, const void *msgp, size_t msgsz, int msgflg) IN_PLACE_OF(msgsnd);
ssize_t redirected_msgrcv(int msqid, void *msgp, size_t msgsz, long msgtyp, int msgflg) IN_PLACE_OF(msgrcv);
int redirected_msgctl(int msqid, int cmd, struct msqid_ds *buf) IN_PLACE_OF(msgctl);
int redirected_semget(key_t key, int nsems, int semflg) IN_PLACE_OF(semget);
int redirected_semop(int semid, struct sembuf *sops, size_t nsops) IN_PLACE_OF(semop);
int redirected_semtimedop(int semid, struct sembuf *sops, size_t nsops, const struct timespec *timeout)
    IN_PLACE_OF(semtimedop);
int redirected_semctl(int semid, int semnum, int cmd, ...) IN_PLACE_OF(semctl);

// Some headers have no number for them.
#ifndef MSG_STAT_ANY
#define MSG_STAT_ANY 13
#endif
#ifndef SEM_STAT_ANY
#define SEM_STAT_ANY 20
#endif

// A program that walks the objects by their indexes sees none, and may say that there are none.
static void say_of_lists(bool is_list)
{
    static atomic_bool is_said;
    if (is_list)
        say_once(&is_said, "no call lists the objects of a server (MSG_STAT, SEM_STAT), so it sees none of them");
}

int redirected_msgget(key_t key, int msgflg)
{
    SERVED(int, ipcd_msgget(key, msgflg), -1);
}

int redirected_msgsnd(int msqid, const void *msgp, size_t msgsz, int msgflg)
{
    SERVED(int, ipcd_msgsnd(msqid, msgp, msgsz, msgflg), -1);
}

ssize_t redirected_msgrcv(int msqid, void *msgp, size_t msgsz, long msgtyp, int msgflg)
{
    SERVED(ssize_t, ipcd_msgrcv(msqid, msgp, msgsz, msgtyp, msgflg), -1);
}

int redirected_msgctl(int msqid, int cmd, struct msqid_ds *buf)
{
    say_of_lists(cmd == MSG_STAT || cmd == MSG_STAT_ANY);
    SERVED(int, ipcd_msgctl(msqid, cmd, buf), -1);
}

int redirected_semget(key_t key, int nsems, int semflg)
{
    SERVED(int, ipcd_semget(key, nsems, semflg), -1);
}

// A semop whose reply was lost is not done again, if it is known that it was done.
static int operate(int semid, struct sembuf *sops, size_t nsops, const struct timespec *timeout)
{
    struct lost_semop lost = {.pid = 0};
    SERVED(int, semtimedop_once(semid, sops, nsops, timeout, &lost), -1);
}

int redirected_semop(int semid, struct sembuf *sops, size_t nsops)
{
    return operate(semid, sops, nsops, NULL);
}

int redirected_semtimedop(int semid, struct sembuf *sops, size_t nsops, const struct timespec *timeout)
{
    return operate(semid, sops, nsops, timeout);
}

int redirected_semctl(int semid, int semnum, int cmd, ...)
{
    va_list rest;
    va_start(rest, cmd);
    void *argument = va_arg(rest, void *);
    va_end(rest);
    say_of_lists(cmd == SEM_STAT || cmd == SEM_STAT_ANY);
    SERVED(int, ipcd_semctl(semid, semnum, cmd, argument), -1);
}
