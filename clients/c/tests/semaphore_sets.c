// Semaphore sets: what semget(2), semop(2) and semctl(2) say, on the kernel's objects and on a server's.
#define _GNU_SOURCE
#include <sys/ipc.h>
#include <sys/sem.h>

#include "check.h"

union argument {
    int value;
    unsigned short *values;
    struct semid_ds *record;
    struct seminfo *info;
};

static int change(int set, unsigned short number, short by, short flags)
{
    struct sembuf operation = {number, by, flags};
    return semop(set, &operation, 1);
}

static void makes_and_finds(void)
{
    int set = semget(0x69706311, 3, IPC_CREAT | IPC_EXCL | 0600);
    CHECK(set >= 0);
    CHECK(semget(0x69706311, 0, 0) == set);
    CHECK(semget(0x69706311, 2, IPC_CREAT | 0600) == set);
    REFUSED(semget(0x69706311, 3, IPC_CREAT | IPC_EXCL | 0600), EEXIST);
    REFUSED(semget(0x69706311, 4, 0), EINVAL);
    REFUSED(semget(0x69706312, 1, 0600), ENOENT);
    REFUSED(semget(IPC_PRIVATE, 0, 0600), EINVAL);
    REFUSED(semget(IPC_PRIVATE, -1, 0600), EINVAL);
    CHECK(semctl(set, 0, IPC_RMID) == 0);
    REFUSED(semctl(set, 0, GETVAL), EINVAL);
    REFUSED(change(set, 0, 1, 0), EINVAL);
}

static void has_values(int set)
{
    unsigned short values[4] = {1, 2, 32767, 99};
    CHECK(semctl(set, 0, SETALL, (union argument){.values = values}) == 0);
    memset(values, 0, sizeof values);
    CHECK(semctl(set, 0, GETALL, (union argument){.values = values}) == 0);
    CHECK(values[0] == 1 && values[1] == 2 && values[2] == 32767 && values[3] == 0);
    CHECK(semctl(set, 1, SETVAL, (union argument){.value = 7}) == 0);
    CHECK(semctl(set, 1, GETVAL) == 7 && semctl(set, 0, GETVAL) == 1);
    CHECK(semctl(set, 1, GETPID) == getpid());
    CHECK(semctl(set, 1, GETNCNT) == 0 && semctl(set, 1, GETZCNT) == 0);
    REFUSED(semctl(set, 1, SETVAL, (union argument){.value = 32768}), ERANGE);
    REFUSED(semctl(set, 1, SETVAL, (union argument){.value = -1}), ERANGE);
    REFUSED(semctl(set, 3, GETVAL), EINVAL);
    REFUSED(semctl(set, -1, SETVAL, (union argument){.value = 1}), EINVAL);
    REFUSED(semctl(set, 0, 99), EINVAL);
    values[0] = 40000;
    REFUSED(semctl(set, 0, SETALL, (union argument){.values = values}), ERANGE);
    CHECK(semctl(set, 0, GETVAL) == 1);
}

static void performs_lists(int set)
{
    unsigned short values[3] = {1, 2, 3};
    CHECK(semctl(set, 0, SETALL, (union argument){.values = values}) == 0);
    struct sembuf list[3] = {{0, -1, 0}, {0, 0, 0}, {2, 4, 0}};
    errno = 77;
    CHECK(semop(set, list, 3) == 0);
    CHECK(errno == 77);
    CHECK(semctl(set, 0, GETVAL) == 0 && semctl(set, 2, GETVAL) == 7);
    struct sembuf fails[2] = {{1, -2, IPC_NOWAIT}, {0, -1, IPC_NOWAIT}};
    REFUSED(semop(set, fails, 2), EAGAIN);
    CHECK(semctl(set, 1, GETVAL) == 2);
    REFUSED(change(set, 2, 32767, 0), ERANGE);
    REFUSED(change(set, 3, 1, 0), EFBIG);
    REFUSED(semop(set, list, 0), EINVAL);
    REFUSED(semop(-1, list, 1), EINVAL);
    static struct sembuf many[600];
    REFUSED(semop(set, many, 600), E2BIG);
    struct timespec time = {0, 1000000000};
    REFUSED(semtimedop(set, list, 1, &time), EINVAL);
    time = (struct timespec){-1, 0};
    REFUSED(semtimedop(set, list, 1, &time), EINVAL);
    time = (struct timespec){0, 300000000};
    double began = now();
    REFUSED(semtimedop(set, fails + 1, 1, &time), EAGAIN);
    fails[1].sem_flg = 0;
    REFUSED(semtimedop(set, fails + 1, 1, &time), EAGAIN);
    CHECK(now() - began >= 0.3 && now() - began < 2);
}

static void tells_of_itself(int set)
{
    struct semid_ds record;
    memset(&record, 0xff, sizeof record);
    CHECK(semctl(set, 0, IPC_STAT, (union argument){.record = &record}) == 0);
    CHECK(record.sem_perm.uid == geteuid() && record.sem_perm.cgid == getegid() && record.sem_nsems == 3);
    CHECK((record.sem_perm.mode & 0777) == 0640 && record.sem_perm.__key == 0x69706313);
    time_t second = moment(CLOCK_REALTIME, 0).tv_sec;
    CHECK(labs((long) (record.sem_otime - second)) < 10 && labs((long) (record.sem_ctime - second)) < 10);
    record.sem_perm.mode = 0600;
    CHECK(semctl(set, 0, IPC_SET, (union argument){.record = &record}) == 0);
    CHECK(semctl(set, 0, IPC_STAT, (union argument){.record = &record}) == 0);
    CHECK((record.sem_perm.mode & 0777) == 0600);
}

static void refuses_bad_addresses(int set)
{
    REFUSED(semop(set, (struct sembuf *) 8, 1), EFAULT);
    REFUSED(semctl(set, 0, GETALL, (union argument){.values = (void *) 8}), EFAULT);
    REFUSED(semctl(set, 0, SETALL, (union argument){.values = (void *) 8}), EFAULT);
    REFUSED(semctl(set, 0, IPC_STAT, (union argument){.record = (void *) 8}), EFAULT);
    REFUSED(semctl(set, 0, IPC_SET, (union argument){.record = (void *) 8}), EFAULT);
    struct sembuf one = {0, 1, 0};
    REFUSED(semtimedop(set, &one, 1, (struct timespec *) 8), EFAULT);
}

static void lock_and_end(void *set)
{
    CHECK(change(*(int *) set, 0, -1, SEM_UNDO) == 0);
    CHECK(semctl(*(int *) set, 0, GETVAL) == 0);
}

static void lock_and_be_killed(void *set)
{
    lock_and_end(set);
    raise(SIGKILL);
}

static int value_in_time(int set, unsigned short number, int wanted)
{
    for (double began = now(); now() - began < 5 && semctl(set, number, GETVAL) != wanted;)
        pause_for(0.01);
    return semctl(set, number, GETVAL);
}

// The parent has taken one off with SEM_UNDO; what a child takes comes back at its end, the parent's does not.
static void undoes(int set)
{
    unsigned short values[3] = {1, 5, 0};
    CHECK(semctl(set, 0, SETALL, (union argument){.values = values}) == 0);
    CHECK(change(set, 1, -2, SEM_UNDO) == 0);
    ends_well(start(lock_and_end, &set));
    CHECK(value_in_time(set, 0, 1) == 1 && semctl(set, 1, GETVAL) == 3);
    pid_t child = start(lock_and_be_killed, &set);
    int status;
    CHECK(waitpid(child, &status, 0) == child && WIFSIGNALED(status));
    CHECK(value_in_time(set, 0, 1) == 1 && semctl(set, 1, GETVAL) == 3);
}

static void wait_for_it(void *set)
{
    CHECK(change(*(int *) set, 2, -1, 0) == 0);
    REFUSED(change(*(int *) set, 2, -1, 0), EIDRM);
}

static void counts_who_waits(int set)
{
    pid_t child = start(wait_for_it, &set);
    for (double began = now(); now() - began < 5 && semctl(set, 2, GETNCNT) != 1;)
        pause_for(0.01);
    CHECK(semctl(set, 2, GETNCNT) == 1 && semctl(set, 2, GETZCNT) == 0);
    CHECK(change(set, 2, 1, 0) == 0);
    CHECK(value_in_time(set, 2, 0) == 0);
    CHECK(semctl(set, 2, GETPID) == child || semctl(set, 2, GETPID) == getpid());
    for (double began = now(); now() - began < 5 && semctl(set, 2, GETNCNT) != 1;)
        pause_for(0.01);
    CHECK(semctl(set, 2, GETPID) == child);
    CHECK(semctl(set, 0, IPC_RMID) == 0);
    ends_well(child);
}

// Removes what a run before this has left.
static void clear(key_t key)
{
    int set = semget(key, 0, 0);
    if (set >= 0)
        semctl(set, 0, IPC_RMID);
}

// The limits of a server are those of docs/PROTOCOL.md, and its counts those of the sets that this process has got.
static void has_info(void)
{
    struct seminfo info, limits;
    int other = semget(IPC_PRIVATE, 5, 0600), gone = semget(IPC_PRIVATE, 1, 0600);
    CHECK(other >= 0 && gone >= 0 && semctl(gone, 0, IPC_RMID) == 0);
    memset(&info, 0xff, sizeof info);
    errno = 77;
    CHECK(semctl(0, 0, IPC_INFO, (union argument){.info = &info}) >= 0 && errno == 77);
    CHECK(info.semvmx == 32767 && info.semaem == 32767);
    if (is_on_kernel())
        CHECK(info.semmni > 0 && info.semmns > 0 && info.semmsl > 0 && info.semopm > 0);
    else
        CHECK(info.semmni == 32 && info.semmns == 512 && info.semmsl == 64 && info.semopm == 32);
    limits = info;
    memset(&info, 0xff, sizeof info);
    errno = 77;
    CHECK(semctl(12345, 0, SEM_INFO, (union argument){.info = &info}) >= 0 && errno == 77);
    CHECK(info.semmni == limits.semmni && info.semmns == limits.semmns && info.semopm == limits.semopm);
    // The kernel's are also those of others. Of this process there are two, one of three semaphores.
    if (is_on_kernel())
        CHECK(info.semusz >= 2 && info.semaem >= 8);
    else
        CHECK(info.semusz == 2 && info.semaem == 8);
    REFUSED(semctl(-1, 0, IPC_INFO, (union argument){.info = &info}), EINVAL);
    REFUSED(semctl(-1, 0, SEM_INFO, (union argument){.info = &info}), EINVAL);
    if (tries_bad_addresses()) {
        REFUSED(semctl(0, 0, IPC_INFO, (union argument){.info = (void *) 8}), EFAULT);
        REFUSED(semctl(0, 0, SEM_INFO, (union argument){.info = (void *) 8}), EFAULT);
    }
    CHECK(semctl(other, 0, IPC_RMID) == 0);
}

int main(void)
{
    alarm(60);
    clear(0x69706311), clear(0x69706313);
    makes_and_finds();
    int set = semget(0x69706313, 3, IPC_CREAT | IPC_EXCL | 0640);
    CHECK(set >= 0);
    has_values(set);
    performs_lists(set);
    tells_of_itself(set);
    has_info();
    if (tries_bad_addresses())
        refuses_bad_addresses(set);
    undoes(set);
    counts_who_waits(set);
    return 0;
}
