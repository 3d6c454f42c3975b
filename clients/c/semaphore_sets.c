// Semaphore sets: semget(2), semop(2), semctl(2).
#define _GNU_SOURCE
#include <errno.h>
#include <limits.h>
#include <stdarg.h>
#include <string.h>
#include <sys/ipc.h>
#include <sys/sem.h>

#include "client.h"
#include "info.h"
#include "memory.h"
#include "processes.h"
#include "semaphore_values.h"

enum { RECORD = 44, OPERATION = 6, OPERATIONS_MOST = 500, VALUES_MOST = BODY_MOST / 2 };

int ipcd_semget(key_t key, int nsems, int semflg)
{
    struct ipcd *client = current_client();
    struct link *link = begin(SEMGET);
    if (link == NULL)
        return -1;
    put_u32(link, (uint32_t) key);
    put_u32(link, (uint32_t) nsems);
    put_u32(link, (uint32_t) semflg);
    return noted(client, SETS, end_number(link));
}

// What was done, as the request has it: a value that was added to is not below what was added.
static void note_operations(struct link *link, uint32_t semid, size_t nsops)
{
    const unsigned char *at = link->request + REQUEST_HEAD + 12;
    for (size_t i = 0; i < nsops; i++, at += OPERATION) {
        int16_t added = (int16_t) read_u16(at + 2);
        note_value(&link->known, semid, read_u16(at), added > 0 ? (uint16_t) added : 0);
    }
}

// A call begins whose field beside the set is the number of a semaphore.
static struct link *begin_on_one(enum opcode opcode, int semid, int semnum)
{
    struct link *link = begin(opcode);
    if (link == NULL)
        return NULL;
    put_u32(link, (uint32_t) semid);
    put_u32(link, (uint32_t) semnum);
    return link;
}

// Such a call, whose answer is a number.
static int number_of(enum opcode opcode, int semid, int semnum)
{
    struct link *link = begin_on_one(opcode, semid, semnum);
    return link == NULL ? -1 : end_number(link);
}

// Whether a lost semop is known to have been done: 1 or 0; or -1, if there is no server. If its process has changed a
// semaphore last, the value has stayed since: and if that is less than what the process has left there before, or it
// has left nothing, the lost semop has changed it.
static int was_done(int semid, const struct sembuf *sops, size_t nsops, const struct lost_semop *lost)
{
    for (size_t i = 0; i < nsops; i++) {
        int value = number_of(SEM_GETVAL, semid, sops[i].sem_num);
        int pid = value < 0 ? -1 : number_of(SEM_GETPID, semid, sops[i].sem_num);
        if (pid < 0)
            return errno == ECONNRESET || errno == ECONNREFUSED ? -1 : 0;
        uint32_t least = least_value(&lost->known, (uint32_t) semid, sops[i].sem_num);
        if ((uint32_t) pid == lost->pid && (uint32_t) value < least)
            return 1;
    }
    return 0;
}

static int operate(int semid, const struct sembuf *sops, size_t nsops, uint64_t limit, struct lost_semop *lost)
{
    struct link *link = begin(SEMOP);
    if (link == NULL)
        return -1;
    put_u32(link, (uint32_t) semid);
    put_u64(link, limit);
    enum waiting waiting = ANSWERED_AT_ONCE;
    for (size_t i = 0; i < nsops; i++) {
        put_u16(link, sops[i].sem_num);
        put_u16(link, (uint16_t) sops[i].sem_op);
        put_u16(link, (uint16_t) sops[i].sem_flg);
        link->has_undone = link->has_undone || (sops[i].sem_flg & SEM_UNDO);
        if (sops[i].sem_op <= 0 && !(sops[i].sem_flg & IPC_NOWAIT))
            waiting = ENDED_BY_HANDLERS;
    }
    ssize_t done = link_exchange(link, waiting, 0, 0);
    if (done == 0)
        note_operations(link, (uint32_t) semid, nsops);
    else if (errno == ECONNRESET && lost != NULL)
        *lost = (struct lost_semop){link->pids_come_again ? 0 : link->pid, link->known};
    return (int) end(link, done);
}

int semtimedop_once(
    int semid, struct sembuf *sops, size_t nsops, const struct timespec *timeout, struct lost_semop *lost)
{
    uint64_t limit;
    int refusal = milliseconds(timeout, &limit);
    if (refusal == 0 && nsops > OPERATIONS_MOST)
        refusal = E2BIG;
    if (refusal == 0 && !is_readable(sops, nsops * sizeof *sops))
        refusal = EFAULT;
    if (refusal != 0) {
        errno = refusal;
        return -1;
    }
    // The server counts from the begin of the millisecond in which it reads the request: of that a part is over.
    if (limit > 0 && limit < NO_TIME - 1)
        limit++;
    if (lost != NULL && lost->pid != 0) {
        int done = was_done(semid, sops, nsops, lost);
        if (done != 0)
            return done < 0 ? -1 : 0;
        lost->pid = 0;
    }
    return operate(semid, sops, nsops, limit, lost);
}

int ipcd_semtimedop(int semid, struct sembuf *sops, size_t nsops, const struct timespec *timeout)
{
    return semtimedop_once(semid, sops, nsops, timeout, NULL);
}

int ipcd_semop(int semid, struct sembuf *sops, size_t nsops)
{
    return ipcd_semtimedop(semid, sops, nsops, NULL);
}

static int last_process(int semid, int semnum)
{
    int cancellation = hold_cancellation(), pid = -1;
    struct link *link = begin_on_one(SEM_GETPID, semid, semnum);
    if (link != NULL) {
        const char *socket = link->client->path;
        struct life life = link->life;
        pid = end_number(link);
        if (pid >= 0)
            pid = system_pid(socket, &life, (uint32_t) pid);
    }
    allow_cancellation(cancellation);
    return pid;
}

static int set_value(int semid, int semnum, int value)
{
    struct link *link = begin(SEM_SETVAL);
    if (link == NULL)
        return -1;
    put_u32(link, (uint32_t) semid);
    put_u32(link, (uint32_t) semnum);
    put_u32(link, (uint32_t) value);
    ssize_t done = link_exchange(link, ANSWERED_AT_ONCE, 0, 0);
    if (done == 0)
        note_value(&link->known, (uint32_t) semid, (uint16_t) semnum, (uint16_t) value);
    return (int) end(link, done);
}

static int stat_set(int semid, struct semid_ds *record)
{
    struct link *link = begin(SEM_IPC_STAT);
    if (link == NULL)
        return -1;
    put_u32(link, (uint32_t) semid);
    if (link_exchange(link, ANSWERED_AT_ONCE, RECORD, RECORD) < 0)
        return (int) end(link, -1);
    if (!is_writable(record, sizeof *record)) {
        errno = EFAULT;
        return (int) end(link, -1);
    }
    const unsigned char *body = link->body;
    memset(record, 0, sizeof *record);
    record->sem_perm.__key = (key_t) read_u32(body);
    record->sem_perm.uid = read_u32(body + 4);
    record->sem_perm.gid = read_u32(body + 8);
    record->sem_perm.cuid = read_u32(body + 12);
    record->sem_perm.cgid = read_u32(body + 16);
    record->sem_perm.mode = (mode_t) read_u32(body + 20);
    record->sem_otime = (time_t) (read_u64(body + 24) / 1000);
    record->sem_ctime = (time_t) (read_u64(body + 32) / 1000);
    record->sem_nsems = read_u32(body + 40);
    return (int) end(link, 0);
}

// The caller's array says nowhere how long it is, so the set is asked how many values there are.
static int get_all(int semid, unsigned short *array)
{
    struct semid_ds record;
    if (stat_set(semid, &record) < 0)
        return -1;
    size_t bytes = 2 * record.sem_nsems;
    struct link *link = begin(SEM_GETALL);
    if (link == NULL)
        return -1;
    put_u32(link, (uint32_t) semid);
    ssize_t size = link_exchange(link, ANSWERED_AT_ONCE, bytes, bytes);
    if (size > 0 && !is_writable(array, (size_t) size)) {
        errno = EFAULT;
        size = -1;
    }
    for (ssize_t i = 0; i < size / 2; i++)
        array[i] = read_u16(link->body + 2 * i);
    return (int) end(link, size < 0 ? -1 : 0);
}

// Here too, and so it needs the permission to read.
static int set_all(int semid, const unsigned short *array)
{
    struct semid_ds record;
    if (stat_set(semid, &record) < 0)
        return -1;
    if (record.sem_nsems > VALUES_MOST || !is_readable(array, 2 * record.sem_nsems)) {
        errno = record.sem_nsems > VALUES_MOST ? EPROTO : EFAULT;
        return -1;
    }
    struct link *link = begin(SEM_SETALL);
    if (link == NULL)
        return -1;
    put_u32(link, (uint32_t) semid);
    for (size_t i = 0; i < record.sem_nsems; i++)
        put_u16(link, array[i]);
    ssize_t done = link_exchange(link, ANSWERED_AT_ONCE, 0, 0);
    for (size_t i = 0; done == 0 && i < record.sem_nsems; i++) {
        uint16_t value = read_u16(link->request + REQUEST_HEAD + 4 + 2 * i);
        note_value(&link->known, (uint32_t) semid, (uint16_t) i, value);
    }
    return (int) end(link, done);
}

static int set_set(int semid, const struct semid_ds *record)
{
    if (!is_readable(record, sizeof *record)) {
        errno = EFAULT;
        return -1;
    }
    struct link *link = begin(SEM_IPC_SET);
    if (link == NULL)
        return -1;
    put_u32(link, (uint32_t) semid);
    put_u32(link, record->sem_perm.uid);
    put_u32(link, record->sem_perm.gid);
    put_u32(link, record->sem_perm.mode);
    return end_empty(link, ANSWERED_AT_ONCE);
}

static int remove_set(int semid)
{
    struct link *link = begin(SEM_IPC_RMID);
    if (link == NULL)
        return -1;
    put_u32(link, (uint32_t) semid);
    return end_empty(link, ANSWERED_AT_ONCE);
}

static int add_set(int semid, void *counts)
{
    struct seminfo *info = counts;
    struct semid_ds record;
    if (stat_set(semid, &record) < 0)
        return -1;
    info->semaem += (int) record.sem_nsems;
    return 0;
}

// The answer is 0: the greatest index of an object, of which SEM_STAT shows none.
static int tell_info(int semid, int cmd, struct seminfo *buf)
{
    struct seminfo info = {.semmap = SEMMNS, .semmni = SEMMNI, .semmns = SEMMNS, .semmnu = PROCESSES, .semmsl = SEMMSL,
                           .semopm = SEMOPM, .semume = SEMMNS, .semvmx = SEMVMX};
    if (ask_for_info(semid, buf, sizeof *buf) < 0)
        return -1;
    if (cmd == IPC_INFO) {
        info.semusz = sizeof(short);
        info.semaem = SEMVMX;
    } else if (count_each(current_client(), SETS, add_set, &info, &info.semusz) < 0)
        return -1;
    *buf = info;
    return 0;
}

int ipcd_semctl(int semid, int semnum, int cmd, ...)
{
    union { int value; void *address; } argument;
    va_list rest;
    va_start(rest, cmd);
    argument.address = va_arg(rest, void *);
    va_end(rest);
    switch (cmd) {
    case GETVAL: return number_of(SEM_GETVAL, semid, semnum);
    case GETPID: return last_process(semid, semnum);
    case GETNCNT: return number_of(SEM_GETNCNT, semid, semnum);
    case GETZCNT: return number_of(SEM_GETZCNT, semid, semnum);
    case SETVAL: return set_value(semid, semnum, argument.value);
    case GETALL: return get_all(semid, argument.address);
    case SETALL: return set_all(semid, argument.address);
    case IPC_STAT: return stat_set(semid, argument.address);
    case IPC_SET: return set_set(semid, argument.address);
    case IPC_RMID: return remove_set(semid);
    case IPC_INFO:
    case SEM_INFO: return tell_info(semid, cmd, argument.address);
    default: errno = EINVAL; return -1;
    }
}
