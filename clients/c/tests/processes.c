// Processes and threads: forks, users, descriptors, and what a process is to a server. The word says which test.
#define _GNU_SOURCE
#include <fcntl.h>
#include <grp.h>
#include <mqueue.h>
#include <pthread.h>
#include <semaphore.h>
#include <spawn.h>
#include <stdatomic.h>
#include <sys/ipc.h>
#include <sys/msg.h>
#include <sys/resource.h>
#include <sys/sem.h>
#include <sys/stat.h>
#include <sys/syscall.h>
#include <dirent.h>

#include "check.h"

extern char **environ;

enum { CROWD = 60, LIMIT = 64, THREADS = 100 };

struct message {
    long type;
    int number;
};

static int queue, set;

static int change(unsigned short number, short by, short flags)
{
    struct sembuf operation = {number, by, flags};
    return semop(set, &operation, 1);
}

static void make_objects(void)
{
    queue = msgget(IPC_PRIVATE, 0666);
    set = semget(IPC_PRIVATE, 3, 0666);
    CHECK(queue >= 0 && set >= 0);
}

static void remove_objects(void)
{
    CHECK(msgctl(queue, IPC_RMID, NULL) == 0 && semctl(set, 0, IPC_RMID) == 0);
}

static mqd_t letters;
static sem_t *turn;

static void answer(void *unused)
{
    (void) unused;
    char text[8];
    CHECK(mq_receive(letters, text, sizeof text, NULL) == 3);
    CHECK(mq_send(letters, "child", 5, 0) == 0);
    CHECK(sem_post(turn) == 0);
    CHECK(mq_close(letters) == 0 && sem_close(turn) == 0);
}

static void run_true(void)
{
    char *words[] = {"true", NULL};
    pid_t child = vfork();
    if (child == 0) {
        execv("/bin/true", words);
        _exit(1);
    }
    ends_well(child);
    CHECK(posix_spawnp(&child, "true", NULL, NULL, words, environ) == 0);
    ends_well(child);
    CHECK(system("exit 0") == 0);
}

static int sockets_open(void)
{
    int count = 0;
    char path[300], text[16] = "";
    DIR *folder = opendir("/proc/self/fd");
    CHECK(folder != NULL);
    for (struct dirent *entry; (entry = readdir(folder)) != NULL;) {
        snprintf(path, sizeof path, "/proc/self/fd/%s", entry->d_name);
        count += readlink(path, text, sizeof text) > 7 && memcmp(text, "socket:", 7) == 0;
    }
    closedir(folder);
    return count;
}

// A child by a call of the system alone is another process all the same, and has left its parent's socket.
static void is_another(pid_t (*fork_by)(void))
{
    struct message message = {1, 1};
    struct msqid_ds record;
    CHECK(msgsnd(queue, &message, 4, 0) == 0);
    int before = sockets_open();
    pid_t child = fork_by();
    CHECK(child >= 0);
    if (child == 0) {
        CHECK(msgsnd(queue, &message, 4, 0) == 0);
        CHECK(msgctl(queue, IPC_STAT, &record) == 0 && record.msg_lspid == getpid());
        CHECK(sockets_open() == before);
        _exit(0);
    }
    ends_well(child);
    CHECK(msgsnd(queue, &message, 4, 0) == 0 && sockets_open() == before);
    CHECK(msgctl(queue, IPC_STAT, &record) == 0 && record.msg_lspid == getpid() && record.msg_qnum == 3);
    for (int i = 0; i < 3; i++)
        CHECK(msgrcv(queue, &message, 4, 0, IPC_NOWAIT) == 4);
}

static pid_t fork_by_clone(void)
{
    return (pid_t) syscall(SYS_clone, SIGCHLD, NULL, NULL, NULL, 0);
}

// A child has what is open, and what it has to undo is its own.
static void forks(void)
{
    is_another(fork);
    is_another(_Fork);
    is_another(fork_by_clone);
    struct mq_attr attributes = {.mq_maxmsg = 3, .mq_msgsize = 8};
    mq_unlink("/ipcd_letters"), sem_unlink("/ipcd_turn");
    letters = mq_open("/ipcd_letters", O_RDWR | O_CREAT, 0600, &attributes);
    turn = sem_open("/ipcd_turn", O_CREAT, 0600, 0);
    CHECK(letters != -1 && turn != SEM_FAILED);
    CHECK(change(0, 5, SEM_UNDO) == 0);
    for (int i = 0; i < 5; i++) {
        CHECK(mq_send(letters, "you", 3, 9) == 0);
        pid_t child = start(answer, NULL);
        CHECK(sem_wait(turn) == 0);
        char text[8];
        CHECK(mq_receive(letters, text, sizeof text, NULL) == 5 && memcmp(text, "child", 5) == 0);
        run_true();
        ends_well(child);
    }
    CHECK(semctl(set, 0, GETVAL) == 5);
    CHECK(mq_unlink("/ipcd_letters") == 0 && sem_unlink("/ipcd_turn") == 0);
}

// A process whose parent has ended is not the parent to the server.
static void outlive(void *place)
{
    CHECK(change(1, -1, SEM_UNDO) == 0);
    if (fork() != 0)
        _exit(0);
    close(((int *) place)[1]);
    for (double began = now(); now() - began < 5 && semctl(set, 1, GETVAL) != 1;)
        pause_for(0.01);
    int value = semctl(set, 1, GETVAL);
    CHECK(write(((int *) place)[2], &value, sizeof value) == sizeof value);
}

static void leaves_though_a_child_lives(void)
{
    int ends[2], value = -1;
    CHECK(pipe(ends) == 0 && semctl(set, 1, SETVAL, 1) == 0);
    int places[3] = {0, ends[0], ends[1]};
    ends_well(start(outlive, places));
    CHECK(read(ends[0], &value, sizeof value) == sizeof value && value == 1);
}

static void *receive(void *unused)
{
    struct message message;
    CHECK(msgrcv(queue, &message, sizeof message.number, 7, 0) == sizeof message.number && message.number == 77);
    return unused;
}

static void *receive_letter(void *unused)
{
    char text[8];
    CHECK(mq_receive(letters, text, sizeof text, NULL) == 5);
    CHECK(sem_wait(turn) == 0);
    return unused;
}

static void *lock(void *unused)
{
    CHECK(change(1, -1, SEM_UNDO) == 0);
    return unused;
}

// While one thread waits others call; all that they have to undo is undone at the end of the process, and not before.
static void call_in_threads(void *unused)
{
    (void) unused;
    pthread_t waits, waits_for_letter, other;
    struct message message = {7, 77};
    CHECK(pthread_create(&waits, NULL, receive, NULL) == 0);
    CHECK(pthread_create(&waits_for_letter, NULL, receive_letter, NULL) == 0);
    pause_for(0.2);
    CHECK(change(0, -1, SEM_UNDO) == 0);
    CHECK(pthread_create(&other, NULL, lock, NULL) == 0 && pthread_join(other, NULL) == 0);
    CHECK(semctl(set, 0, GETVAL) == 0 && semctl(set, 1, GETVAL) == 0);
    CHECK(mq_send(letters, "hello", 5, 0) == 0 && sem_post(turn) == 0);
    CHECK(pthread_join(waits_for_letter, NULL) == 0);
    CHECK(msgsnd(queue, &message, sizeof message.number, 0) == 0);
    CHECK(pthread_join(waits, NULL) == 0);
    pause_for(0.3);
    CHECK(semctl(set, 0, GETVAL) == 0 && semctl(set, 1, GETVAL) == 0);
    CHECK(semctl(set, 1, GETPID) == getpid());
}

static void threads(void)
{
    struct mq_attr attributes = {.mq_maxmsg = 3, .mq_msgsize = 8};
    mq_unlink("/ipcd_letters"), sem_unlink("/ipcd_turn");
    letters = mq_open("/ipcd_letters", O_RDWR | O_CREAT, 0600, &attributes);
    turn = sem_open("/ipcd_turn", O_CREAT, 0600, 0);
    CHECK(letters != -1 && turn != SEM_FAILED);
    CHECK(change(0, 1, 0) == 0 && semctl(set, 1, SETVAL, 1) == 0);
    ends_well(start(call_in_threads, NULL));
    for (double began = now(); now() - began < 5 && semctl(set, 1, GETVAL) != 1;)
        pause_for(0.01);
    CHECK(semctl(set, 0, GETVAL) == 1 && semctl(set, 1, GETVAL) == 1);
    CHECK(mq_unlink("/ipcd_letters") == 0 && sem_unlink("/ipcd_turn") == 0);
}

static pthread_barrier_t begun;

static void *call_shortly(void *number)
{
    struct message message = {1 + *(int *) number, 0};
    pthread_barrier_wait(&begun);
    for (int i = 0; i < 3; i++) {
        CHECK(change(0, 1, SEM_UNDO) == 0);
        message.number = i;
        CHECK(msgsnd(queue, &message, sizeof message.number, 0) == 0);
        CHECK(msgrcv(queue, &message, sizeof message.number, message.type, 0) == 4 && message.number == i);
        CHECK(change(0, -1, SEM_UNDO) == 0);
    }
    return NULL;
}

// More threads call at once than a server has processes. None has to wait, so they share a few.
static void many_threads(void)
{
    pthread_t them[THREADS];
    int numbers[THREADS];
    CHECK(pthread_barrier_init(&begun, NULL, THREADS) == 0);
    for (int i = 0; i < THREADS; i++) {
        numbers[i] = i;
        CHECK(pthread_create(&them[i], NULL, call_shortly, &numbers[i]) == 0);
    }
    for (int i = 0; i < THREADS; i++)
        CHECK(pthread_join(them[i], NULL) == 0);
    CHECK(semctl(set, 0, GETVAL) == 0);
}

static void talk(void *number)
{
    struct message message = {1000 + *(int *) number, *(int *) number};
    CHECK(change(0, -1, 0) == 0 && change(0, 0, 0) == 0);
    for (int i = 0; i < 3; i++) {
        CHECK(msgsnd(queue, &message, sizeof message.number, 0) == 0);
        message.number = -1;
        CHECK(msgrcv(queue, &message, sizeof message.number, message.type, 0) == sizeof message.number);
        CHECK(message.number == *(int *) number);
    }
}

// All are there at once, since each waits for the others.
static void crowd(void)
{
    pid_t children[CROWD];
    CHECK(semctl(set, 0, SETVAL, CROWD) == 0);
    for (int i = 0; i < CROWD; i++)
        children[i] = start(talk, &i);
    for (int i = 0; i < CROWD; i++)
        ends_well(children[i]);
}

// What each call does if there is no connection for it. The last ones are of what is open.
static struct msqid_ds queue_record;
static struct semid_ds set_record;
static unsigned short values[3];
static struct sembuf up = {0, 1, 0};
static struct timespec second = {1, 0}, over = {1, 0};
static struct mq_attr attributes;
static struct message letter = {1, 1};
static char place[8192];

union argument {
    int value;
    unsigned short *values;
    struct semid_ds *record;
    struct seminfo *info;
};

static long call_msgget(void) { return msgget(1, 0); }
static long call_msgsnd(void) { return msgsnd(1, &letter, 4, 0); }
static long call_msgrcv(void) { return msgrcv(1, &letter, 4, 0, 0); }
static long call_msg_stat(void) { return msgctl(1, IPC_STAT, &queue_record); }
static long call_msg_set(void) { return msgctl(1, IPC_SET, &queue_record); }
static long call_msg_remove(void) { return msgctl(1, IPC_RMID, NULL); }
static long call_semget(void) { return semget(1, 1, 0); }
static long call_semop(void) { return semop(1, &up, 1); }
static long call_semtimedop(void) { return semtimedop(1, &up, 1, &second); }
static long call_getval(void) { return semctl(1, 0, GETVAL); }
static long call_getpid(void) { return semctl(1, 0, GETPID); }
static long call_getncnt(void) { return semctl(1, 0, GETNCNT); }
static long call_getzcnt(void) { return semctl(1, 0, GETZCNT); }
static long call_setval(void) { return semctl(1, 0, SETVAL, (union argument){.value = 1}); }
static long call_getall(void) { return semctl(1, 0, GETALL, (union argument){.values = values}); }
static long call_setall(void) { return semctl(1, 0, SETALL, (union argument){.values = values}); }
static long call_sem_stat(void) { return semctl(1, 0, IPC_STAT, (union argument){.record = &set_record}); }
static long call_sem_set(void) { return semctl(1, 0, IPC_SET, (union argument){.record = &set_record}); }
static long call_sem_remove(void) { return semctl(1, 0, IPC_RMID); }
static long call_msg_info(void) { struct msginfo it; return msgctl(0, MSG_INFO, (struct msqid_ds *) &it); }
static long call_sem_info(void) { struct seminfo it; return semctl(0, 0, SEM_INFO, (union argument){.info = &it}); }
static long call_mq_open(void) { return mq_open("/ipcd", O_RDONLY); }
static long call_mq_unlink(void) { return mq_unlink("/ipcd"); }
static long call_sem_open(void) { return sem_open("/ipcd", 0) == SEM_FAILED ? -1 : 0; }
static long call_sem_unlink(void) { return sem_unlink("/ipcd"); }
static long call_mq_send(void) { return mq_send(letters, "a", 1, 0); }
static long call_mq_timedsend(void) { return mq_timedsend(letters, "a", 1, 0, &over); }
static long call_mq_receive(void) { return mq_receive(letters, place, sizeof place, NULL); }
static long call_mq_timedreceive(void) { return mq_timedreceive(letters, place, sizeof place, NULL, &over); }
static long call_mq_getattr(void) { return mq_getattr(letters, &attributes); }
static long call_mq_setattr(void) { return mq_setattr(letters, &attributes, NULL); }
static long call_mq_notify(void) { return mq_notify(letters, &(struct sigevent){.sigev_notify = SIGEV_NONE}); }
static long call_sem_wait(void) { return sem_wait(turn); }
static long call_sem_trywait(void) { return sem_trywait(turn); }
static long call_sem_timedwait(void) { return sem_timedwait(turn, &over); }
static long call_sem_clockwait(void) { return sem_clockwait(turn, CLOCK_MONOTONIC, &over); }
static long call_sem_post(void) { return sem_post(turn); }
static long call_sem_getvalue(void) { int value; return sem_getvalue(turn, &value); }

typedef long call(void);
enum { OF_WHAT_IS_OPEN = 25 };

static call *const calls[] = {
    call_msgget, call_msgsnd, call_msgrcv, call_msg_stat, call_msg_set, call_msg_remove, call_semget, call_semop,
    call_semtimedop, call_getval, call_getpid, call_getncnt, call_getzcnt, call_setval, call_getall, call_setall,
    call_sem_stat, call_sem_set, call_sem_remove, call_msg_info, call_sem_info, call_mq_open, call_mq_unlink,
    call_sem_open, call_sem_unlink,
    call_mq_send, call_mq_timedsend, call_mq_receive, call_mq_timedreceive, call_mq_getattr, call_mq_setattr,
    call_mq_notify, call_sem_wait, call_sem_trywait, call_sem_timedwait, call_sem_clockwait, call_sem_post,
    call_sem_getvalue,
};
enum { CALLS = sizeof calls / sizeof *calls };

struct refused {
    size_t number;
    int error;
};

static void is_refused(void *argument)
{
    struct refused *it = argument;
    errno = 0;
    long result = calls[it->number]();
    if (result == -1 && errno == it->error)
        return;
    fprintf(stderr, "call %zu is %ld, %s, and not %s\n", it->number, result, strerror(errno), strerror(it->error));
    exit(1);
}

// The first calls, each in a process of its own, are all refused so.
static void are_refused(size_t count, int error)
{
    pid_t children[CALLS];
    struct refused each;
    for (size_t i = 0; i < count; i++) {
        each = (struct refused){i, error};
        children[i] = start(is_refused, &each);
    }
    for (size_t i = 0; i < count; i++)
        ends_well(children[i]);
}

static void stay(void *place)
{
    char byte = msgget(0x69706399, 0) == -1 && errno == ENOENT ? 'y' : 'n';
    CHECK(write(((int *) place)[1], &byte, 1) == 1);
    pause();
}

// No call has room for a process more, also none of what a child has open. Another ends, and then there is.
static void one_too_many(void)
{
    int ends[2];
    pid_t children[LIMIT - 1];
    char byte = 0;
    letters = mq_open("/ipcd_letters", O_RDWR | O_CREAT, 0600, NULL);
    turn = sem_open("/ipcd_turn", O_CREAT, 0600, 0);
    CHECK(letters != -1 && turn != SEM_FAILED && pipe(ends) == 0);
    for (int i = 0; i < LIMIT - 1; i++) {
        children[i] = start(stay, ends);
        CHECK(read(ends[0], &byte, 1) == 1 && byte == 'y');
    }
    are_refused(CALLS, ENFILE);
    CHECK(kill(children[0], SIGKILL) == 0 && waitpid(children[0], NULL, 0) == children[0]);
    children[0] = start(stay, ends);
    CHECK(read(ends[0], &byte, 1) == 1 && byte == 'y');
    for (int i = 0; i < LIMIT - 1; i++)
        CHECK(kill(children[i], SIGKILL) == 0 && waitpid(children[i], NULL, 0) == children[i]);
    CHECK(mq_unlink("/ipcd_letters") == 0 && sem_unlink("/ipcd_turn") == 0);
}

// A program that closes what it has not opened, and opens files of its own there.
static void closes(void)
{
    CHECK(change(0, 1, 0) == 0);
    closefrom(3);
    CHECK(semctl(set, 0, GETVAL) == 1);
    closefrom(3);
    for (int i = 3; i < 500; i++)
        CHECK(open("/dev/null", O_RDWR) == i);
    CHECK(semctl(set, 0, GETVAL) == 1);
    CHECK(change(0, 1, SEM_UNDO) == 0 && semctl(set, 0, GETVAL) == 2);
    closefrom(3);
    REFUSED(change(0, 1, 0), ECONNRESET);
    CHECK(change(0, 1, 0) == 0);
}

// More descriptors than a set of select(2) has, and none left.
static void has_many_files(void)
{
    struct rlimit limit = {2000, 2000};
    CHECK(setrlimit(RLIMIT_NOFILE, &limit) == 0);
    for (int i = 3; i < 1100; i++)
        CHECK(dup(0) >= 0);
    make_objects();
    CHECK(change(0, 1, 0) == 0);
    while (dup(0) >= 0)
        continue;
    CHECK(errno == EMFILE);
    CHECK(change(0, 1, 0) == 0 && semctl(set, 0, GETVAL) == 2);
    remove_objects();
}

static void be_another(void *unused)
{
    (void) unused;
    struct message message = {1, 1};
    CHECK(msgsnd(queue, &message, 4, 0) == 0);
    CHECK(setgid(65534) == 0 && setuid(65534) == 0);
    REFUSED(msgget(0x69706321, 0600), EACCES);
    REFUSED(msgsnd(queue, &message, 4, 0), EACCES);
    REFUSED(msgctl(queue, IPC_RMID, NULL), EPERM);
    REFUSED(mq_open("/ipcd_masked", O_RDONLY), EACCES);
    CHECK(sem_open("/ipcd_masked", 0) == SEM_FAILED && errno == EACCES);
    int own = msgget(IPC_PRIVATE, 0600);
    struct msqid_ds record;
    CHECK(own >= 0 && msgctl(own, IPC_STAT, &record) == 0);
    CHECK(record.msg_perm.uid == 65534 && record.msg_perm.cgid == 65534);
    CHECK(msgsnd(own, &message, 4, 0) == 0 && msgctl(own, IPC_STAT, &record) == 0 && record.msg_lspid == getpid());
    CHECK(msgctl(own, IPC_RMID, NULL) == 0);
}

// Modes less the umask, and users that change; it has to be uid 0.
static void users(void)
{
    umask(027);
    mq_unlink("/ipcd_masked"), sem_unlink("/ipcd_masked");
    queue = msgget(0x69706321, 0);
    if (queue >= 0)
        msgctl(queue, IPC_RMID, NULL);
    queue = msgget(0x69706321, IPC_CREAT | IPC_EXCL | 0600);
    mqd_t letter = mq_open("/ipcd_masked", O_RDWR | O_CREAT, 0777, NULL);
    sem_t *sem = sem_open("/ipcd_masked", O_CREAT, 0666, 1);
    CHECK(queue >= 0 && letter != -1 && sem != SEM_FAILED);
    ends_well(start(be_another, NULL));
    // What is open stays open.
    CHECK(seteuid(65534) == 0);
    REFUSED(msgget(0x69706321, 0600), EACCES);
    CHECK(mq_send(letter, "open", 4, 0) == 0 && sem_post(sem) == 0);
    CHECK(seteuid(0) == 0);
    CHECK(msgget(0x69706321, 0600) == queue);
    CHECK(msgctl(queue, IPC_RMID, NULL) == 0);
    CHECK(mq_unlink("/ipcd_masked") == 0 && sem_unlink("/ipcd_masked") == 0);
}

static const gid_t group_of_socket = 4242;

// A daemon's child, with the groups of its user or without.
static void drop_user(void *has_group)
{
    struct msqid_ds record;
    struct message message = {1, 1};
    CHECK(setgroups(has_group != NULL, &group_of_socket) == 0 && setgid(65534) == 0 && setuid(65534) == 0);
    if (has_group == NULL) {
        REFUSED(msgget(IPC_PRIVATE, 0600), EACCES);
        REFUSED(change(0, 1, 0), EACCES);
        REFUSED(mq_send(letters, "a", 1, 0), EACCES);
        return;
    }
    int own = msgget(IPC_PRIVATE, 0600);
    CHECK(own >= 0 && msgsnd(own, &message, 4, 0) == 0 && msgctl(own, IPC_STAT, &record) == 0);
    CHECK(record.msg_perm.uid == 65534 && record.msg_lspid == getpid());
    CHECK(change(0, 1, 0) == 0 && mq_send(letters, "a", 1, 0) == 0);
    CHECK(msgctl(own, IPC_RMID, NULL) == 0);
}

// The socket is for uid 0 and a group; who is in the group keeps its calls. It has to be uid 0.
static void drops_uid_0(void)
{
    umask(0);
    mq_unlink("/ipcd_letters");
    letters = mq_open("/ipcd_letters", O_RDWR | O_CREAT, 0666, NULL);
    CHECK(letters != -1);
    ends_well(start(drop_user, "with the group"));
    ends_well(start(drop_user, NULL));
    // What is open stays open.
    CHECK(setgroups(0, NULL) == 0 && setegid(65534) == 0 && seteuid(65534) == 0);
    CHECK(mq_send(letters, "open", 4, 0) == 0);
    REFUSED(msgget(IPC_PRIVATE, 0600), EACCES);
    CHECK(seteuid(0) == 0 && setegid(0) == 0);
    CHECK(mq_unlink("/ipcd_letters") == 0);
}

static void absent(void)
{
    are_refused(OF_WHAT_IS_OPEN, ECONNREFUSED);
}

static mqd_t full, empty;
static sem_t *none;

static void wait_for_text(void *unused) { struct message it; (void) unused; msgrcv(queue, &it, 4, 0, 0); }
static void wait_for_list(void *unused) { (void) unused; change(0, -1, 0); }
static void wait_for_letter(void *unused) { char text[8]; (void) unused; mq_receive(empty, text, 8, NULL); }
static void wait_for_place(void *unused) { (void) unused; mq_send(full, "second", 6, 0); }
static void wait_for_post(void *unused) { (void) unused; sem_wait(none); }

// A call that waits is gone with its process: what comes later is for others.
static void are_killed(void)
{
    static void (*const waiting[])(void *) = {
        wait_for_text, wait_for_list, wait_for_letter, wait_for_place, wait_for_post};
    struct mq_attr attributes = {.mq_maxmsg = 1, .mq_msgsize = 8};
    struct message message = {1, 5};
    char text[8];
    mq_unlink("/ipcd_full"), mq_unlink("/ipcd_empty"), sem_unlink("/ipcd_none");
    full = mq_open("/ipcd_full", O_RDWR | O_CREAT, 0600, &attributes);
    empty = mq_open("/ipcd_empty", O_RDWR | O_CREAT | O_NONBLOCK, 0600, &attributes);
    none = sem_open("/ipcd_none", O_CREAT, 0600, 0);
    CHECK(full != -1 && empty != -1 && none != SEM_FAILED && mq_send(full, "first", 5, 0) == 0);
    for (size_t i = 0; i < sizeof waiting / sizeof *waiting; i++) {
        pid_t child = start(waiting[i], NULL);
        pause_for(0.2);
        CHECK(kill(child, SIGKILL) == 0 && waitpid(child, NULL, 0) == child);
    }
    pause_for(0.3);
    CHECK(semctl(set, 0, GETNCNT) == 0);
    CHECK(msgsnd(queue, &message, 4, 0) == 0 && msgrcv(queue, &message, 4, 0, IPC_NOWAIT) == 4);
    CHECK(change(0, 1, 0) == 0 && change(0, -1, IPC_NOWAIT) == 0);
    CHECK(mq_send(empty, "it", 2, 0) == 0 && mq_receive(empty, text, 8, NULL) == 2);
    CHECK(mq_receive(full, text, 8, NULL) == 5 && mq_getattr(full, &attributes) == 0 && attributes.mq_curmsgs == 0);
    CHECK(sem_post(none) == 0 && sem_trywait(none) == 0);
    CHECK(mq_unlink("/ipcd_full") == 0 && mq_unlink("/ipcd_empty") == 0 && sem_unlink("/ipcd_none") == 0);
}

static void *receive_and_end(void *place)
{
    struct message message;
    CHECK(msgrcv(queue, &message, sizeof message.number, 7, 0) == 4);
    *(int *) place = message.number;
    pthread_testcancel();
    return NULL;
}

static void *wait_in_msgrcv(void *unused) { struct message it; msgrcv(queue, &it, 4, 0, 0); return unused; }
static void *wait_in_mq_receive(void *unused) { char text[8]; mq_receive(empty, text, 8, NULL); return unused; }
static void *wait_in_mq_send(void *unused) { mq_send(full, "second", 6, 0); return unused; }
static void *wait_in_sem_wait(void *unused) { sem_wait(none); return unused; }

static void *wait_in_sem_timedwait(void *unused)
{
    struct timespec soon = moment(CLOCK_REALTIME, 60);
    sem_timedwait(none, &soon);
    return unused;
}

static void *wait_in_msgsnd(void *unused)
{
    struct message it = {1, 1};
    for (;;)
        CHECK(msgsnd(queue, &it, 4, 0) == 0);
    return unused;
}

static atomic_bool may_go;

// It was cancelled before it calls, and has not let itself be.
static void *hold_and_wait(void *unused)
{
    struct message message;
    pthread_setcancelstate(PTHREAD_CANCEL_DISABLE, NULL);
    while (!may_go)
        pause_for(0.01);
    CHECK(msgrcv(queue, &message, 4, 7, 0) == 4);
    pthread_setcancelstate(PTHREAD_CANCEL_ENABLE, NULL);
    msgrcv(queue, &message, 4, 7, 0);
    return unused;
}

// A thread whose call waits ends, whenever it is cancelled, and nothing of its call is left.
static void is_cancelled(void *(*work)(void *), double after)
{
    pthread_t it;
    void *result;
    CHECK(pthread_create(&it, NULL, work, NULL) == 0);
    pause_for(after);
    CHECK(pthread_cancel(it) == 0 && pthread_join(it, &result) == 0 && result == PTHREAD_CANCELED);
}

static void are_cancelled(void)
{
    static void *(*const works[])(void *) = {
        wait_in_msgrcv, wait_in_mq_receive, wait_in_mq_send, wait_in_sem_wait, wait_in_sem_timedwait};
    struct mq_attr one = {.mq_maxmsg = 1, .mq_msgsize = 8};
    struct message message = {7, 77};
    struct msqid_ds record;
    pthread_t holds;
    void *result;
    int value;
    mq_unlink("/ipcd_full"), mq_unlink("/ipcd_empty"), sem_unlink("/ipcd_none");
    full = mq_open("/ipcd_full", O_RDWR | O_CREAT, 0600, &one);
    empty = mq_open("/ipcd_empty", O_RDWR | O_CREAT, 0600, &one);
    none = sem_open("/ipcd_none", O_CREAT, 0600, 0);
    CHECK(full != -1 && empty != -1 && none != SEM_FAILED && mq_send(full, "first", 5, 0) == 0);
    for (size_t i = 0; i < sizeof works / sizeof *works; i++)
        for (int after = 0; after < 3; after++)
            is_cancelled(works[i], after * 0.05);
    // What comes later is nobody's.
    CHECK(msgsnd(queue, &message, 4, 0) == 0 && msgrcv(queue, &message, 4, 0, IPC_NOWAIT) == 4);
    CHECK(mq_send(empty, "it", 2, 0) == 0 && mq_getattr(empty, &one) == 0 && one.mq_curmsgs == 1);
    CHECK(mq_getattr(full, &one) == 0 && one.mq_curmsgs == 1 && sem_post(none) == 0);
    CHECK(sem_getvalue(none, &value) == 0 && value == 1);
    CHECK(pthread_create(&holds, NULL, hold_and_wait, NULL) == 0 && pthread_cancel(holds) == 0);
    may_go = true;
    pause_for(0.1);
    CHECK(msgsnd(queue, &message, 4, 0) == 0);
    CHECK(pthread_join(holds, &result) == 0 && result == PTHREAD_CANCELED);
    // It waits as soon as the queue is full.
    CHECK(msgctl(queue, IPC_STAT, &record) == 0);
    record.msg_qbytes = 100;
    CHECK(msgctl(queue, IPC_SET, &record) == 0);
    is_cancelled(wait_in_msgsnd, 0.3);
    CHECK(msgctl(queue, IPC_STAT, &record) == 0 && record.__msg_cbytes <= 100);
    CHECK(mq_unlink("/ipcd_full") == 0 && mq_unlink("/ipcd_empty") == 0 && sem_unlink("/ipcd_none") == 0);
}

// By the library's own names it is not cancelled, since nothing tells it so: else the call would wait on without its
// thread, and take a message that nobody gets.
static void is_not_cancelled(void)
{
    pthread_t waits;
    struct message message = {7, 77};
    int number = 0;
    void *result;
    CHECK(pthread_create(&waits, NULL, receive_and_end, &number) == 0);
    pause_for(0.2);
    CHECK(pthread_cancel(waits) == 0);
    pause_for(0.1);
    CHECK(msgsnd(queue, &message, sizeof message.number, 0) == 0);
    CHECK(pthread_join(waits, &result) == 0 && result == PTHREAD_CANCELED && number == 77);
}

static void run_long(void *unused)
{
    (void) unused;
    CHECK(change(0, -1, SEM_UNDO) == 0 && semctl(set, 0, GETVAL) == 0);
    execl("/bin/sleep", "sleep", "20", (char *) NULL);
}

static void find_none(void *ends)
{
    char byte;
    CHECK(read(*(int *) ends, &byte, 1) == 1);
    REFUSED(mq_send(letters, "a", 1, 0), EBADF);
    CHECK(mq_close(letters) == 0);
}

// Where a server differs from the kernel: a queue that is unlinked is not that of a child which was forked before and
// has not used it, and an exec adds adjustments.
static void differs(void)
{
    int ends[2];
    letters = mq_open("/ipcd_letters", O_RDWR | O_CREAT, 0600, NULL);
    CHECK(letters != -1 && pipe(ends) == 0);
    pid_t finds = start(find_none, ends);
    CHECK(mq_unlink("/ipcd_letters") == 0 && write(ends[1], "u", 1) == 1);
    ends_well(finds);
    CHECK(mq_send(letters, "a", 1, 0) == 0 && mq_close(letters) == 0);
    CHECK(change(0, 1, 0) == 0);
    pid_t child = start(run_long, NULL);
    for (double began = now(); now() - began < 5 && semctl(set, 0, GETPID) != child;)
        pause_for(0.01);
    pause_for(0.5);
    CHECK(semctl(set, 0, GETVAL) == 1 && waitpid(child, NULL, WNOHANG) == 0);
    CHECK(kill(child, SIGKILL) == 0 && waitpid(child, NULL, 0) == child);
}

static const struct {
    const char *name;
    void (*test)(void);
    bool wants_objects;
} tests[] = {
    {"forks", forks, true}, {"outlives", leaves_though_a_child_lives, true}, {"threads", threads, true},
    {"many_threads", many_threads, true}, {"crowd", crowd, true}, {"one_too_many", one_too_many, false},
    {"closes", closes, true},
    {"many_files", has_many_files, false}, {"users", users, false}, {"absent", absent, false},
    {"drops", drops_uid_0, true},
    {"are_killed", are_killed, true}, {"differs", differs, true}, {"not_cancelled", is_not_cancelled, true},
    {"cancelled", are_cancelled, true},
};

int main(int count, char **words)
{
    alarm(60);
    for (size_t i = 0; count == 2 && i < sizeof tests / sizeof *tests; i++) {
        if (strcmp(tests[i].name, words[1]) != 0)
            continue;
        if (tests[i].wants_objects)
            make_objects();
        tests[i].test();
        if (tests[i].wants_objects)
            remove_objects();
        return 0;
    }
    fprintf(stderr, "there is no such test\n");
    return 2;
}
