// Calls around a restart of the server. Whoever runs this reads its words: "now" and "soon" ask to kill the server, at
// once or after a while, and to start it again; then a line comes. With the library's own names the word
// `segments` is for those. With the word `killed` no server ends, but processes in the midst of calls.
#define _GNU_SOURCE
#include <fcntl.h>
#include <mqueue.h>
#include <pthread.h>
#include <semaphore.h>
#include <sys/ipc.h>
#include <sys/msg.h>
#include <sys/sem.h>

#include "check.h"

struct message {
    long type;
    char text[8192];
};

union argument {
    int value;
    unsigned short *values;
    struct semid_ds *record;
};

static struct message message = {.type = 1};
static int queue, full_queue, spare_queue, set, spare_set, value;
static struct msqid_ds queue_record;
static struct semid_ds set_record;
static unsigned short values[1];
static struct timespec minute = {60, 0};
static struct sigevent silent = {.sigev_notify = SIGEV_NONE};
static mqd_t full, empty, lost;
static sem_t *sem, *lost_sem;
static struct mq_attr attributes = {.mq_maxmsg = 1, .mq_msgsize = 8};
static struct sembuf down = {0, -1, 0}, up = {0, 1, 0};
static char text[8];

static void ask(const char *word)
{
    CHECK(printf("%s\n", word) > 0 && fflush(stdout) == 0);
}

static struct timespec soon(void)
{
    return moment(CLOCK_REALTIME, 60);
}

static void is_there_again(void)
{
    char line[16];
    CHECK(fgets(line, sizeof line, stdin) != NULL);
}

// Each call by itself. Those that change something have one before or after that undoes it.
static long get_queue(void) { return msgget(0x69706331, 0); }
static long send_text(void) { return msgsnd(queue, &message, 4, 0); }
static long receive_text(void) { return msgrcv(queue, &message, 4, 0, IPC_NOWAIT) >= 0 ? 0 : -1; }
static long stat_queue(void) { return msgctl(queue, IPC_STAT, &queue_record); }
static long set_queue(void) { return msgctl(queue, IPC_SET, &queue_record); }
static long remove_queue(void) { return msgctl(spare_queue, IPC_RMID, NULL); }
static long get_set(void) { return semget(0x69706332, 0, 0); }
static long add(void) { return semop(set, &up, 1); }
static long take(void) { return semop(set, &down, 1); }
static long add_in_time(void) { return semtimedop(set, &up, 1, &minute); }
static long get_value(void) { return semctl(set, 0, GETVAL); }
static long get_pid(void) { return semctl(set, 0, GETPID); }
static long count_up(void) { return semctl(set, 0, GETNCNT); }
static long count_zero(void) { return semctl(set, 0, GETZCNT); }
static long get_all(void) { return semctl(set, 0, GETALL, (union argument){.values = values}); }
static long set_value(void) { return semctl(set, 0, SETVAL, (union argument){.value = 0}); }
static long set_all(void) { return semctl(set, 0, SETALL, (union argument){.values = values}); }
static long stat_set(void) { return semctl(set, 0, IPC_STAT, (union argument){.record = &set_record}); }
static long set_set(void) { return semctl(set, 0, IPC_SET, (union argument){.record = &set_record}); }
static long remove_set(void) { return semctl(spare_set, 0, IPC_RMID); }
static long open_queue(void) { mqd_t it = mq_open("/ipcd_x", O_RDONLY); return it == -1 ? -1 : mq_close(it); }
static long unlink_queue(void) { return mq_unlink("/ipcd_gone"); }
static long send_letter(void) { return mq_send(empty, "a", 1, 0); }
static long receive_letter(void) { return mq_receive(empty, text, 8, NULL) >= 0 ? 0 : -1; }
static long send_in_time(void) { struct timespec end = soon(); return mq_timedsend(empty, "a", 1, 0, &end); }
static long receive_in_time(void) { struct timespec end = soon(); return mq_timedreceive(empty, text, 8, NULL, &end); }
static long get_attributes(void) { return mq_getattr(empty, &attributes); }
static long set_attributes(void) { return mq_setattr(empty, &attributes, NULL); }
static long ask_to_be_told(void) { return mq_notify(empty, &silent); }
static long open_sem(void) { sem_t *it = sem_open("/ipcd_y", 0); return it == SEM_FAILED ? -1 : sem_close(it); }
static long unlink_sem(void) { return sem_unlink("/ipcd_gone"); }
static long post(void) { return sem_post(sem); }
static long wait_at_once(void) { return sem_trywait(sem); }
static long wait_in_time(void) { struct timespec end = soon(); return sem_timedwait(sem, &end); }
static long get_sem(void) { return sem_getvalue(sem, &value); }

static long wait_for_text(void) { return msgrcv(queue, &message, 4, 9, 0); }
static long wait_for_room(void) { return msgsnd(full_queue, &message, 8192, 0); }
static long wait_for_list(void) { return semop(set, &down, 1); }
static long wait_for_list_in_time(void) { return semtimedop(set, &down, 1, &minute); }
static long wait_for_letter(void) { return mq_receive(empty, text, 8, NULL); }
static long wait_for_place(void) { return mq_send(full, "b", 1, 0); }
static long wait_for_place_in_time(void) { struct timespec end = soon(); return mq_timedsend(full, "b", 1, 0, &end); }
static long wait_for_post(void) { return sem_wait(sem); }

static long wait_for_post_in_time(void)
{
    struct timespec end = moment(CLOCK_MONOTONIC, 60);
    return sem_clockwait(sem, CLOCK_MONOTONIC, &end);
}

typedef long call(void);

// Each is told of the restart once, and then done.
static call *const calls[] = {
    get_queue, stat_queue, set_queue, send_text, receive_text, get_set, add, take, add_in_time, get_value, get_pid,
    count_up, count_zero, set_value, get_all, set_all, stat_set, set_set, open_queue, send_letter, receive_letter,
    send_in_time, receive_in_time, get_attributes, set_attributes, ask_to_be_told, open_sem, post, wait_at_once, post,
    wait_in_time, get_sem, remove_queue, remove_set,
};
static call *const waiting[] = {
    wait_for_text, wait_for_room, wait_for_list, wait_for_list_in_time, wait_for_letter, receive_in_time,
    wait_for_place, wait_for_place_in_time, wait_for_post, wait_in_time, wait_for_post_in_time,
};
enum { CALLS = sizeof calls / sizeof *calls, WAITING = sizeof waiting / sizeof *waiting };

static void make(void)
{
    queue = msgget(0x69706331, IPC_CREAT | 0600);
    full_queue = msgget(IPC_PRIVATE, 0600);
    spare_queue = msgget(IPC_PRIVATE, 0600);
    set = semget(0x69706332, 1, IPC_CREAT | 0600);
    spare_set = semget(IPC_PRIVATE, 1, 0600);
    empty = mq_open("/ipcd_x", O_RDWR | O_CREAT, 0600, &attributes);
    full = mq_open("/ipcd_f", O_RDWR | O_CREAT, 0600, &attributes);
    lost = mq_open("/ipcd_l", O_RDWR | O_CREAT, 0600, &attributes);
    sem = sem_open("/ipcd_y", O_CREAT, 0600, 0);
    lost_sem = sem_open("/ipcd_l", O_CREAT, 0600, 0);
    CHECK(queue >= 0 && full_queue >= 0 && set >= 0 && empty != -1 && full != -1 && lost != -1);
    CHECK(spare_queue >= 0 && spare_set >= 0 && sem != SEM_FAILED && lost_sem != SEM_FAILED);
    CHECK(mq_send(full, "f", 1, 0) == 0);
    while (msgsnd(full_queue, &message, 8192, IPC_NOWAIT) == 0)
        continue;
    CHECK(errno == EAGAIN);
    CHECK(mq_unlink("/ipcd_l") == 0 && sem_unlink("/ipcd_l") == 0);
    CHECK(mq_send(lost, "l", 1, 0) == 0 && sem_post(lost_sem) == 0);
    CHECK(stat_queue() == 0 && stat_set() == 0);
}

static void restart(void)
{
    ask("now");
    is_there_again();
}

static void *receive_and_ask(void *places)
{
    char byte;
    CHECK(msgrcv(queue, &(struct message){0}, 4, 5, 0) == 4);
    CHECK(write(((int *) places)[1], "r", 1) == 1 && read(((int *) places)[2], &byte, 1) == 1);
    CHECK(get_value() >= 0);
    return NULL;
}

// A thread has had to wait, so there is another connection. The program is told once all the same.
static void threads_are_told_once(void)
{
    int places[4];
    char byte;
    pthread_t waits;
    // It writes to the first pipe, and reads the second.
    CHECK(pipe(places) == 0 && pipe(places + 2) == 0);
    CHECK(pthread_create(&waits, NULL, receive_and_ask, places) == 0);
    pause_for(0.2);
    message.type = 5;
    CHECK(send_text() == 0 && read(places[0], &byte, 1) == 1);
    message.type = 1;
    restart();
    REFUSED(get_value(), ECONNRESET);
    CHECK(write(places[3], "a", 1) == 1 && pthread_join(waits, NULL) == 0 && get_value() >= 0);
}

// A close is told, too, and has closed.
static void are_closed(void)
{
    mqd_t queue_too = mq_open("/ipcd_x", O_RDWR);
    sem_t *other = sem_open("/ipcd_z", O_CREAT, 0600, 0);
    CHECK(queue_too != -1 && other != SEM_FAILED);
    restart();
    REFUSED(mq_close(queue_too), ECONNRESET);
    REFUSED(mq_close(queue_too), EBADF);
    CHECK(get_value() >= 0);
    restart();
    REFUSED(sem_close(other), ECONNRESET);
    REFUSED(sem_close(other), EINVAL);
    CHECK(get_value() >= 0);
    restart();
    REFUSED(unlink_queue(), ECONNRESET);
    REFUSED(unlink_queue(), ENOENT);
    restart();
    REFUSED(unlink_sem(), ECONNRESET);
    REFUSED(unlink_sem(), ENOENT);
}

static void restarts(void)
{
    make();
    for (size_t i = 0; i < CALLS; i++) {
        restart();
        REFUSED(calls[i](), ECONNRESET);
        CHECK(calls[i]() >= 0);
    }
    are_closed();
    threads_are_told_once();
    for (size_t i = 0; i < WAITING; i++) {
        ask("soon");
        REFUSED(waiting[i](), ECONNRESET);
        is_there_again();
        CHECK(get_value() == 0 && get_sem() == 0 && value == 0);
    }
    // Nothing that is made under the name of what has none any more is it.
    mqd_t other = mq_open("/ipcd_l", O_RDWR | O_CREAT, 0600, &attributes);
    CHECK(other != -1 && other != lost);
    // Such a queue has become the kernel's, and such a semaphore the C library's: one message is there, and one post.
    CHECK(mq_receive(lost, text, 8, NULL) == 1 && text[0] == 'l' && mq_getattr(lost, &attributes) == 0);
    CHECK(sem_wait(lost_sem) == 0 && sem_getvalue(lost_sem, &value) == 0 && value == 0);
    CHECK(mq_close(lost) == 0 && sem_close(lost_sem) == 0);
    CHECK(mq_receive(full, text, 8, NULL) == 1 && text[0] == 'f');
}

static void call_again(void *work)
{
    // What one that was killed has sent, or added, may be more than there is room for, or none.
    for (;;)
        (*(call *const *) work)();
}

// A process is killed in the midst of each call, again and again: the server and others go on, and nobody waits.
static void are_killed(void)
{
    make();
    for (size_t i = 0; i < 2 * (CALLS + WAITING); i++) {
        size_t number = i / 2;
        call *const *work = number < CALLS ? &calls[number] : &waiting[number - CALLS];
        pid_t child = start(call_again, (void *) work);
        pause_for(0.002 + rand() % 15000 / 1e6);
        CHECK(kill(child, SIGKILL) == 0 && waitpid(child, NULL, 0) == child);
    }
    for (double began = now(); now() - began < 5 && count_up() > 0;)
        pause_for(0.01);
    CHECK(count_up() == 0 && count_zero() == 0);
    while (msgrcv(queue, &message, 8192, 0, IPC_NOWAIT) >= 0)
        continue;
    CHECK(errno == ENOMSG && send_text() == 0 && receive_text() == 0);
    CHECK(set_value() == 0 && add() == 0 && take() == 0);
    CHECK(mq_receive(full, text, 8, NULL) == 1 && mq_send(full, "b", 1, 0) == 0);
}

#ifdef PREFIXED
#include <sys/stat.h>

static int segment;
static struct stat record;

static long cut(void) { return ipcd_ftruncate(segment, 10); }
static long write_bytes(void) { return ipcd_pwrite(segment, "abc", 3, 1); }
static long read_bytes(void) { return ipcd_pread(segment, text, 4, 0); }
static long stat_segment(void) { return ipcd_fstat(segment, &record); }
static long unlink_segment(void) { return ipcd_shm_unlink("/ipcd_m"); }

static long open_segment(void)
{
    int it = ipcd_shm_open("/ipcd_m", O_RDONLY, 0);
    return it == -1 ? -1 : ipcd_close(it);
}

static void segments_restart(void)
{
    static call *const of_segments[] = {cut, write_bytes, read_bytes, stat_segment, open_segment};
    segment = ipcd_shm_open("/ipcd_m", O_RDWR | O_CREAT, 0600);
    CHECK(segment != -1);
    for (size_t i = 0; i < sizeof of_segments / sizeof *of_segments; i++) {
        restart();
        REFUSED(of_segments[i](), ECONNRESET);
        CHECK(of_segments[i]() >= 0);
    }
    CHECK(read_bytes() == 4 && memcmp(text, "\0abc", 4) == 0);
    restart();
    REFUSED(unlink_segment(), ECONNRESET);
    CHECK(unlink_segment() == 0 && stat_segment() == 0);
    restart();
    REFUSED(stat_segment(), ECONNRESET);
    REFUSED(stat_segment(), EBADF);
    CHECK(ipcd_close(segment) == 0);
}

static int shmid, attachment;
static struct shmid_ds of_system_v;

static long find(void) { return shmget(0x69706351, 0, 0) == shmid ? 0 : -1; }
static long stat_it(void) { return shmctl(shmid, IPC_STAT, &of_system_v); }
static long set_it(void) { return shmctl(shmid, IPC_SET, &of_system_v); }
static long remove_it(void) { return shmctl(shmid, IPC_RMID, NULL); }
static long write_it(void) { return ipcd_shmwrite(attachment, "abc", 3, 1); }
static long read_it(void) { return ipcd_shmread(attachment, text, 4, 0); }

static long attach_it(void)
{
    int it = ipcd_shmattach(shmid, 0);
    return it == -1 ? -1 : ipcd_shmdetach(it);
}

// It is attached again by its identifier, as long as it is there.
static void attachments_restart(void)
{
    static call *const of_attachments[] = {find, stat_it, set_it, write_it, read_it, attach_it};
    shmid = shmget(0x69706351, 10, IPC_CREAT | 0600);
    attachment = ipcd_shmattach(shmid, 0);
    CHECK(shmid != -1 && attachment != -1);
    for (size_t i = 0; i < sizeof of_attachments / sizeof *of_attachments; i++) {
        restart();
        REFUSED(of_attachments[i](), ECONNRESET);
        CHECK(of_attachments[i]() >= 0);
    }
    CHECK(read_it() == 4 && memcmp(text, "\0abc", 4) == 0 && stat_it() == 0 && of_system_v.shm_nattch == 1);
    restart();
    REFUSED(remove_it(), ECONNRESET);
    CHECK(remove_it() == 0 && read_it() == 4);
    restart();
    REFUSED(read_it(), ECONNRESET);
    REFUSED(read_it(), EBADF);
    CHECK(ipcd_shmdetach(attachment) == 0);
    restart();
    REFUSED(find(), ECONNRESET);
    REFUSED(find(), ENOENT);
}
#endif

int main(int count, char **words)
{
    alarm(100);
    if (count == 2 && strcmp(words[1], "killed") == 0) {
        are_killed();
        return 0;
    }
#ifdef PREFIXED
    if (count == 2 && strcmp(words[1], "segments") == 0) {
        segments_restart();
        return 0;
    }
    if (count == 2 && strcmp(words[1], "attachments") == 0) {
        attachments_restart();
        return 0;
    }
#endif
    restarts();
    return 0;
}
