// ipcd-ask: requests to a server of ipcd in words, and the replies in words, see ipcd-ask(1).
#define _GNU_SOURCE
#include <errno.h>
#include <fcntl.h>
#include <limits.h>
#include <math.h>
#include <mqueue.h>
#include <stdbool.h>
#include <stdint.h>
#include <stdio.h>
#include <stdlib.h>
#include <string.h>
#include <sys/ipc.h>
#include <sys/msg.h>
#include <sys/sem.h>
#include <sys/shm.h>

#include "ask_words.h"
#include "ipcd.h"

enum { REFUSED = 1, MISUSED = 2 };
// The most open semaphores, and bytes of a message and of a read.
enum { OPEN_MOST = 64, TEXT_MOST = 65536, READ_MOST = 8192 };

static sem_t *semaphores[OPEN_MOST];

// --- what is printed

// A text as it is, or between quotes if it would not be read as one word.
static void print_text(const char *text, size_t size)
{
    bool is_plain = size > 0 && text[0] != '#' && strcmp(text, "$") != 0;
    for (size_t i = 0; i < size; i++)
        is_plain = is_plain && text[i] > ' ' && text[i] < 127 && text[i] != '"' && text[i] != '\\';
    if (is_plain) {
        fwrite(text, 1, size, stdout);
        return;
    }
    putchar('"');
    for (size_t i = 0; i < size; i++) {
        unsigned char byte = (unsigned char) text[i];
        if (byte == '"' || byte == '\\')
            printf("\\%c", byte);
        else if (byte >= ' ' && byte < 127)
            putchar(byte);
        else
            printf("\\x%02x", byte);
    }
    putchar('"');
}

// The result of a call that answers no more than that: -1 is a refusal.
static int say(long result)
{
    if (result < 0)
        return -1;
    printf("%ld\n", result);
    return 0;
}

// The number of an object or a descriptor, which `$` stands for from then on.
static int say_made(long result)
{
    made = result;
    return say(result);
}

static int say_bytes(const char *bytes, ssize_t size)
{
    if (size < 0)
        return -1;
    print_text(bytes, (size_t) size);
    putchar('\n');
    return 0;
}

static void print_permissions(const struct ipc_perm *perm)
{
    printf("key=0x%08x uid=%u gid=%u cuid=%u cgid=%u mode=%04o", (unsigned) perm->__key, perm->uid, perm->gid,
           perm->cuid, perm->cgid, (unsigned) perm->mode & 0777);
}

static struct timespec after(double seconds, const struct timespec *now)
{
    double whole = floor(seconds);
    struct timespec time = {now->tv_sec + (time_t) whole, now->tv_nsec + (long) ((seconds - whole) * 1e9)};
    if (time.tv_nsec >= 1000000000) {
        time.tv_sec++;
        time.tv_nsec -= 1000000000;
    }
    return time;
}

static struct timespec deadline(double seconds)
{
    struct timespec now;
    clock_gettime(CLOCK_REALTIME, &now);
    return after(seconds, &now);
}

static int refuse(int error)
{
    errno = error;
    return -1;
}

// --- the calls: `w` are the words after the name, `count` says how many

#define CALL(name) static int ask_##name(const struct word *w, int count)
// The number at a place, or 0 if the words end before.
#define OPTIONAL(at) (count > (at) ? w[at].number : 0)
#define UNUSED_COUNT ((void) count)

struct message {
    long type;
    char text[TEXT_MOST];
};
static struct message message;

CALL(msgget)
{
    return say_made(ipcd_msgget((key_t) w[0].number, (int) OPTIONAL(1)));
}

CALL(msgsnd)
{
    if (w[2].size > sizeof message.text)
        return refuse(EINVAL);
    message.type = w[1].number;
    memcpy(message.text, w[2].text, w[2].size);
    return say(ipcd_msgsnd((int) w[0].number, &message, w[2].size, (int) OPTIONAL(3)));
}

CALL(msgrcv)
{
    size_t size = w[1].number < 0 || w[1].number > TEXT_MOST ? TEXT_MOST : (size_t) w[1].number;
    ssize_t got = ipcd_msgrcv((int) w[0].number, &message, size, OPTIONAL(2), (int) OPTIONAL(3));
    if (got < 0)
        return -1;
    printf("%ld ", message.type);
    return say_bytes(message.text, got);
}

CALL(msgctl)
{
    struct msqid_ds state = {0};
    int queue = (int) w[0].number, command = (int) w[1].number;
    if (command == IPC_SET) {
        if (count != 6)
            return refuse(0);
        state.msg_perm = (struct ipc_perm){.uid = (uid_t) w[2].number, .gid = (gid_t) w[3].number};
        state.msg_perm.mode = (unsigned short) w[4].number;
        state.msg_qbytes = (msglen_t) w[5].number;
    } else if (count != 2)
        return refuse(0);
    if (ipcd_msgctl(queue, command, &state) < 0)
        return -1;
    if (command != IPC_STAT)
        return say(0);
    print_permissions(&state.msg_perm);
    printf(" msg_cbytes=%lu msg_qnum=%lu msg_qbytes=%lu msg_lspid=%d msg_lrpid=%d msg_stime=%ld msg_rtime=%ld"
           " msg_ctime=%ld\n", (unsigned long) state.__msg_cbytes, (unsigned long) state.msg_qnum,
           (unsigned long) state.msg_qbytes, state.msg_lspid, state.msg_lrpid, (long) state.msg_stime,
           (long) state.msg_rtime, (long) state.msg_ctime);
    return 0;
}

CALL(semget)
{
    return say_made(ipcd_semget((key_t) w[0].number, (int) w[1].number, (int) OPTIONAL(2)));
}

// `NUMBER,OPERATION` or `NUMBER,OPERATION,FLAGS`.
static bool read_operation(const char *text, struct sembuf *operation)
{
    char copy[128], *rest = copy;
    long fields[3] = {0};
    int count = 0;
    if (strlen(text) >= sizeof copy)
        return false;
    strcpy(copy, text);
    while (rest != NULL && count < 3) {
        const char *field = strsep(&rest, ",");
        if (!read_number(field, &fields[count++]))
            return false;
    }
    if (rest != NULL || count < 2 || fields[0] < 0 || fields[0] > UINT16_MAX || fields[1] < SHRT_MIN ||
        fields[1] > SHRT_MAX || fields[2] < 0 || fields[2] > SHRT_MAX)
        return false;
    *operation = (struct sembuf){(unsigned short) fields[0], (short) fields[1], (short) fields[2]};
    return true;
}

static int operate(const struct word *set, const struct word *w, int count, const struct timespec *limit)
{
    struct sembuf operations[WORDS_MOST];
    for (int i = 0; i < count; i++)
        if (!read_operation(w[i].text, &operations[i]))
            return refuse(0);
    return say(ipcd_semtimedop((int) set->number, operations, (size_t) count, limit));
}

CALL(semop)
{
    return operate(w, w + 1, count - 1, NULL);
}

CALL(semtimedop)
{
    struct timespec limit = after(w[1].seconds, &(struct timespec){0});
    return operate(w, w + 2, count - 2, &limit);
}

union semun {
    int val;
    struct semid_ds *buf;
    unsigned short *array;
};

static int semctl_stat(int set, struct semid_ds *state)
{
    if (ipcd_semctl(set, 0, IPC_STAT, (union semun){.buf = state}) < 0)
        return -1;
    print_permissions(&state->sem_perm);
    printf(" sem_nsems=%lu sem_otime=%ld sem_ctime=%ld\n", (unsigned long) state->sem_nsems, (long) state->sem_otime,
           (long) state->sem_ctime);
    return 0;
}

static int semctl_getall(int set)
{
    struct semid_ds state;
    unsigned short values[USHRT_MAX];
    if (ipcd_semctl(set, 0, GETALL, (union semun){.array = values}) < 0)
        return -1;
    if (ipcd_semctl(set, 0, IPC_STAT, (union semun){.buf = &state}) < 0)
        return -1;
    for (unsigned long i = 0; i < state.sem_nsems; i++)
        printf("%s%u", i > 0 ? " " : "", values[i]);
    putchar('\n');
    return 0;
}

// As many values as the set has semaphores.
static int semctl_setall(int set, const struct word *w, int count)
{
    unsigned short values[WORDS_MOST];
    struct semid_ds state;
    if (ipcd_semctl(set, 0, IPC_STAT, (union semun){.buf = &state}) < 0)
        return -1;
    if ((unsigned long) count != state.sem_nsems)
        return refuse(EINVAL);
    for (int i = 0; i < count; i++) {
        long value;
        if (!read_number(w[i].text, &value))
            return refuse(0);
        if (value < 0 || value > USHRT_MAX)
            return refuse(ERANGE);
        values[i] = (unsigned short) value;
    }
    return say(ipcd_semctl(set, 0, SETALL, (union semun){.array = values}));
}

// How many words a command of semctl(2) has after it; -1 for any number.
static int semctl_words(int command)
{
    return command == SETALL ? -1 : command == IPC_SET ? 3 : command == SETVAL ? 1 : 0;
}

CALL(semctl)
{
    struct semid_ds state = {0};
    int set = (int) w[0].number, number = (int) w[1].number, command = (int) w[2].number;
    int wanted = semctl_words(command);
    long values[3] = {0};
    if (wanted >= 0 && count - 3 != wanted)
        return refuse(0);
    for (int i = 0; i < wanted; i++)
        if (!read_number(w[3 + i].text, &values[i]) || values[i] < INT_MIN || values[i] > UINT_MAX)
            return refuse(0);
    if (command == SETALL)
        return semctl_setall(set, w + 3, count - 3);
    if (command == GETALL)
        return semctl_getall(set);
    if (command == IPC_STAT)
        return semctl_stat(set, &state);
    if (command == SETVAL)
        return say(ipcd_semctl(set, number, command, (union semun){.val = (int) values[0]}));
    state.sem_perm.uid = (uid_t) values[0];
    state.sem_perm.gid = (gid_t) values[1];
    state.sem_perm.mode = (unsigned short) values[2];
    return say(ipcd_semctl(set, number, command, (union semun){.buf = &state}));
}

CALL(mq_open)
{
    struct mq_attr attributes = {0};
    if (count == 4)
        return refuse(0);
    attributes.mq_maxmsg = OPTIONAL(3);
    attributes.mq_msgsize = OPTIONAL(4);
    return say_made(ipcd_mq_open(w[0].text, (int) w[1].number, (mode_t) OPTIONAL(2), count > 3 ? &attributes : NULL));
}

CALL(mq_close)
{
    UNUSED_COUNT;
    return say(ipcd_mq_close((mqd_t) w[0].number));
}

CALL(mq_unlink)
{
    UNUSED_COUNT;
    return say(ipcd_mq_unlink(w[0].text));
}

CALL(mq_send)
{
    return say(ipcd_mq_send((mqd_t) w[0].number, w[1].text, w[1].size, (unsigned) OPTIONAL(2)));
}

CALL(mq_timedsend)
{
    UNUSED_COUNT;
    struct timespec end = deadline(w[3].seconds);
    return say(ipcd_mq_timedsend((mqd_t) w[0].number, w[1].text, w[1].size, (unsigned) w[2].number, &end));
}

static int receive(mqd_t queue, const struct timespec *end)
{
    struct mq_attr attributes;
    unsigned priority;
    if (ipcd_mq_getattr(queue, &attributes) < 0)
        return -1;
    size_t size = attributes.mq_msgsize > TEXT_MOST ? TEXT_MOST : (size_t) attributes.mq_msgsize;
    ssize_t got = end == NULL ? ipcd_mq_receive(queue, message.text, size, &priority)
                              : ipcd_mq_timedreceive(queue, message.text, size, &priority, end);
    if (got < 0)
        return -1;
    printf("%u ", priority);
    return say_bytes(message.text, got);
}

CALL(mq_receive)
{
    UNUSED_COUNT;
    return receive((mqd_t) w[0].number, NULL);
}

CALL(mq_timedreceive)
{
    UNUSED_COUNT;
    struct timespec end = deadline(w[1].seconds);
    return receive((mqd_t) w[0].number, &end);
}

static int say_attributes(const struct mq_attr *attributes)
{
    printf("mq_flags=%s mq_maxmsg=%ld mq_msgsize=%ld mq_curmsgs=%ld\n",
           attributes->mq_flags & O_NONBLOCK ? "O_NONBLOCK" : "0", attributes->mq_maxmsg, attributes->mq_msgsize,
           attributes->mq_curmsgs);
    return 0;
}

CALL(mq_getattr)
{
    UNUSED_COUNT;
    struct mq_attr attributes;
    return ipcd_mq_getattr((mqd_t) w[0].number, &attributes) < 0 ? -1 : say_attributes(&attributes);
}

// The attributes from before, as the call has them.
CALL(mq_setattr)
{
    UNUSED_COUNT;
    struct mq_attr attributes = {.mq_flags = w[1].number}, old;
    return ipcd_mq_setattr((mqd_t) w[0].number, &attributes, &old) < 0 ? -1 : say_attributes(&old);
}

// Semaphores have numbers from 1 on here, since an address of another process says nothing.
CALL(sem_open)
{
    int at = 0;
    while (at < OPEN_MOST && semaphores[at] != NULL)
        at++;
    if (at == OPEN_MOST)
        return refuse(EMFILE);
    sem_t *semaphore = ipcd_sem_open(w[0].text, (int) OPTIONAL(1), (mode_t) OPTIONAL(2), (unsigned) OPTIONAL(3));
    if (semaphore == SEM_FAILED)
        return -1;
    semaphores[at] = semaphore;
    return say_made(at + 1);
}

static sem_t **place_of(const struct word *w)
{
    static sem_t *none;
    return w->number >= 1 && w->number <= OPEN_MOST ? &semaphores[w->number - 1] : &none;
}

// One call on an open semaphore.
static int on_semaphore(const struct word *w, int (*call)(sem_t *))
{
    sem_t *semaphore = *place_of(w);
    return semaphore == NULL ? refuse(EINVAL) : say(call(semaphore));
}

CALL(sem_close)
{
    UNUSED_COUNT;
    int result = on_semaphore(w, ipcd_sem_close);
    if (result == 0)
        *place_of(w) = NULL;
    return result;
}

CALL(sem_unlink)
{
    UNUSED_COUNT;
    return say(ipcd_sem_unlink(w[0].text));
}

CALL(sem_wait)
{
    UNUSED_COUNT;
    return on_semaphore(w, ipcd_sem_wait);
}

CALL(sem_trywait)
{
    UNUSED_COUNT;
    return on_semaphore(w, ipcd_sem_trywait);
}

CALL(sem_timedwait)
{
    UNUSED_COUNT;
    sem_t *semaphore = *place_of(w);
    struct timespec end = deadline(w[1].seconds);
    return semaphore == NULL ? refuse(EINVAL) : say(ipcd_sem_timedwait(semaphore, &end));
}

CALL(sem_post)
{
    UNUSED_COUNT;
    return on_semaphore(w, ipcd_sem_post);
}

CALL(sem_getvalue)
{
    UNUSED_COUNT;
    sem_t *semaphore = *place_of(w);
    int value;
    if (semaphore == NULL)
        return refuse(EINVAL);
    return ipcd_sem_getvalue(semaphore, &value) < 0 ? -1 : say(value);
}

CALL(shm_open)
{
    return say_made(ipcd_shm_open(w[0].text, (int) w[1].number, (mode_t) OPTIONAL(2)));
}

CALL(shm_unlink)
{
    UNUSED_COUNT;
    return say(ipcd_shm_unlink(w[0].text));
}

CALL(ftruncate)
{
    UNUSED_COUNT;
    return say(ipcd_ftruncate((int) w[0].number, w[1].number));
}

typedef ssize_t reading(int number, void *buffer, size_t size, off_t offset);

static int read_some(const struct word *w, reading *call)
{
    if (w[1].number < 0 || w[1].number > READ_MOST)
        return refuse(EINVAL);
    return say_bytes(message.text, call((int) w[0].number, message.text, (size_t) w[1].number, w[2].number));
}

CALL(pread)
{
    UNUSED_COUNT;
    return read_some(w, ipcd_pread);
}

CALL(pwrite)
{
    UNUSED_COUNT;
    return say(ipcd_pwrite((int) w[0].number, w[1].text, w[1].size, w[2].number));
}

CALL(fstat)
{
    UNUSED_COUNT;
    struct stat state;
    if (ipcd_fstat((int) w[0].number, &state) < 0)
        return -1;
    printf("st_size=%ld st_uid=%u st_gid=%u st_mode=%04o\n", (long) state.st_size, state.st_uid, state.st_gid,
           state.st_mode & 0777);
    return 0;
}

CALL(close)
{
    UNUSED_COUNT;
    return say(ipcd_close((int) w[0].number));
}

CALL(shmget)
{
    return say_made(ipcd_shmget((key_t) w[0].number, (size_t) w[1].number, (int) OPTIONAL(2)));
}

CALL(shmctl)
{
    struct shmid_ds state = {0};
    int segment = (int) w[0].number, command = (int) w[1].number;
    if (count != (command == IPC_SET ? 5 : 2))
        return refuse(0);
    if (command == IPC_SET) {
        state.shm_perm = (struct ipc_perm){.uid = (uid_t) w[2].number, .gid = (gid_t) w[3].number};
        state.shm_perm.mode = (unsigned short) w[4].number;
    }
    if (ipcd_shmctl(segment, command, &state) < 0)
        return -1;
    if (command != IPC_STAT)
        return say(0);
    print_permissions(&state.shm_perm);
    printf(" shm_segsz=%lu shm_cpid=%d shm_lpid=%d shm_nattch=%lu shm_atime=%ld shm_dtime=%ld shm_ctime=%ld\n",
           (unsigned long) state.shm_segsz, state.shm_cpid, state.shm_lpid, (unsigned long) state.shm_nattch,
           (long) state.shm_atime, (long) state.shm_dtime, (long) state.shm_ctime);
    return 0;
}

CALL(shmattach)
{
    return say_made(ipcd_shmattach((int) w[0].number, (int) OPTIONAL(1)));
}

CALL(shmdetach)
{
    UNUSED_COUNT;
    return say(ipcd_shmdetach((int) w[0].number));
}

CALL(shmread)
{
    UNUSED_COUNT;
    return read_some(w, ipcd_shmread);
}

CALL(shmwrite)
{
    UNUSED_COUNT;
    return say(ipcd_shmwrite((int) w[0].number, w[1].text, w[1].size, w[2].number));
}

// Of each call the words after its name: `i` a number of 32 bits, `l` one of 64, `s` a length of time in seconds, `t` a
// text, `n` a name, `+` one text or more, `*` any number of them. Those after a `/` may be left out.
struct call {
    const char *name;
    const char *forms;
    int (*ask)(const struct word *, int);
};

#define ROW(name, forms) {#name, forms, ask_##name}
static const struct call calls[] = {
    ROW(msgget, "i/i"), ROW(msgsnd, "ilt/i"), ROW(msgrcv, "il/li"), ROW(msgctl, "ii/iiii"),
    ROW(semget, "ii/i"), ROW(semop, "i+"), ROW(semtimedop, "is+"), ROW(semctl, "iii*"),
    ROW(mq_open, "ni/iii"), ROW(mq_close, "i"), ROW(mq_unlink, "n"), ROW(mq_send, "it/i"), ROW(mq_timedsend, "itis"),
    ROW(mq_receive, "i"), ROW(mq_timedreceive, "is"), ROW(mq_getattr, "i"), ROW(mq_setattr, "ii"),
    ROW(sem_open, "n/iii"), ROW(sem_close, "i"), ROW(sem_unlink, "n"), ROW(sem_wait, "i"), ROW(sem_trywait, "i"),
    ROW(sem_timedwait, "is"), ROW(sem_post, "i"), ROW(sem_getvalue, "i"),
    ROW(shm_open, "ni/i"), ROW(shm_unlink, "n"), ROW(ftruncate, "il"), ROW(pread, "ill"), ROW(pwrite, "itl"),
    ROW(fstat, "i"), ROW(close, "i"),
    ROW(shmget, "il/i"), ROW(shmctl, "ii/iii"), ROW(shmattach, "i/i"), ROW(shmdetach, "i"), ROW(shmread, "ill"),
    ROW(shmwrite, "itl"),
};

// --- requests

static int misuse(const char *name, const char *what)
{
    fflush(stdout);
    fprintf(stderr, "ipcd-ask: %s: %s\n", name, what);
    return MISUSED;
}

// Asks what the words say. A refusal with an error number of 0 is a wrong word.
static int ask(struct request *request)
{
    const char *name = request->words[0].text;
    const struct call *call = NULL;
    const struct word *bad;
    for (size_t i = 0; i < sizeof calls / sizeof *calls; i++)
        if (strcmp(calls[i].name, name) == 0)
            call = &calls[i];
    if (call == NULL)
        return misuse(name, "is no call: see ipcd-ask(1)");
    if (!are_of(call->forms, request->words + 1, request->count - 1, &bad)) {
        if (bad == NULL)
            return misuse(name, "has other words: see ipcd-ask(1)");
        return misuse(name, bad->text[0] == 0 ? "a word is empty" : bad->text);
    }
    if (call->ask(request->words + 1, request->count - 1) == 0)
        return 0;
    if (errno == 0)
        return misuse(name, "has other words: see ipcd-ask(1)");
    const char *error = strerrorname_np(errno);
    fflush(stdout);
    fprintf(stderr, "ipcd-ask: %s: %s\n", name, error != NULL ? error : "unknown error");
    return REFUSED;
}

// One request. An empty line and one after a `#` ask for nothing.
static int ask_line(const char *line)
{
    static struct request request;
    char *room = malloc(2 * strlen(line) + 2);
    if (room == NULL)
        return misuse("a request", "no memory");
    int status = 0;
    if (!read_request(line, &request, room))
        status = misuse(line, "is no request: see ipcd-ask(1)");
    else if (request.count > 0 && request.words[0].text[0] != '#')
        status = ask(&request);
    free(room);
    return status;
}

// All of standard input, up to a line that is wrong. The status is that of the worst.
static int ask_input(void)
{
    char *line = NULL;
    size_t room = 0;
    int status = 0;
    ssize_t size;
    while (status < MISUSED && (size = getline(&line, &room, stdin)) >= 0) {
        if (size > 0 && line[size - 1] == '\n')
            line[--size] = 0;
        int now = strlen(line) == (size_t) size ? ask_line(line) : misuse("a line", "has a byte 0");
        status = now > status ? now : status;
    }
    free(line);
    return status < MISUSED && ferror(stdin) ? misuse("standard input", strerror(errno)) : status;
}

int main(int count, char **arguments)
{
    static const char usage[] = "usage: ipcd-ask SOCKET [REQUEST]...\n";
    if (count == 2 && strcmp(arguments[1], "--help") == 0)
        return fputs(usage, stdout) < 0 || fflush(stdout) != 0;
    if (count < 2 || arguments[1][0] == '-') {
        fputs(usage, stderr);
        return MISUSED;
    }
    setvbuf(stdout, NULL, _IOLBF, 0);
    struct ipcd *connection = ipcd_connect(arguments[1]);
    if (connection == NULL) {
        fprintf(stderr, "ipcd-ask: %s: %s\n", arguments[1], strerrorname_np(errno));
        return REFUSED;
    }
    ipcd_use(connection);
    int status = count == 2 ? ask_input() : 0;
    for (int i = 2; i < count && status == 0; i++)
        status = ask_line(arguments[i]);
    ipcd_use(NULL);
    ipcd_disconnect(connection);
    if (fflush(stdout) != 0 || ferror(stdout))
        return misuse("standard output", strerror(errno));
    return status;
}
