// One call of the library, in the words of docs/vectors.json: it prints what the call answers in those words, with
// numbers in decimal and texts in hexadecimal digits, or the error's number. The server is that of IPCD_SOCKET.
#define _GNU_SOURCE
#include <fcntl.h>
#include <stdint.h>
#include <sys/ipc.h>
#include <sys/msg.h>
#include <sys/sem.h>
#include <sys/shm.h>
#include <sys/stat.h>

#include "../ipcd.h"
#include "check.h"

static int count;
static char **words;
static struct { long type; char text[65536]; } message;

static const char *text_of(const char *name)
{
    size_t size = strlen(name);
    for (int i = 0; i < count; i++)
        if (strncmp(words[i], name, size) == 0 && words[i][size] == '=')
            return words[i] + size + 1;
    fprintf(stderr, "no field %s\n", name);
    exit(1);
}

static bool is_none(const char *name)
{
    return strcmp(text_of(name), "none") == 0;
}

static const struct { const char *name; unsigned long long value; } flags[] = {
    {"IPC_CREAT", IPC_CREAT}, {"IPC_EXCL", IPC_EXCL}, {"IPC_NOWAIT", IPC_NOWAIT}, {"MSG_NOERROR", MSG_NOERROR},
    {"MSG_EXCEPT", MSG_EXCEPT}, {"SEM_UNDO", SEM_UNDO}, {"SHM_RDONLY", SHM_RDONLY}, {"O_RDONLY", O_RDONLY},
    {"O_WRONLY", O_WRONLY}, {"O_RDWR", O_RDWR}, {"O_CREAT", O_CREAT}, {"O_EXCL", O_EXCL}, {"O_TRUNC", O_TRUNC},
    {"O_NONBLOCK", O_NONBLOCK},
};

// A number up to the first of these characters.
static unsigned long long read_one(const char *text, const char *ends)
{
    size_t size = strcspn(text, ends);
    for (size_t i = 0; i < sizeof flags / sizeof *flags; i++)
        if (strlen(flags[i].name) == size && strncmp(text, flags[i].name, size) == 0)
            return flags[i].value;
    char *end;
    unsigned long long number = strtoull(text, &end, 0);
    CHECK(end == text + size && size > 0);
    return number;
}

static unsigned long long read_number(const char *text)
{
    unsigned long long number = 0;
    for (;; text++) {
        number |= read_one(text, "|:,");
        text += strcspn(text, "|:,");
        if (*text != '|')
            return number;
    }
}

static long n(const char *name)
{
    return (long) read_number(text_of(name));
}

// A text with `%HH` for some bytes.
static size_t bytes_of(const char *name, char *to)
{
    size_t size = 0;
    for (const char *at = text_of(name); *at != 0; at++) {
        unsigned byte = (unsigned char) *at;
        if (byte == '%') {
            CHECK(sscanf(at + 1, "%2x", &byte) == 1);
            at += 2;
        }
        to[size++] = (char) byte;
    }
    to[size] = 0;
    return size;
}

static char name[1024];

static const char *name_of(void)
{
    bytes_of("name", name);
    return name;
}

static struct timespec time_of(const char *field, long less)
{
    long left = n(field) - less;
    return (struct timespec){left / 1000, left % 1000 * 1000000};
}

static void say_bytes(const char *field, const char *bytes, long size)
{
    printf("%s=", field);
    for (long i = 0; i < size; i++)
        printf("%02x", (unsigned char) bytes[i]);
}

// What a call answers: nothing, or a number.
static int done(long result)
{
    printf("%s", result == 0 ? "ok" : "");
    return result == 0 ? 0 : -1;
}

static int number(const char *field, long result)
{
    if (result >= 0)
        printf("%s=%ld", field, result);
    return result < 0 ? -1 : 0;
}

static void say_owner(const struct ipc_perm *it)
{
    printf("key=%d uid=%u gid=%u cuid=%u cgid=%u mode=%u ", it->__key, it->uid, it->gid, it->cuid, it->cgid,
           (unsigned) it->mode);
}

static void set_owner(struct ipc_perm *it)
{
    *it = (struct ipc_perm){.uid = (uid_t) n("uid"), .gid = (gid_t) n("gid")};
    it->mode = (unsigned short) n("mode");
}

#define IS(call) (strcmp(words[0], call) == 0)

static int queues(int id)
{
    struct msqid_ds record = {0};
    if (IS("msgsnd")) {
        message.type = n("type");
        size_t size = bytes_of("text", message.text);
        return done(ipcd_msgsnd(id, &message, size, (int) n("flags")));
    }
    if (IS("msgrcv")) {
        ssize_t size = ipcd_msgrcv(id, &message, (size_t) n("size"), n("type"), (int) n("flags"));
        if (size < 0)
            return -1;
        printf("type=%ld ", message.type);
        say_bytes("text", message.text, size);
        return 0;
    }
    if (IS("msgctl_stat")) {
        if (ipcd_msgctl(id, IPC_STAT, &record) < 0)
            return -1;
        say_owner(&record.msg_perm);
        printf("stime=%ld rtime=%ld ctime=%ld ", record.msg_stime * 1000, record.msg_rtime * 1000,
               record.msg_ctime * 1000);
        printf("lspid=%d lrpid=%d qbytes=%lu qnum=%lu cbytes=%lu", record.msg_lspid, record.msg_lrpid,
               record.msg_qbytes, record.msg_qnum, record.__msg_cbytes);
        return 0;
    }
    if (IS("msgctl_set")) {
        set_owner(&record.msg_perm);
        record.msg_qbytes = (msglen_t) n("qbytes");
        return done(ipcd_msgctl(id, IPC_SET, &record));
    }
    return IS("msgctl_rmid") ? done(ipcd_msgctl(id, IPC_RMID, NULL)) : -2;
}

static int operate(int id)
{
    struct sembuf operations[16];
    size_t size = 0;
    for (const char *at = text_of("operations"); *at != 0; at += *at == ',') {
        long fields[3];
        for (int i = 0; i < 3; i++) {
            fields[i] = (long) read_number(at);
            at += strcspn(at, i < 2 ? ":" : ",");
            at += i < 2;
        }
        operations[size++] = (struct sembuf){(unsigned short) fields[0], (short) fields[1], (short) fields[2]};
    }
    if (is_none("timeout"))
        return done(ipcd_semop(id, operations, size));
    // The library adds a millisecond to a wait, see `ipcd_semtimedop`.
    struct timespec limit = time_of("timeout", n("timeout") > 0);
    return done(ipcd_semtimedop(id, operations, size, &limit));
}

// How many semaphores the set has is the server's to say, which has as many as the row has values.
static int all_values(int id)
{
    unsigned short values[64];
    if (IS("semctl_setall")) {
        int size = 0;
        for (const char *at = text_of("values"); *at != 0; at += *at == ',') {
            values[size++] = (unsigned short) read_number(at);
            at += strcspn(at, ",");
        }
        return done(ipcd_semctl(id, 0, SETALL, values));
    }
    struct semid_ds record;
    if (ipcd_semctl(id, 0, GETALL, values) < 0 || ipcd_semctl(id, 0, IPC_STAT, &record) < 0)
        return -1;
    printf("values=");
    for (unsigned long i = 0; i < record.sem_nsems; i++)
        printf("%s%u", i > 0 ? "," : "", values[i]);
    return 0;
}

static int sets(int id)
{
    struct semid_ds record = {0};
    if (IS("semop"))
        return operate(id);
    if (IS("semctl_getall") || IS("semctl_setall"))
        return all_values(id);
    if (IS("semctl_getval"))
        return number("value", ipcd_semctl(id, (int) n("num"), GETVAL));
    if (IS("semctl_getpid"))
        return number("pid", ipcd_semctl(id, (int) n("num"), GETPID));
    if (IS("semctl_getncnt"))
        return number("count", ipcd_semctl(id, (int) n("num"), GETNCNT));
    if (IS("semctl_getzcnt"))
        return number("count", ipcd_semctl(id, (int) n("num"), GETZCNT));
    if (IS("semctl_setval"))
        return done(ipcd_semctl(id, (int) n("num"), SETVAL, (int) n("value")));
    if (IS("semctl_stat")) {
        if (ipcd_semctl(id, 0, IPC_STAT, &record) < 0)
            return -1;
        say_owner(&record.sem_perm);
        printf("otime=%ld ctime=%ld nsems=%lu", record.sem_otime * 1000, record.sem_ctime * 1000, record.sem_nsems);
        return 0;
    }
    if (IS("semctl_set")) {
        set_owner(&record.sem_perm);
        return done(ipcd_semctl(id, 0, IPC_SET, &record));
    }
    return IS("semctl_rmid") ? done(ipcd_semctl(id, 0, IPC_RMID)) : -2;
}

static int segments(int id)
{
    struct shmid_ds record = {0};
    if (IS("shmctl_stat")) {
        if (ipcd_shmctl(id, IPC_STAT, &record) < 0)
            return -1;
        say_owner(&record.shm_perm);
        printf("atime=%ld dtime=%ld ctime=%ld cpid=%d lpid=%d nattch=%lu segsz=%zu", record.shm_atime * 1000,
               record.shm_dtime * 1000, record.shm_ctime * 1000, record.shm_cpid, record.shm_lpid, record.shm_nattch,
               record.shm_segsz);
        return 0;
    }
    if (IS("shmctl_set")) {
        set_owner(&record.shm_perm);
        return done(ipcd_shmctl(id, IPC_SET, &record));
    }
    if (IS("shmctl_rmid"))
        return done(ipcd_shmctl(id, IPC_RMID, NULL));
    return IS("shmat") ? (ipcd_shmattach(id, (int) n("flags")) < 0 ? -1 : 1) : -2;
}

static int attachments(void)
{
    int attached = ipcd_shmattach(1, SHM_RDONLY);
    CHECK(attached != -1);
    static char bytes[8192];
    if (IS("shmdt"))
        return done(ipcd_shmdetach(attached));
    if (IS("attached_write")) {
        size_t size = bytes_of("bytes", bytes);
        return ipcd_shmwrite(attached, bytes, size, n("offset")) == (ssize_t) size ? done(0) : -1;
    }
    ssize_t size = ipcd_shmread(attached, bytes, (size_t) n("length"), n("offset"));
    if (size >= 0)
        say_bytes("bytes", bytes, size);
    return size < 0 ? -1 : 0;
}

static int say_attributes(int result, const struct mq_attr *it)
{
    if (result == 0)
        printf("flags=%ld maxmsg=%ld msgsize=%ld curmsgs=%ld", it->mq_flags, it->mq_maxmsg, it->mq_msgsize,
               it->mq_curmsgs);
    return result;
}

static int posix_queues(void)
{
    struct mq_attr attributes = {0}, before;
    if (IS("mq_open")) {
        attributes.mq_maxmsg = (int) n("maxmsg");
        attributes.mq_msgsize = (int) n("msgsize");
        int flag = (int) n("flags");
        return ipcd_mq_open(name_of(), flag, (mode_t) n("mode"), n("attr") ? &attributes : NULL) == -1 ? -1 : 1;
    }
    if (IS("mq_unlink"))
        return done(ipcd_mq_unlink(name_of()));
    mqd_t queue = ipcd_mq_open("/q", O_RDWR);
    CHECK(queue != -1);
    if (IS("close"))
        return done(ipcd_mq_close(queue));
    if (IS("mq_getattr"))
        return say_attributes(ipcd_mq_getattr(queue, &attributes), &attributes);
    if (IS("mq_setattr")) {
        attributes.mq_flags = n("flags");
        return say_attributes(ipcd_mq_setattr(queue, &attributes, &before), &before);
    }
    struct timespec until = is_none("deadline") ? (struct timespec){0} : time_of("deadline", 0);
    const struct timespec *deadline = is_none("deadline") ? NULL : &until;
    if (IS("mq_send")) {
        size_t size = bytes_of("text", message.text);
        return done(ipcd_mq_timedsend(queue, message.text, size, (unsigned) n("priority"), deadline));
    }
    unsigned priority;
    ssize_t size = ipcd_mq_timedreceive(queue, message.text, (size_t) n("size"), &priority, deadline);
    if (size < 0)
        return -1;
    printf("priority=%u ", priority);
    say_bytes("text", message.text, size);
    return 0;
}

static int named_semaphores(void)
{
    if (IS("sem_open")) {
        unsigned value = (unsigned) n("value");
        return ipcd_sem_open(name_of(), (int) n("flags"), (mode_t) n("mode"), value) == SEM_FAILED ? -1 : 1;
    }
    if (IS("sem_unlink"))
        return done(ipcd_sem_unlink(name_of()));
    sem_t *sem = ipcd_sem_open("/s", 0);
    CHECK(sem != SEM_FAILED);
    if (IS("sem_post"))
        return done(ipcd_sem_post(sem));
    if (IS("sem_trywait"))
        return done(ipcd_sem_trywait(sem));
    if (IS("sem_wait") && is_none("deadline"))
        return done(ipcd_sem_wait(sem));
    if (IS("sem_wait")) {
        struct timespec deadline = time_of("deadline", 0);
        return done(ipcd_sem_timedwait(sem, &deadline));
    }
    int value;
    return ipcd_sem_getvalue(sem, &value) < 0 ? -1 : number("value", value);
}

static int named_segments(void)
{
    struct stat status;
    static char bytes[8192];
    if (IS("shm_open"))
        return ipcd_shm_open(name_of(), (int) n("flags"), (mode_t) n("mode")) < 0 ? -1 : 1;
    if (IS("shm_unlink"))
        return done(ipcd_shm_unlink(name_of()));
    int segment = ipcd_shm_open("/m", O_RDWR, 0);
    CHECK(segment != -1);
    if (IS("ftruncate"))
        return done(ipcd_ftruncate(segment, n("length")));
    if (IS("shm_write")) {
        size_t size = bytes_of("bytes", bytes);
        return ipcd_pwrite(segment, bytes, size, n("offset")) == (ssize_t) size ? done(0) : -1;
    }
    if (IS("shm_read")) {
        ssize_t size = ipcd_pread(segment, bytes, (size_t) n("length"), n("offset"));
        if (size >= 0)
            say_bytes("bytes", bytes, size);
        return size < 0 ? -1 : 0;
    }
    if (ipcd_fstat(segment, &status) < 0)
        return -1;
    printf("length=%ld uid=%u gid=%u mode=%u", (long) status.st_size, status.st_uid, status.st_gid,
           status.st_mode & 0777);
    return 0;
}

// 0 if the call has said what it answers, 1 if it has opened what has no number here, -1 if it is refused.
static int call(void)
{
    if (IS("msgget"))
        return number("identifier", ipcd_msgget((key_t) n("key"), (int) n("flags")));
    if (IS("semget"))
        return number("identifier", ipcd_semget((key_t) n("key"), (int) n("nsems"), (int) n("flags")));
    if (IS("shmget"))
        return number("identifier", ipcd_shmget((key_t) n("key"), (size_t) n("size"), (int) n("flags")));
    if (strncmp(words[0], "mq_", 3) == 0 || IS("close"))
        return posix_queues();
    if (strncmp(words[0], "sem_", 4) == 0)
        return named_semaphores();
    if (strncmp(words[0], "shm_", 4) == 0 || IS("ftruncate"))
        return named_segments();
    if (strncmp(words[0], "attached_", 9) == 0 || IS("shmdt"))
        return attachments();
    int id = (int) n("id");
    int result = queues(id);
    if (result == -2)
        result = sets(id);
    return result == -2 ? segments(id) : result;
}

int main(int arguments, char **argument)
{
    CHECK(arguments > 1);
    count = arguments - 1;
    words = argument + 1;
    umask(0);
    alarm(60);
    errno = 0;
    int result = call();
    CHECK(result >= -1);
    printf("%s", result == 1 ? "opened" : "");
    if (result == -1)
        printf("%d", errno);
    putchar('\n');
    return 0;
}
