// Message queues: what msgget(2), msgop(2) and msgctl(2) say, on the kernel's objects and on a server's.
#define _GNU_SOURCE
#include <limits.h>
#include <sys/ipc.h>
#include <sys/mman.h>
#include <sys/msg.h>

#include "check.h"

struct message {
    long type;
    char text[65540];
};

static struct message buffer;

static int send_text(int queue, long type, const char *text, int flags)
{
    buffer.type = type;
    memcpy(buffer.text, text, strlen(text));
    return msgsnd(queue, &buffer, strlen(text), flags);
}

// The next message of a type is this.
static bool comes(int queue, long wanted, long type, const char *text, int flags)
{
    memset(&buffer, 0, sizeof buffer);
    ssize_t size = msgrcv(queue, &buffer, 8192, wanted, flags | IPC_NOWAIT);
    return size == (ssize_t) strlen(text) && buffer.type == type && memcmp(buffer.text, text, (size_t) size) == 0;
}

static void makes_and_finds(void)
{
    int queue = msgget(0x69706301, IPC_CREAT | IPC_EXCL | 0600);
    CHECK(queue >= 0);
    CHECK(msgget(0x69706301, 0) == queue);
    CHECK(msgget(0x69706301, IPC_CREAT | 0600) == queue);
    REFUSED(msgget(0x69706301, IPC_CREAT | IPC_EXCL | 0600), EEXIST);
    REFUSED(msgget(0x69706302, 0600), ENOENT);
    int other = msgget(IPC_PRIVATE, 0600);
    CHECK(other >= 0 && other != queue);
    CHECK(msgctl(other, IPC_RMID, NULL) == 0);
    REFUSED(msgctl(other, IPC_RMID, NULL), EINVAL);
    REFUSED(send_text(other, 1, "gone", 0), EINVAL);
    REFUSED(msgrcv(other, &buffer, 8, 0, IPC_NOWAIT), EINVAL);
    CHECK(msgctl(queue, IPC_RMID, NULL) == 0);
    REFUSED(msgget(0x69706301, 0600), ENOENT);
}

static void takes_by_type(int queue)
{
    errno = 77;
    CHECK(send_text(queue, 3, "three", 0) == 0);
    CHECK(errno == 77);
    CHECK(send_text(queue, 1, "one", 0) == 0);
    CHECK(send_text(queue, 2, "two", 0) == 0);
    CHECK(send_text(queue, 9, "", 0) == 0);
    CHECK(comes(queue, 2, 2, "two", 0));
    CHECK(comes(queue, -5, 1, "one", 0));
    CHECK(comes(queue, 3, 9, "", MSG_EXCEPT));
    REFUSED(msgrcv(queue, &buffer, 8192, 7, IPC_NOWAIT), ENOMSG);
    REFUSED(msgrcv(queue, &buffer, 4, 0, IPC_NOWAIT), E2BIG);
    CHECK(comes(queue, 0, 3, "three", 0));
    REFUSED(msgrcv(queue, &buffer, 8192, 0, IPC_NOWAIT), ENOMSG);
    CHECK(send_text(queue, LONG_MAX, "abcdef", 0) == 0);
    CHECK(msgrcv(queue, &buffer, 4, 0, MSG_NOERROR) == 4);
    CHECK(buffer.type == LONG_MAX && memcmp(buffer.text, "abcd", 4) == 0);
    REFUSED(msgrcv(queue, &buffer, 8192, 0, IPC_NOWAIT), ENOMSG);
}

static void refuses_what_is_wrong(int queue)
{
    REFUSED(send_text(queue, 0, "no type", 0), EINVAL);
    REFUSED(send_text(queue, -1, "no type", 0), EINVAL);
    buffer.type = 1;
    REFUSED(msgsnd(queue, &buffer, 65537, 0), EINVAL);
    REFUSED(msgsnd(queue, &buffer, (size_t) -1, 0), EINVAL);
    REFUSED(msgrcv(queue, &buffer, (size_t) -1, 0, IPC_NOWAIT), EINVAL);
    REFUSED(msgsnd(-1, &buffer, 1, 0), EINVAL);
    REFUSED(msgget(-1, 0600), ENOENT);
    REFUSED(msgctl(queue, 99, NULL), EINVAL);
    REFUSED(msgrcv(queue, &buffer, 8, 0, MSG_COPY), EINVAL);
    REFUSED(msgrcv(queue, &buffer, 8, 0, MSG_COPY | MSG_EXCEPT | IPC_NOWAIT), EINVAL);
    if (!is_on_kernel()) {
        CHECK(send_text(queue, 4, "stays", 0) == 0);
        REFUSED(msgrcv(queue, &buffer, 8, 0, MSG_COPY | IPC_NOWAIT), ENOSYS);
        CHECK(comes(queue, 0, 4, "stays", 0));
    }
}

// The kernel's queues take 16384 bytes, and texts of 8192, unless they are told otherwise; a server's take 65536 of both.
static void fills(int queue)
{
    struct msqid_ds record;
    CHECK(msgctl(queue, IPC_STAT, &record) == 0);
    record.msg_qbytes = 16384;
    CHECK(msgctl(queue, IPC_SET, &record) == 0);
    buffer.type = 5;
    memset(buffer.text, 'x', sizeof buffer.text);
    CHECK(msgsnd(queue, &buffer, 8192, IPC_NOWAIT) == 0);
    CHECK(msgsnd(queue, &buffer, 8192, IPC_NOWAIT) == 0);
    REFUSED(msgsnd(queue, &buffer, 1, IPC_NOWAIT), EAGAIN);
    for (int i = 0; i < 2; i++) {
        memset(&buffer, 0, sizeof buffer);
        CHECK(msgrcv(queue, &buffer, 8192, 0, IPC_NOWAIT) == 8192);
        CHECK(buffer.type == 5 && buffer.text[0] == 'x' && buffer.text[8191] == 'x' && buffer.text[8192] == 0);
    }
}

static void takes_the_longest(int queue)
{
    buffer.type = 5;
    memset(buffer.text, 'y', sizeof buffer.text);
    CHECK(msgsnd(queue, &buffer, 65536, IPC_NOWAIT) == 0);
    REFUSED(msgsnd(queue, &buffer, 1, IPC_NOWAIT), EAGAIN);
    memset(&buffer, 0, sizeof buffer);
    CHECK(msgrcv(queue, &buffer, 65540, 0, IPC_NOWAIT) == 65536);
    CHECK(buffer.type == 5 && buffer.text[0] == 'y' && buffer.text[65535] == 'y' && buffer.text[65536] == 0);
}

static void is_recent(time_t time)
{
    CHECK(time >= 1600000000 && labs((long) (time - moment(CLOCK_REALTIME, 0).tv_sec)) <= 5);
}

static void tells_of_itself(int queue)
{
    struct msqid_ds record;
    memset(&record, 0xff, sizeof record);
    CHECK(msgctl(queue, IPC_STAT, &record) == 0);
    CHECK(record.msg_perm.uid == geteuid() && record.msg_perm.gid == getegid());
    CHECK(record.msg_perm.cuid == geteuid() && record.msg_perm.cgid == getegid());
    CHECK((record.msg_perm.mode & 0777) == 0640 && record.msg_perm.__key == 0x69706303);
    CHECK(record.msg_qnum == 0 && record.__msg_cbytes == 0 && record.msg_qbytes == (is_on_kernel() ? 16384 : 65536));
    CHECK(record.msg_stime == 0 && record.msg_rtime == 0 && record.msg_lspid == 0 && record.msg_lrpid == 0);
    is_recent(record.msg_ctime);
    CHECK(send_text(queue, 1, "seven b", 0) == 0);
    CHECK(send_text(queue, 1, "abc", 0) == 0);
    CHECK(comes(queue, 0, 1, "abc", 0) || comes(queue, 0, 1, "abc", 0));
    CHECK(send_text(queue, 1, "abcd", 0) == 0);
    CHECK(msgctl(queue, IPC_STAT, &record) == 0);
    CHECK(record.msg_qnum == 1 && record.__msg_cbytes == 4);
    CHECK(record.msg_lspid == getpid() && record.msg_lrpid == getpid());
    is_recent(record.msg_stime);
    is_recent(record.msg_rtime);
    record.msg_qbytes = 100;
    record.msg_perm.mode = 0600;
    CHECK(msgctl(queue, IPC_SET, &record) == 0);
    memset(&record, 0, sizeof record);
    CHECK(msgctl(queue, IPC_STAT, &record) == 0);
    CHECK(record.msg_qbytes == 100 && (record.msg_perm.mode & 0777) == 0600);
    CHECK(comes(queue, 0, 1, "abcd", 0));
}

// An address of no memory, and memory that may only be read, whose page before may be written.
static void refuses_bad_addresses(int queue)
{
    char *pages = mmap(NULL, 8192, PROT_READ | PROT_WRITE, MAP_PRIVATE | MAP_ANONYMOUS, -1, 0);
    CHECK(pages != MAP_FAILED && mprotect(pages + 4096, 4096, PROT_NONE) == 0);
    REFUSED(msgsnd(queue, (void *) 8, 1, 0), EFAULT);
    REFUSED(msgsnd(queue, NULL, 0, 0), EFAULT);
    *(long *) (pages + 4080) = 1;
    REFUSED(msgsnd(queue, pages + 4080, 9, 0), EFAULT);
    CHECK(msgsnd(queue, pages + 4080, 8, 0) == 0);
    CHECK(msgrcv(queue, pages + 4080, 2000, 0, 0) == 8);
    CHECK(send_text(queue, 1, "too long for it", 0) == 0);
    REFUSED(msgrcv(queue, pages + 4080, 2000, 0, 0), EFAULT);
    REFUSED(msgrcv(queue, &buffer, 2000, 0, IPC_NOWAIT), ENOMSG);
    REFUSED(msgctl(queue, IPC_STAT, (void *) 8), EFAULT);
    REFUSED(msgctl(queue, IPC_SET, (void *) 8), EFAULT);
    munmap(pages, 8192);
}

// The limits of a server are those of docs/PROTOCOL.md, and its counts those of the queues that this process has got.
static void has_info(int queue)
{
    struct msginfo info;
    void *place = &info;
    int other = msgget(IPC_PRIVATE, 0600), gone = msgget(IPC_PRIVATE, 0600);
    CHECK(other >= 0 && gone >= 0 && msgctl(gone, IPC_RMID, NULL) == 0);
    CHECK(send_text(queue, 1, "four", 0) == 0 && send_text(other, 1, "eightone", 0) == 0);
    CHECK(send_text(other, 2, "", 0) == 0);
    memset(&info, 0xff, sizeof info);
    errno = 77;
    CHECK(msgctl(0, IPC_INFO, place) >= 0 && errno == 77);
    if (is_on_kernel())
        CHECK(info.msgmni > 0 && info.msgmax > 0 && info.msgmnb > 0 && info.msgpool > 0 && info.msgtql > 0);
    else
        CHECK(info.msgmni == 64 && info.msgmax == 65536 && info.msgmnb == 65536 && info.msgpool == 4096);
    struct msginfo limits = info;
    memset(&info, 0xff, sizeof info);
    errno = 77;
    CHECK(msgctl(12345, MSG_INFO, place) >= 0 && errno == 77);
    CHECK(info.msgmni == limits.msgmni && info.msgmax == limits.msgmax && info.msgmnb == limits.msgmnb);
    // The kernel's are also those of others.
    if (is_on_kernel())
        CHECK(info.msgpool >= 2 && info.msgmap >= 3 && info.msgtql >= 12);
    else
        CHECK(info.msgpool == 2 && info.msgmap == 3 && info.msgtql == 12);
    REFUSED(msgctl(-1, IPC_INFO, place), EINVAL);
    REFUSED(msgctl(-1, MSG_INFO, place), EINVAL);
    if (tries_bad_addresses()) {
        REFUSED(msgctl(0, IPC_INFO, (void *) 8), EFAULT);
        REFUSED(msgctl(0, MSG_INFO, (void *) 8), EFAULT);
    }
    CHECK(comes(queue, 0, 1, "four", 0) && msgctl(other, IPC_RMID, NULL) == 0);
}

static void remove_soon(void *queue)
{
    pause_for(0.2);
    CHECK(msgctl(*(int *) queue, IPC_RMID, NULL) == 0);
}

static void send_soon(void *queue)
{
    pause_for(0.2);
    CHECK(send_text(*(int *) queue, 8, "at last", 0) == 0);
}

static void waits(int queue)
{
    pid_t child = start(send_soon, &queue);
    CHECK(msgrcv(queue, &buffer, 100, 8, 0) == 7 && memcmp(buffer.text, "at last", 7) == 0);
    ends_well(child);
    struct msqid_ds record;
    CHECK(msgctl(queue, IPC_STAT, &record) == 0 && record.msg_lrpid == getpid());
    child = start(remove_soon, &queue);
    REFUSED(msgrcv(queue, &buffer, 100, 8, 0), EIDRM);
    ends_well(child);
}

// Removes what a run before this has left.
static void clear(key_t key)
{
    int queue = msgget(key, 0);
    if (queue >= 0)
        msgctl(queue, IPC_RMID, NULL);
}

int main(void)
{
    alarm(60);
    clear(0x69706301), clear(0x69706303);
    makes_and_finds();
    int queue = msgget(0x69706303, IPC_CREAT | IPC_EXCL | 0640);
    CHECK(queue >= 0);
    takes_by_type(queue);
    refuses_what_is_wrong(queue);
    fills(queue);
    CHECK(msgctl(queue, IPC_RMID, NULL) == 0);
    queue = msgget(0x69706303, IPC_CREAT | IPC_EXCL | 0640);
    CHECK(queue >= 0);
    if (!is_on_kernel()) {
        takes_the_longest(queue);
        CHECK(msgctl(queue, IPC_RMID, NULL) == 0);
        queue = msgget(0x69706303, IPC_CREAT | IPC_EXCL | 0640);
        CHECK(queue >= 0);
    }
    tells_of_itself(queue);
    has_info(queue);
    if (tries_bad_addresses())
        refuses_bad_addresses(queue);
    waits(queue);
    return 0;
}
