// Message queues: msgget(2), msgop(2), msgctl(2).
#define _GNU_SOURCE
#include <errno.h>
#include <limits.h>
#include <string.h>
#include <sys/ipc.h>
#include <sys/msg.h>

#include "client.h"
#include "info.h"
#include "memory.h"
#include "processes.h"

enum { RECORD = 68 };

int ipcd_msgget(key_t key, int msgflg)
{
    struct ipcd *client = current_client();
    struct link *link = begin(MSGGET);
    if (link == NULL)
        return -1;
    put_u32(link, (uint32_t) key);
    put_u32(link, (uint32_t) msgflg);
    return noted(client, QUEUES, end_number(link));
}

static enum waiting kind_of_wait(int msgflg)
{
    return msgflg & IPC_NOWAIT ? ANSWERED_AT_ONCE : ENDED_BY_HANDLERS;
}

int ipcd_msgsnd(int msqid, const void *msgp, size_t msgsz, int msgflg)
{
    long type;
    if (msgsz > TEXT_MOST) {
        errno = EINVAL;
        return -1;
    }
    bool is_short = is_in_page(msgp, sizeof type + msgsz);
    if (!is_readable(msgp, is_short ? sizeof type + msgsz : sizeof type)) {
        errno = EFAULT;
        return -1;
    }
    struct link *link = begin(MSGSND);
    if (link == NULL)
        return -1;
    memcpy(&type, msgp, sizeof type);
    put_u32(link, (uint32_t) msqid);
    put_u32(link, (uint32_t) msgflg);
    put_u64(link, (uint64_t) type);
    if (is_short)
        put_bytes(link, (const char *) msgp + sizeof type, msgsz);
    else
        put_text(link, (const char *) msgp + sizeof type, msgsz);
    return end_empty(link, kind_of_wait(msgflg));
}

static int refusal_of_receive(size_t msgsz, int msgflg)
{
    if (msgflg & MSG_COPY)
        return (msgflg & IPC_NOWAIT) && !(msgflg & MSG_EXCEPT) ? ENOSYS : EINVAL;
    return msgsz > INT_MAX ? EINVAL : 0;
}

ssize_t ipcd_msgrcv(int msqid, void *msgp, size_t msgsz, long msgtyp, int msgflg)
{
    int refusal = refusal_of_receive(msgsz, msgflg);
    if (refusal != 0) {
        errno = refusal;
        return -1;
    }
    struct link *link = begin(MSGRCV);
    if (link == NULL)
        return -1;
    put_u32(link, (uint32_t) msqid);
    put_u32(link, (uint32_t) msgflg);
    put_u32(link, (uint32_t) msgsz);
    put_u64(link, (uint64_t) msgtyp);
    size_t most = msgsz < TEXT_MOST ? msgsz : TEXT_MOST;
    read_into(link, msgp, sizeof(long) + most);
    ssize_t size = link_exchange(link, kind_of_wait(msgflg), 8, 8 + most);
    if (size < 0)
        return end(link, -1);
    // The message is taken, as the kernel's is when its buffer turns out to be bad.
    if (link->placed == 0 && !is_writable(msgp, (size_t) size)) {
        errno = EFAULT;
        return end(link, -1);
    }
    if (link->placed == 0)
        memcpy(msgp, link->body, (size_t) size);
    long type = (long) read_u64(msgp);
    memcpy(msgp, &type, sizeof type);
    return end(link, size - 8);
}

static void read_record(const struct link *link, struct msqid_ds *record)
{
    const unsigned char *body = link->body;
    const char *socket = link->client->path;
    memset(record, 0, sizeof *record);
    record->msg_perm.__key = (key_t) read_u32(body);
    record->msg_perm.uid = read_u32(body + 4);
    record->msg_perm.gid = read_u32(body + 8);
    record->msg_perm.cuid = read_u32(body + 12);
    record->msg_perm.cgid = read_u32(body + 16);
    record->msg_perm.mode = (mode_t) read_u32(body + 20);
    record->msg_stime = (time_t) (read_u64(body + 24) / 1000);
    record->msg_rtime = (time_t) (read_u64(body + 32) / 1000);
    record->msg_ctime = (time_t) (read_u64(body + 40) / 1000);
    record->msg_lspid = system_pid(socket, &link->life, read_u32(body + 48));
    record->msg_lrpid = system_pid(socket, &link->life, read_u32(body + 52));
    record->msg_qbytes = read_u32(body + 56);
    record->msg_qnum = read_u32(body + 60);
    record->__msg_cbytes = read_u32(body + 64);
}

static int stat_queue(int msqid, struct msqid_ds *buf)
{
    struct link *link = begin(MSG_IPC_STAT);
    if (link == NULL)
        return -1;
    put_u32(link, (uint32_t) msqid);
    if (link_exchange(link, ANSWERED_AT_ONCE, RECORD, RECORD) < 0)
        return (int) end(link, -1);
    if (!is_writable(buf, sizeof *buf)) {
        errno = EFAULT;
        return (int) end(link, -1);
    }
    read_record(link, buf);
    return (int) end(link, 0);
}

static int set_queue(int msqid, const struct msqid_ds *buf)
{
    if (!is_readable(buf, sizeof *buf)) {
        errno = EFAULT;
        return -1;
    }
    struct link *link = begin(MSG_IPC_SET);
    if (link == NULL)
        return -1;
    put_u32(link, (uint32_t) msqid);
    put_u32(link, buf->msg_perm.uid);
    put_u32(link, buf->msg_perm.gid);
    put_u32(link, buf->msg_perm.mode);
    put_u32(link, buf->msg_qbytes > UINT32_MAX ? UINT32_MAX : (uint32_t) buf->msg_qbytes);
    return end_empty(link, ANSWERED_AT_ONCE);
}

static int add_queue(int msqid, void *counts)
{
    struct msginfo *info = counts;
    struct msqid_ds record;
    if (stat_queue(msqid, &record) < 0)
        return -1;
    info->msgmap += (int) record.msg_qnum;
    info->msgtql += (int) record.__msg_cbytes;
    return 0;
}

// The answer is 0: the greatest index of an object, of which MSG_STAT shows none.
static int tell_info(int msqid, int cmd, struct msginfo *buf)
{
    struct msginfo info = {.msgmni = MSGMNI, .msgmax = MSGMAX, .msgmnb = MSGMNB, .msgssz = 16, .msgseg = USHRT_MAX};
    if (ask_for_info(msqid, buf, sizeof *buf) < 0)
        return -1;
    if (cmd == IPC_INFO) {
        info.msgpool = MSGMNI * (MSGMNB / 1024);
        info.msgmap = info.msgtql = MSGMNI * MSGMNB;
    } else if (count_each(current_client(), QUEUES, add_queue, &info, &info.msgpool) < 0)
        return -1;
    *buf = info;
    return 0;
}

int ipcd_msgctl(int msqid, int cmd, struct msqid_ds *buf)
{
    if (cmd == IPC_INFO || cmd == MSG_INFO)
        return tell_info(msqid, cmd, (struct msginfo *) buf);
    if (cmd == IPC_STAT)
        return stat_queue(msqid, buf);
    if (cmd == IPC_SET)
        return set_queue(msqid, buf);
    if (cmd != IPC_RMID) {
        errno = EINVAL;
        return -1;
    }
    struct link *link = begin(MSG_IPC_RMID);
    if (link == NULL)
        return -1;
    put_u32(link, (uint32_t) msqid);
    return end_empty(link, ANSWERED_AT_ONCE);
}
