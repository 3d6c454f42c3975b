// Segments of System V: shmget(2), shmctl(2), and attachments, by which they are read and written. What is mapped has a
// file of its own.
#define _GNU_SOURCE
#include <errno.h>
#include <string.h>
#include <sys/ipc.h>
#include <sys/shm.h>
#include <unistd.h>

#include "client.h"
#include "handles.h"
#include "info.h"
#include "memory.h"
#include "processes.h"
#include "segment_files.h"

enum { RECORD = 68 };

int ipcd_shmget(key_t key, size_t size, int shmflg)
{
    struct ipcd *client = current_client();
    struct link *link = begin(SHMGET);
    if (link == NULL)
        return -1;
    put_u32(link, (uint32_t) key);
    put_u64(link, size);
    put_u32(link, (uint32_t) shmflg);
    return noted(client, SEGMENTS, end_number(link));
}

static void read_record(const struct link *link, struct shmid_ds *record)
{
    const unsigned char *body = link->body;
    const char *socket = link->client->path;
    memset(record, 0, sizeof *record);
    record->shm_perm.__key = (key_t) read_u32(body);
    record->shm_perm.uid = read_u32(body + 4);
    record->shm_perm.gid = read_u32(body + 8);
    record->shm_perm.cuid = read_u32(body + 12);
    record->shm_perm.cgid = read_u32(body + 16);
    record->shm_perm.mode = (mode_t) read_u32(body + 20);
    record->shm_atime = (time_t) (read_u64(body + 24) / 1000);
    record->shm_dtime = (time_t) (read_u64(body + 32) / 1000);
    record->shm_ctime = (time_t) (read_u64(body + 40) / 1000);
    record->shm_cpid = system_pid(socket, &link->life, read_u32(body + 48));
    record->shm_lpid = system_pid(socket, &link->life, read_u32(body + 52));
    record->shm_nattch = read_u32(body + 56);
    record->shm_segsz = read_u64(body + 60);
}

static int stat_segment(int shmid, struct shmid_ds *buf)
{
    struct link *link = begin(SHM_IPC_STAT);
    if (link == NULL)
        return -1;
    put_u32(link, (uint32_t) shmid);
    if (link_exchange(link, ANSWERED_AT_ONCE, RECORD, RECORD) < 0)
        return (int) end(link, -1);
    if (!is_writable(buf, sizeof *buf)) {
        errno = EFAULT;
        return (int) end(link, -1);
    }
    read_record(link, buf);
    return (int) end(link, 0);
}

static int set_segment(int shmid, const struct shmid_ds *buf)
{
    if (!is_readable(buf, sizeof *buf)) {
        errno = EFAULT;
        return -1;
    }
    struct link *link = begin(SHM_IPC_SET);
    if (link == NULL)
        return -1;
    put_u32(link, (uint32_t) shmid);
    put_u32(link, buf->shm_perm.uid);
    put_u32(link, buf->shm_perm.gid);
    put_u32(link, buf->shm_perm.mode);
    return end_empty(link, ANSWERED_AT_ONCE);
}

static unsigned long pages_of(size_t size)
{
    size_t page = (size_t) sysconf(_SC_PAGESIZE);
    return (size + page - 1) / page;
}

static int add_segment(int shmid, void *counts)
{
    struct shm_info *info = counts;
    struct shmid_ds record;
    if (stat_segment(shmid, &record) < 0)
        return -1;
    info->shm_tot += pages_of(record.shm_segsz);
    return 0;
}

// The answer is 0: the greatest index of an object, of which SHM_STAT shows none.
static int tell_limits(int shmid, struct shminfo *buf)
{
    if (ask_for_info(shmid, buf, sizeof *buf) < 0)
        return -1;
    *buf = (struct shminfo){
        .shmmax = SHMMAX, .shmmin = 1, .shmmni = SHMMNI, .shmseg = ATTACHMENTS, .shmall = pages_of(SHMALL)};
    return 0;
}

static int tell_counts(int shmid, struct shm_info *buf)
{
    struct shm_info info = {0};
    if (ask_for_info(shmid, buf, sizeof *buf) < 0)
        return -1;
    if (count_each(current_client(), SEGMENTS, add_segment, &info, &info.used_ids) < 0)
        return -1;
    info.shm_rss = info.shm_tot;
    *buf = info;
    return 0;
}

int ipcd_shmctl(int shmid, int cmd, struct shmid_ds *buf)
{
    if (cmd == IPC_INFO)
        return tell_limits(shmid, (struct shminfo *) buf);
    if (cmd == SHM_INFO)
        return tell_counts(shmid, (struct shm_info *) buf);
    if (cmd == IPC_STAT)
        return stat_segment(shmid, buf);
    if (cmd == IPC_SET)
        return set_segment(shmid, buf);
    if (cmd != IPC_RMID) {
        errno = EINVAL;
        return -1;
    }
    struct link *link = begin(SHM_IPC_RMID);
    if (link == NULL)
        return -1;
    put_u32(link, (uint32_t) shmid);
    if (end_empty(link, ANSWERED_AT_ONCE) < 0)
        return -1;
    forget_file(current_client(), shmid);
    return 0;
}

int ipcd_shmattach(int shmid, int shmflg)
{
    struct wanted wanted = {.kind = ATTACHMENT, .flags = (uint32_t) shmflg, .shmid = (uint32_t) shmid};
    int number = attach_handle(current_client(), &wanted);
    return number < 0 ? -1 : FIRST_DESCRIPTOR + number;
}

int ipcd_shmdetach(int attachment)
{
    return close_handle(current_client(), handle_of(attachment), ATTACHMENT, EINVAL);
}

static struct link *begin_on_attachment(int attachment, off_t offset, enum opcode opcode)
{
    if (offset < 0) {
        errno = EINVAL;
        return NULL;
    }
    struct link *link = begin_on(current_client(), handle_of(attachment), ATTACHMENT, EBADF, opcode);
    if (link != NULL)
        put_u64(link, (uint64_t) offset);
    return link;
}

ssize_t ipcd_shmread(int attachment, void *buf, size_t count, off_t offset)
{
    if (count > PIECE_MOST)
        count = PIECE_MOST;
    if (!is_writable(buf, count)) {
        errno = EFAULT;
        return -1;
    }
    struct link *link = begin_on_attachment(attachment, offset, ATTACHED_READ);
    if (link == NULL)
        return -1;
    put_u32(link, (uint32_t) count);
    ssize_t size = link_exchange(link, ANSWERED_AT_ONCE, count, count);
    if (size > 0)
        memcpy(buf, link->body, (size_t) size);
    return end(link, size);
}

ssize_t ipcd_shmwrite(int attachment, const void *buf, size_t count, off_t offset)
{
    if (count > PIECE_MOST)
        count = PIECE_MOST;
    struct link *link = begin_on_attachment(attachment, offset, ATTACHED_WRITE);
    if (link == NULL)
        return -1;
    put_text(link, buf, count);
    return end_empty(link, ANSWERED_AT_ONCE) < 0 ? -1 : (ssize_t) count;
}
