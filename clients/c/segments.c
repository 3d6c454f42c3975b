// Segments with a name: shm_open(3), ftruncate(2), pread(2), pwrite(2), fstat(2), close(2).
#define _GNU_SOURCE
#include <errno.h>
#include <fcntl.h>
#include <string.h>
#include <sys/stat.h>

#include "client.h"
#include "handles.h"
#include "memory.h"

enum { RECORD = 20, BLOCK = 4096 };

static struct link *begin_on_segment(int fd, enum opcode opcode)
{
    return begin_on(current_client(), handle_of(fd), SEGMENT, EBADF, opcode);
}

int ipcd_shm_open(const char *name, int oflag, mode_t mode)
{
    struct wanted wanted = {.kind = SEGMENT, .flags = (uint32_t) oflag};
    if (oflag & O_CREAT)
        wanted.mode = masked(mode);
    int number = open_handle(current_client(), name, &wanted);
    return number < 0 ? -1 : FIRST_DESCRIPTOR + number;
}

int ipcd_shm_unlink(const char *name)
{
    return unlink_name(current_client(), name, SEGMENT, SHM_UNLINK);
}

int ipcd_close(int fd)
{
    return close_handle(current_client(), handle_of(fd), SEGMENT, EBADF);
}

int ipcd_ftruncate(int fd, off_t length)
{
    if (length < 0) {
        errno = EINVAL;
        return -1;
    }
    struct link *link = begin_on_segment(fd, SHM_FTRUNCATE);
    if (link == NULL)
        return -1;
    put_u64(link, (uint64_t) length);
    return end_empty(link, ANSWERED_AT_ONCE);
}

// Asks for bytes that all stand within the segment, else EINVAL.
static ssize_t read_within(int fd, void *buf, size_t count, off_t offset)
{
    struct link *link = begin_on_segment(fd, SHM_READ);
    if (link == NULL)
        return -1;
    put_u64(link, (uint64_t) offset);
    put_u32(link, (uint32_t) count);
    ssize_t size = link_exchange(link, ANSWERED_AT_ONCE, count, count);
    if (size > 0)
        memcpy(buf, link->body, (size_t) size);
    return end(link, size);
}

ssize_t ipcd_pread(int fd, void *buf, size_t count, off_t offset)
{
    struct stat segment;
    int saved = errno;
    if (count > PIECE_MOST)
        count = PIECE_MOST;
    if (offset < 0 || !is_writable(buf, count)) {
        errno = offset < 0 ? EINVAL : EFAULT;
        return -1;
    }
    ssize_t size = read_within(fd, buf, count, offset);
    if (size >= 0 || errno != EINVAL || ipcd_fstat(fd, &segment) < 0)
        return size;
    size_t left = segment.st_size > offset ? (size_t) (segment.st_size - offset) : 0;
    if (left >= count) {
        errno = EINVAL;
        return -1;
    }
    size = left == 0 ? 0 : read_within(fd, buf, left, offset);
    if (size >= 0)
        errno = saved;
    return size;
}

ssize_t ipcd_pwrite(int fd, const void *buf, size_t count, off_t offset)
{
    if (count > PIECE_MOST)
        count = PIECE_MOST;
    if (offset < 0) {
        errno = EINVAL;
        return -1;
    }
    struct link *link = begin_on_segment(fd, SHM_WRITE);
    if (link == NULL)
        return -1;
    put_u64(link, (uint64_t) offset);
    put_text(link, buf, count);
    return end_empty(link, ANSWERED_AT_ONCE) < 0 ? -1 : (ssize_t) count;
}

int ipcd_fstat(int fd, struct stat *statbuf)
{
    if (!is_writable(statbuf, sizeof *statbuf)) {
        errno = EFAULT;
        return -1;
    }
    struct link *link = begin_on_segment(fd, SHM_FSTAT);
    if (link == NULL)
        return -1;
    if (link_exchange(link, ANSWERED_AT_ONCE, RECORD, RECORD) < 0)
        return (int) end(link, -1);
    memset(statbuf, 0, sizeof *statbuf);
    statbuf->st_size = (off_t) read_u64(link->body);
    statbuf->st_uid = read_u32(link->body + 8);
    statbuf->st_gid = read_u32(link->body + 12);
    statbuf->st_mode = S_IFREG | (read_u32(link->body + 16) & 0777);
    statbuf->st_nlink = 1;
    statbuf->st_blksize = BLOCK;
    statbuf->st_blocks = (statbuf->st_size + 511) / 512;
    return (int) end(link, 0);
}
