// Segments: what shm_overview(7) says, by reads and writes; and connections of a program's own.
#define _GNU_SOURCE
#include <fcntl.h>
#include <sys/ipc.h>
#include <sys/msg.h>
#include <sys/stat.h>

#include "../ipcd.h"
#include "check.h"

static char buffer[9000];

static void keeps_bytes(void)
{
    struct stat status;
    REFUSED(ipcd_shm_open("/ipcd_m", O_RDWR, 0600), ENOENT);
    int segment = ipcd_shm_open("/ipcd_m", O_RDWR | O_CREAT | O_EXCL, 0640);
    CHECK(segment >= 0);
    REFUSED(ipcd_shm_open("/ipcd_m", O_RDWR | O_CREAT | O_EXCL, 0600), EEXIST);
    CHECK(ipcd_pread(segment, buffer, 10, 0) == 0);
    REFUSED(ipcd_pwrite(segment, "ab", 2, 0), EINVAL);
    CHECK(ipcd_ftruncate(segment, 10000) == 0);
    CHECK(ipcd_fstat(segment, &status) == 0 && status.st_size == 10000 && (status.st_mode & 0777) == 0640);
    CHECK(status.st_uid == geteuid() && status.st_gid == getegid() && S_ISREG(status.st_mode));
    CHECK(ipcd_pwrite(segment, "ab", 2, 9998) == 2);
    REFUSED(ipcd_pwrite(segment, "ab", 2, 9999), EINVAL);
    memset(buffer, 'x', sizeof buffer);
    errno = 77;
    CHECK(ipcd_pread(segment, buffer, 100, 9996) == 4 && memcmp(buffer, "\0\0abx", 5) == 0);
    CHECK(errno == 77);
    CHECK(ipcd_pread(segment, buffer, 9000, 0) == 8192 && ipcd_pread(segment, buffer, 5, 10000) == 0);
    CHECK(ipcd_pread(segment, buffer, 5, 20000) == 0 && ipcd_pread(segment, buffer, 0, 0) == 0);
    memset(buffer, 'y', sizeof buffer);
    CHECK(ipcd_pwrite(segment, buffer, 9000, 0) == 8192);
    CHECK(ipcd_pread(segment, buffer, 2, 8191) == 2 && memcmp(buffer, "y\0", 2) == 0);
    REFUSED(ipcd_pread(segment, buffer, 1, -1), EINVAL);
    REFUSED(ipcd_ftruncate(segment, -1), EINVAL);
    REFUSED(ipcd_ftruncate(segment, (off_t) 1 << 40), ENOSPC);
    int reader = ipcd_shm_open("ipcd_m", O_RDONLY, 0);
    CHECK(reader >= 0 && reader != segment);
    REFUSED(ipcd_pwrite(reader, "a", 1, 0), EBADF);
    REFUSED(ipcd_ftruncate(reader, 1), EBADF);
    CHECK(ipcd_close(reader) == 0 && ipcd_close(segment) == 0);
    REFUSED(ipcd_close(segment), EBADF);
    REFUSED(ipcd_pread(segment, buffer, 1, 0), EBADF);
    CHECK(ipcd_shm_unlink("/ipcd_m") == 0);
    REFUSED(ipcd_shm_unlink("/ipcd_m"), ENOENT);
}

// Each connection is a process of its own, with descriptors of its own.
static void has_connections(void)
{
    struct ipcd *one = ipcd_connect(getenv("IPCD_SOCKET")), *two = ipcd_connect(NULL);
    CHECK(one != NULL && two != NULL && ipcd_connect("/nonexistent/socket") == NULL && errno == ECONNREFUSED);
    CHECK(ipcd_use(one) == NULL);
    int segment = ipcd_shm_open("/ipcd_n", O_RDWR | O_CREAT, 0600);
    CHECK(segment >= 0 && ipcd_ftruncate(segment, 3) == 0 && ipcd_pwrite(segment, "abc", 3, 0) == 3);
    CHECK(ipcd_use(two) == one);
    REFUSED(ipcd_pread(segment, buffer, 3, 0), EBADF);
    segment = ipcd_shm_open("/ipcd_n", O_RDONLY, 0);
    CHECK(ipcd_pread(segment, buffer, 3, 0) == 3 && memcmp(buffer, "abc", 3) == 0);
    CHECK(ipcd_shm_unlink("/ipcd_n") == 0);
    ipcd_disconnect(one);
    CHECK(ipcd_pread(segment, buffer, 3, 0) == 3);
    ipcd_disconnect(two);
    REFUSED(ipcd_pread(segment, buffer, 3, 0), EBADF);
    REFUSED(ipcd_msgget(0x69706351, 0), ENOENT);
}

int main(void)
{
    alarm(60);
    keeps_bytes();
    has_connections();
    return 0;
}
