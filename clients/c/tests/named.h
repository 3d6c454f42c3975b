// Makes a test of mapped segments of System V one of segments of shm_open(3): an identifier is a descriptor there.
#ifndef IPCD_TESTS_NAMED_H
#define IPCD_TESTS_NAMED_H

#define _GNU_SOURCE
#include <errno.h>
#include <fcntl.h>
#include <stddef.h>
#include <sys/ipc.h>
#include <sys/mman.h>
#include <sys/shm.h>
#include <sys/stat.h>
#include <unistd.h>

#define NAMED "/ipcd_mapped"
enum { NAMED_SIZE = 10000 };

// One that is there keeps its length, and so its bytes.
static inline int named_get(size_t size)
{
    struct stat status;
    int fd = shm_open(NAMED, O_RDWR | O_CREAT, 0600);
    if (fd >= 0 && fstat(fd, &status) == 0 && status.st_size == 0 && ftruncate(fd, (off_t) size) < 0)
        return -1;
    return fd;
}

static inline void *named_attach(int fd, int flags)
{
    int protection = flags & SHM_RDONLY ? PROT_READ : PROT_READ | PROT_WRITE;
    void *made = mmap(NULL, NAMED_SIZE, protection, MAP_SHARED, fd, 0);
    close(fd);
    return made;
}

// Of the commands of shmctl(2) only whether it is there, and that it is to be removed.
static inline int named_control(int command)
{
    if (command == IPC_RMID)
        return shm_unlink(NAMED);
    int fd = shm_open(NAMED, O_RDONLY, 0);
    if (fd >= 0)
        return close(fd);
    errno = errno == ENOENT ? EINVAL : errno;
    return -1;
}

#define shmget(key, size, flags) ((void) (key), named_get(size))
#define shmat(fd, address, flags) named_attach(fd, flags)
#define shmdt(address) munmap((void *) (address), NAMED_SIZE)
#define shmctl(fd, command, record) ((void) (fd), (void) (record), named_control(command))

#endif
