// The files of segments that are mapped: their names, how they are made, and when they go. See mapped_segments.c.
#define _GNU_SOURCE
#include "segment_files.h"

#include <dirent.h>
#include <errno.h>
#include <fcntl.h>
#include <stdio.h>
#include <stdlib.h>
#include <string.h>
#include <sys/mman.h>
#include <sys/shm.h>
#include <sys/stat.h>
#include <unistd.h>

#include "memory.h"

enum { ROOM = 640 };

void name_boot(char *text)
{
    int file = open("/proc/sys/kernel/random/boot_id", O_RDONLY | O_CLOEXEC);
    ssize_t size = file < 0 ? 0 : read(file, text, BOOT);
    if (file >= 0)
        close(file);
    text[size < 0 ? 0 : size] = 0;
}

static void name_file(char *path, const struct ipcd *client, int shmid)
{
    char boot[BOOT + 1];
    name_boot(boot);
    snprintf(path, ROOM, "%s.pids/m%s.%d", client->path, boot, shmid);
}

static bool is_gone(int shmid)
{
    struct shmid_ds record;
    return ipcd_shmctl(shmid, IPC_STAT, &record) < 0 && (errno == EINVAL || errno == EIDRM);
}

// Removes the files of segments that are gone, and of other boots.
static void sweep(const struct ipcd *client)
{
    char path[ROOM], boot[BOOT + 1];
    name_boot(boot);
    snprintf(path, sizeof path, "%s.pids", client->path);
    DIR *folder = opendir(path);
    for (struct dirent *entry; folder != NULL && (entry = readdir(folder)) != NULL;) {
        const char *shmid = strchr(entry->d_name, '.');
        if (entry->d_name[0] != 'm' || shmid == NULL)
            continue;
        bool is_of_now = strncmp(entry->d_name + 1, boot, (size_t) (shmid - entry->d_name - 1)) == 0;
        snprintf(path, sizeof path, "%s.pids/%s", client->path, entry->d_name);
        if (!is_of_now || is_gone(atoi(shmid + 1)))
            unlink(path);
    }
    if (folder != NULL)
        closedir(folder);
}

void prepare_shared(struct shared *shared)
{
    pthread_mutexattr_t attributes;
    pthread_mutexattr_init(&attributes);
    pthread_mutexattr_setpshared(&attributes, PTHREAD_PROCESS_SHARED);
    pthread_mutexattr_setrobust(&attributes, PTHREAD_MUTEX_ROBUST);
    pthread_mutex_init(&shared->lock, &attributes);
    pthread_mutexattr_destroy(&attributes);
}

// Makes a file of zeros under another name first, so that it has its lock when it has its name. It is for each user who
// may enter the folder: whoever may connect may be any user to the server. 0, or -1.
static int make_file(const char *path, size_t length)
{
    char other[ROOM + 8];
    size_t page = (size_t) sysconf(_SC_PAGESIZE);
    struct shared *shared = MAP_FAILED;
    snprintf(other, sizeof other, "%s.XXXXXX", path);
    int file = mkostemp(other, O_CLOEXEC);
    if (file < 0)
        return -1;
    errno = fchmod(file, 0666) < 0 ? errno : posix_fallocate(file, 0, (off_t) length);
    if (errno == 0)
        shared = mmap(NULL, page, PROT_READ | PROT_WRITE, MAP_SHARED, file, (off_t) (length - page));
    close(file);
    int result = -1;
    if (shared != MAP_FAILED) {
        prepare_shared(shared);
        give_back(shared, page);
        result = link(other, path) == 0 || errno == EEXIST ? 0 : -1;
    }
    int error = errno;
    unlink(other);
    errno = error;
    return result;
}

// A file that is there, or -1. One of another length is of a segment of another device: it goes.
static int open_old(const char *path, size_t length)
{
    struct stat status;
    int file = open(path, O_RDWR | O_CLOEXEC | O_NOFOLLOW);
    if (file < 0 || (fstat(file, &status) == 0 && S_ISREG(status.st_mode) && status.st_size == (off_t) length))
        return file;
    close(file);
    if (unlink(path) == 0)
        errno = ENOENT;
    return -1;
}

int open_file(const struct ipcd *client, int shmid, size_t length)
{
    char path[ROOM];
    name_file(path, client, shmid);
    int file = open_old(path, length);
    if (file >= 0 || errno != ENOENT)
        return file;
    sweep(client);
    return make_file(path, length) < 0 ? -1 : open_old(path, length);
}

void forget_file(const struct ipcd *client, int shmid)
{
    char path[ROOM];
    int saved = errno;
    size_t page = (size_t) sysconf(_SC_PAGESIZE);
    struct stat status;
    name_file(path, client, shmid);
    int file = open(path, O_RDWR | O_CLOEXEC | O_NOFOLLOW);
    if (file < 0) {
        errno = saved;
        return;
    }
    bool is_one = fstat(file, &status) == 0 && status.st_size >= (off_t) (3 * page);
    struct shared *shared = MAP_FAILED;
    if (is_one)
        shared = mmap(NULL, page, PROT_READ | PROT_WRITE, MAP_SHARED, file, status.st_size - (off_t) page);
    close(file);
    if (shared != MAP_FAILED) {
        shared->is_removed = true;
        give_back(shared, page);
    }
    if (is_gone(shmid))
        unlink(path);
    errno = saved;
}
