// The files of segments of shm_open(3) that are mapped, see named_files.h.
#define _GNU_SOURCE
#include "named_files.h"

#include <dirent.h>
#include <errno.h>
#include <fcntl.h>
#include <stdio.h>
#include <string.h>
#include <sys/file.h>
#include <sys/mman.h>
#include <sys/stat.h>
#include <unistd.h>

#include "memory.h"
#include "places.h"

// Milliseconds, and where the numbers of descriptors begin: programs count on low ones.
enum { ROOM = 640, PATIENT = 2000, OUT_OF_THE_WAY = 200 };

static size_t page(void)
{
    return (size_t) sysconf(_SC_PAGESIZE);
}

static void name_file(char *path, const struct ipcd *client, char kind, const char *name)
{
    char boot[BOOT + 1];
    name_boot(boot);
    unsigned long long hash = (unsigned long long) hash_of(name, strlen(name));
    snprintf(path, ROOM, "%s.pids/%c%s.%016llx", client->path, kind, boot, hash);
}

// Those of other boots are nobody's.
static void sweep(const struct ipcd *client)
{
    char path[ROOM], boot[BOOT + 1];
    name_boot(boot);
    snprintf(path, sizeof path, "%s.pids", client->path);
    DIR *folder = opendir(path);
    for (struct dirent *entry; folder != NULL && (entry = readdir(folder)) != NULL;) {
        bool is_one = (*entry->d_name == 'n' || *entry->d_name == 'k') && strchr(entry->d_name, '.') != NULL;
        if (!is_one || strncmp(entry->d_name + 1, boot, strlen(boot)) == 0)
            continue;
        snprintf(path, sizeof path, "%s.pids/%s", client->path, entry->d_name);
        unlink(path);
    }
    if (folder != NULL)
        closedir(folder);
}

static int move_away(int file)
{
    int moved = file < 0 ? -1 : fcntl(file, F_DUPFD_CLOEXEC, OUT_OF_THE_WAY);
    if (moved < 0)
        return file;
    close(file);
    return moved;
}

int lock_folder(const struct ipcd *client)
{
    char path[ROOM];
    snprintf(path, sizeof path, "%s.pids", client->path);
    int folder = move_away(open(path, O_RDONLY | O_DIRECTORY | O_CLOEXEC));
    // A process that is stopped keeps the lock, and is not waited for longer.
    for (int i = 0; i < PATIENT && folder >= 0 && flock(folder, LOCK_EX | LOCK_NB) < 0; i++)
        pause_shortly();
    return folder;
}

// It has its lock when it has its name, and so on: the folder is locked.
static int make_shared(const char *path, const char *name)
{
    struct shared *shared = MAP_FAILED;
    int file = open(path, O_RDWR | O_CREAT | O_EXCL | O_CLOEXEC | O_NOFOLLOW, 0600);
    if (file < 0)
        return -1;
    errno = posix_fallocate(file, 0, (off_t) page());
    if (errno == 0 && ftruncate(file, (off_t) (page() + SHMMAX)) == 0)
        shared = mmap(NULL, page(), PROT_READ | PROT_WRITE, MAP_SHARED, file, 0);
    bool is_made = shared != MAP_FAILED && fchmod(file, 0666) == 0;
    if (is_made) {
        prepare_shared(shared);
        strcpy(shared->name, name);
    }
    int error = errno;
    if (shared != MAP_FAILED)
        give_back(shared, page());
    if (is_made)
        return file;
    unlink(path);
    close(file);
    errno = error;
    return -1;
}

// Maps what is shared. Two names of one hash are told apart.
static bool map_shared(struct named_files *files, const char *name)
{
    struct stat status;
    if (fstat(files->lock, &status) < 0 || status.st_size != (off_t) (page() + SHMMAX)) {
        errno = EIO;
        return false;
    }
    void *made = mmap(NULL, page() + SHMMAX, PROT_READ | PROT_WRITE, MAP_SHARED, files->lock, 0);
    if (made == MAP_FAILED)
        return false;
    files->shared = made;
    files->known = (unsigned char *) made + page();
    if (strncmp(files->shared->name, name, sizeof files->shared->name) == 0)
        return true;
    errno = EIO;
    return false;
}

// The bytes: a file for all who may enter the folder. A page past its end is there as soon as it is longer.
static bool open_and_map_bytes(struct named_files *files, const char *path)
{
    // With O_CREAT the system may refuse another user's, though it is there.
    int file = open(path, O_RDWR | O_CLOEXEC | O_NOFOLLOW);
    if (file < 0 && errno == ENOENT)
        file = open(path, O_RDWR | O_CREAT | O_EXCL | O_CLOEXEC | O_NOFOLLOW, 0600);
    files->file = move_away(file);
    struct stat status;
    if (files->file < 0 || fstat(files->file, &status) < 0)
        return false;
    if ((status.st_mode & 0777) != 0666 && fchmod(files->file, 0666) < 0)
        return false;
    void *made = mmap(NULL, SHMMAX, PROT_READ | PROT_WRITE, MAP_SHARED, files->file, 0);
    files->bytes = made == MAP_FAILED ? NULL : made;
    return made != MAP_FAILED;
}

void close_named_files(struct named_files *files)
{
    int saved = errno;
    if (files->bytes != NULL)
        give_back(files->bytes, SHMMAX);
    if (files->shared != NULL)
        give_back(files->shared, page() + SHMMAX);
    if (files->lock >= 0)
        close(files->lock);
    if (files->file >= 0)
        close(files->file);
    *files = (struct named_files){.lock = -1, .file = -1};
    errno = saved;
}

void remove_named_files(const struct ipcd *client, const char *name)
{
    char path[ROOM];
    int saved = errno;
    name_file(path, client, 'n', name);
    unlink(path);
    name_file(path, client, 'k', name);
    unlink(path);
    errno = saved;
}

void give_mode(const struct ipcd *client, const char *name, mode_t mode)
{
    char path[ROOM];
    int saved = errno;
    name_file(path, client, 'n', name);
    chmod(path, mode);
    errno = saved;
}

bool look_at_named_files(const struct ipcd *client, const char *name, struct named_files *files)
{
    char path[ROOM];
    int saved = errno;
    *files = (struct named_files){.lock = -1, .file = -1};
    name_file(path, client, 'k', name);
    files->lock = open(path, O_RDWR | O_CLOEXEC | O_NOFOLLOW);
    bool is_there = files->lock >= 0 && map_shared(files, name);
    if (!is_there)
        close_named_files(files);
    errno = saved;
    return is_there;
}

int open_named_files(const struct ipcd *client, const char *name, bool is_new, struct named_files *files)
{
    char bytes[ROOM], rest[ROOM];
    *files = (struct named_files){.lock = -1, .file = -1};
    if (is_new) {
        remove_named_files(client, name);
        sweep(client);
    }
    name_file(bytes, client, 'n', name);
    name_file(rest, client, 'k', name);
    files->lock = open(rest, O_RDWR | O_CLOEXEC | O_NOFOLLOW);
    if (files->lock < 0 && errno == ENOENT) {
        unlink(bytes);
        files->lock = make_shared(rest, name);
    }
    files->lock = move_away(files->lock);
    if (files->lock < 0 || !map_shared(files, name) || !open_and_map_bytes(files, bytes)) {
        close_named_files(files);
        return -1;
    }
    files->is_first = flock(files->lock, LOCK_EX | LOCK_NB) == 0;
    flock(files->lock, LOCK_SH | LOCK_NB);
    return 0;
}

int open_named_bytes(const struct ipcd *client, const char *name, int access)
{
    char path[ROOM];
    name_file(path, client, 'n', name);
    return open(path, access | O_CLOEXEC | O_NOFOLLOW);
}

int have_room_for_known(const struct named_files *files, size_t size)
{
    return size == 0 ? 0 : posix_fallocate(files->lock, (off_t) page(), (off_t) size);
}
