// Segments of shm_open(3) that programs map, under ipcd-run --segments. A program has a descriptor of a file in the
// folder SOCKET.pids, which it maps, cuts, closes and gives its children as any file: the system does all that. As with
// segments of System V the first that opens one fills the file from the server's, and what differs is written back.
//
// A segment has its place here as long as it has a name, and the program a descriptor or a mapping of it. Who opens one
// that is new makes its files anew, so those of a name that was removed are never another's. A segment that is unlinked
// is the file alone: no crash keeps what has no name.
#define _GNU_SOURCE
#include "named_segments.h"

#include <dirent.h>
#include <errno.h>
#include <fcntl.h>
#include <stdlib.h>
#include <string.h>
#include <sys/mman.h>
#include <unistd.h>

#include "handles.h"
#include "info.h"
#include "mapped_segments.h"
#include "mapper.h"
#include "memory.h"
#include "named_files.h"
#include "write_back.h"

enum { NAMED = 32, RANGES = 256, FILES = 256 };

struct named {
    struct ipcd *mapper;      // NULL if the place is free
    struct kept kept;
    struct named_files files;
    atomic_ullong device, inode; // of the file; 0 if the place is free
    struct stat owner;
    int access;
    bool is_at_server;        // it has a name, as far as is known
    bool stays;               // until the program ends: what the program has of it is not known
    char name[NAME_MOST + 1];
};

// What the program has mapped, and which descriptors shm_open has answered. Of a free place `of` is 0.
struct range {
    _Atomic(const char *) from;
    size_t length;
    atomic_uint of;           // a place, and 1
};
struct descriptor {
    int fd;
    unsigned of;
};

// The lock is held by whoever changes these.
static struct named all[NAMED];
static struct range ranges[RANGES];
static struct descriptor descriptors[FILES];

atomic_uint named_segments;

static unsigned number_of(const struct named *it)
{
    return (unsigned) (it - all) + 1;
}

static int place_of_file(const struct stat *status)
{
    for (int i = 0; i < NAMED; i++)
        if (all[i].inode == status->st_ino && all[i].device == status->st_dev && status->st_ino != 0)
            return i;
    return -1;
}

int place_of_named(int fd)
{
    struct stat status;
    int saved = errno, place = holds() || fstat(fd, &status) < 0 ? -1 : place_of_file(&status);
    errno = saved;
    return place;
}

void tell_owner(struct stat *status)
{
    int place = named_segments == 0 || holds() ? -1 : place_of_file(status);
    if (place < 0)
        return;
    status->st_mode = all[place].owner.st_mode;
    status->st_uid = all[place].owner.st_uid;
    status->st_gid = all[place].owner.st_gid;
}

// The server has nothing of it any more: bytes are the file's alone.
static void leave_the_server(struct named *it)
{
    int saved = errno;
    if (it->is_at_server && it->kept.number >= 0) {
        ipcd_use(it->mapper);
        ipcd_close(it->kept.number);
    }
    it->is_at_server = false;
    errno = saved;
}

// The server's length is another, since a client that maps nothing has cut it.
static int take_length(struct named *it)
{
    struct stat segment;
    if (ipcd_fstat(it->kept.number, &segment) < 0)
        return -1;
    if (segment.st_size < (off_t) it->kept.size) {
        memset(it->kept.known + segment.st_size, 0, it->kept.size - (size_t) segment.st_size);
        it->kept.shared->size = (unsigned long) segment.st_size;
    }
    return 0;
}

static int write_one(struct named *it)
{
    if (it->mapper == NULL || !it->is_at_server || it->access == O_RDONLY)
        return 0;
    ipcd_use(it->mapper);
    bool is_locked = lock_shared(it->kept.shared);
    it->kept.size = it->kept.shared->size;
    int result = it->kept.shared->is_removed ? 0 : write_changes(&it->kept);
    if (result < 0 && errno == EINVAL)
        result = take_length(it);
    unlock_shared(it->kept.shared, is_locked);
    if (it->kept.shared->is_removed || (result < 0 && (errno == EBADF || errno == EACCES))) {
        leave_the_server(it);
        return 0;
    }
    return result;
}

int write_named(void)
{
    int result = 0;
    for (size_t i = 0; result == 0 && named_segments > 0 && i < NAMED; i++)
        result = write_one(&all[i]);
    return result;
}

static void note_descriptor(struct named *it, int fd)
{
    for (size_t i = 0; i < FILES; i++)
        if (descriptors[i].of == 0 || descriptors[i].fd == fd) {
            descriptors[i] = (struct descriptor){fd, number_of(it)};
            return;
        }
    it->stays = true;
}

static bool is_of(const struct named *it, int fd)
{
    struct stat status;
    return fstat(fd, &status) == 0 && status.st_dev == it->device && status.st_ino == it->inode;
}

// The program may have copied a descriptor, and closed the first.
static bool has_another_descriptor(struct named *it)
{
    DIR *folder = opendir("/proc/self/fd");
    bool found = folder == NULL;
    for (struct dirent *entry; !found && (entry = readdir(folder)) != NULL;)
        if (*entry->d_name != '.' && is_of(it, atoi(entry->d_name))) {
            note_descriptor(it, atoi(entry->d_name));
            found = true;
        }
    if (folder != NULL)
        closedir(folder);
    return found;
}

static bool is_used(struct named *it)
{
    unsigned number = number_of(it);
    bool found = it->stays;
    for (size_t i = 0; !found && i < RANGES; i++)
        found = ranges[i].of == number;
    for (size_t i = 0; !found && i < FILES; i++) {
        if (descriptors[i].of != number)
            continue;
        found = is_of(it, descriptors[i].fd);
        if (!found)
            descriptors[i].of = 0;
    }
    return found || has_another_descriptor(it);
}

static void leave(struct named *it)
{
    write_one(it);
    leave_the_server(it);
    it->inode = it->device = 0;
    for (size_t i = 0; i < RANGES; i++)
        if (ranges[i].of == number_of(it))
            ranges[i].of = 0;
    close_named_files(&it->files);
    it->mapper = NULL;
    named_segments--;
    mapped_segments--;
}

void leave_unused(void)
{
    for (size_t i = 0; named_segments > 0 && i < NAMED; i++)
        if (all[i].mapper != NULL && (!all[i].is_at_server || !is_used(&all[i])))
            leave(&all[i]);
}

void leave_all(struct ipcd *mapper)
{
    for (size_t i = 0; i < NAMED; i++)
        if (all[i].mapper == mapper)
            leave(&all[i]);
}

// Opens it at the server, and makes it there if it is to be made: its number, or -1. Whether it is new is seen by that
// it is made with O_EXCL.
static int open_at_server(const char *name, int flags, mode_t mode, bool *is_new)
{
    int tries = 0, number;
    do {
        *is_new = false;
        number = -1;
        errno = EEXIST;
        if (flags & O_CREAT) {
            number = ipcd_shm_open(name, (flags & ~O_TRUNC) | O_EXCL, mode);
            *is_new = number >= 0;
        }
        if (number < 0 && errno == EEXIST && !(flags & O_CREAT && flags & O_EXCL))
            number = ipcd_shm_open(name, flags & ~(O_CREAT | O_EXCL | O_TRUNC), 0);
        // It was removed in between, by a client that maps nothing.
        bool is_gone = number < 0 && errno == ENOENT && flags & O_CREAT && ++tries < NAMED;
        if (is_gone)
            errno = ECONNRESET;
    } while (number < 0 && is_asked_again(&tries));
    return number;
}

static struct named *find_named(const char *name)
{
    for (size_t i = 0; i < NAMED; i++)
        if (all[i].mapper != NULL && all[i].is_at_server && strcmp(all[i].name, name) == 0)
            return &all[i];
    return NULL;
}

static struct named *free_place(void)
{
    for (size_t i = 0; i < NAMED; i++)
        if (all[i].mapper == NULL)
            return &all[i];
    errno = EMFILE;
    return NULL;
}

// The server's bytes, and as many: whoever has it first puts them there.
static int fill_file(struct named *it, const struct stat *segment)
{
    size_t size = (size_t) segment->st_size;
    int file = it->files.file, error = have_room_for_known(&it->files, size);
    if (size < it->kept.shared->size)
        memset(it->kept.known + size, 0, it->kept.shared->size - size);
    it->kept.shared->size = it->kept.size = size;
    if (error == 0 && size > 0)
        error = posix_fallocate(file, 0, (off_t) size);
    if (error == 0 && ftruncate(file, (off_t) size) == 0)
        return fill(&it->kept);
    errno = error == 0 ? errno : error;
    return -1;
}

// Who has marked it as removed, and has died then, has not removed it.
static int fill_if_first(struct named *it)
{
    struct shared *shared = it->kept.shared;
    struct stat status;
    bool is_locked = lock_shared(shared);
    shared->is_removed = false;
    int result = ipcd_fstat(it->kept.number, &it->owner);
    shared->mode = it->owner.st_mode & 0777;
    if (result == 0 && (it->files.is_first || !shared->is_filled))
        result = fill_file(it, &it->owner);
    if (result == 0)
        result = fstat(it->files.file, &status);
    unlock_shared(shared, is_locked);
    if (result == 0) {
        it->device = status.st_dev;
        it->inode = status.st_ino;
    }
    return result;
}

// Has a place for a segment that is open at the server: that place, or NULL.
static struct named *place_for(struct ipcd *mapper, const char *name, int number, bool is_new)
{
    struct named *it = free_place();
    if (it == NULL)
        return NULL;
    it->kept = (struct kept){.number = number, .is_named = true};
    it->is_at_server = true;
    it->stays = false;
    strcpy(it->name, name);
    if (open_named_files(mapper, name, is_new, &it->files) < 0)
        return NULL;
    it->kept.shared = it->files.shared;
    it->kept.bytes = it->files.bytes;
    it->kept.known = it->files.known;
    if (fill_if_first(it) < 0) {
        it->inode = 0;
        close_named_files(&it->files);
        return NULL;
    }
    close(it->files.file);
    it->files.file = -1;
    it->mapper = mapper;
    named_segments++;
    mapped_segments++;
    return it;
}

// A segment of which this process has another descriptor has its place. What it may be asked grows.
static struct named *again(struct named *it, int number, int access)
{
    int other = it->access == O_RDONLY && access == O_RDWR ? it->kept.number : number;
    it->kept.number = other == number ? it->kept.number : number;
    ipcd_close(other);
    return it;
}

static int cut(struct named *it, int fd, size_t length);

// What was made is made no more.
static void open_has_failed(int number, const char *made)
{
    int error = errno;
    if (made != NULL)
        ipcd_shm_unlink(made);
    if (number >= 0)
        ipcd_close(number);
    errno = error;
}

static int open_locked(struct ipcd *mapper, const char *name, int flags, mode_t mode)
{
    bool is_new;
    int access = flags & O_ACCMODE, number = open_at_server(name, flags, mode, &is_new);
    if (number < 0)
        return -1;
    struct named *it = find_named(name);
    // The name is another's now.
    if (it != NULL && (is_new || it->kept.shared->is_removed)) {
        leave(it);
        ipcd_use(mapper);
        it = NULL;
    }
    bool is_known = it != NULL;
    it = is_known ? again(it, number, access) : place_for(mapper, name, number, is_new);
    if (it != NULL && (!is_known || it->access == O_RDONLY))
        it->access = access;
    int fd = it == NULL ? -1 : open_named_bytes(mapper, name, access);
    if (fd >= 0 && flags & O_TRUNC && cut(it, fd, 0) < 0) {
        int error = errno;
        close(fd);
        errno = error;
        fd = -1;
    }
    if (fd >= 0)
        note_descriptor(it, fd);
    else
        open_has_failed(it == NULL ? number : -1, is_new ? name : NULL);
    return fd;
}

int open_named(const char *given, int flags, mode_t mode)
{
    char name[NAME_ROOM];
    ssize_t length = read_name(given, SEGMENT, name);
    if (length < 0 || length > NAME_MOST) {
        errno = length < 0 ? errno : ENAMETOOLONG;
        return -1;
    }
    struct ipcd *client = current_client();
    struct held held = hold();
    struct ipcd *mapper = mapper_of(client);
    int folder = mapper == NULL ? -1 : lock_folder(mapper), fd = -1;
    if (folder >= 0) {
        leave_unused();
        ipcd_use(mapper);
        fd = open_locked(mapper, name, flags & ~O_CLOEXEC, mode);
        int error = errno;
        close(folder);
        errno = error;
    }
    have_a_thread();
    return let(&held, fd < 0 ? -1 : 0) < 0 ? -1 : fd;
}

// Who has it open hears by the file that the server has it no more. It is marked first: else a process could write into
// another of that name.
static int unlink_locked(struct ipcd *mapper, const char *name)
{
    struct named_files files;
    int tries = 0, result;
    bool has_files = look_at_named_files(mapper, name, &files);
    bool is_locked = has_files && lock_shared(files.shared);
    if (has_files)
        files.shared->is_removed = true;
    do
        result = ipcd_shm_unlink(name);
    while (result < 0 && is_asked_again(&tries));
    // The connection ended after it was done.
    if (result < 0 && errno == ENOENT && tries > 0)
        result = 0;
    if (has_files && result < 0)
        files.shared->is_removed = false;
    if (has_files)
        unlock_shared(files.shared, is_locked);
    if (result == 0 && has_files)
        give_mode(mapper, name, files.shared->mode);
    if (result == 0)
        remove_named_files(mapper, name);
    if (has_files)
        close_named_files(&files);
    return result;
}

int unlink_named(const char *given)
{
    char name[NAME_ROOM];
    if (read_name(given, SEGMENT, name) < 0)
        return -1;
    struct ipcd *client = current_client();
    struct held held = hold();
    struct ipcd *mapper = mapper_of(client);
    int folder = mapper == NULL ? -1 : lock_folder(mapper), result = -1;
    if (folder >= 0) {
        ipcd_use(mapper);
        result = unlink_locked(mapper, name);
        int error = errno;
        struct named *it = result == 0 ? find_named(name) : NULL;
        if (it != NULL)
            leave(it);
        close(folder);
        errno = error;
    }
    return let(&held, result);
}

// The file is as long as the server's segment, and has room for all of it. It is longer first, or shorter last, so that
// nobody compares what is not there.
static int cut_file(struct named *it, int fd, size_t length)
{
    struct shared *shared = it->kept.shared;
    size_t before = shared->size;
    if (length < before) {
        shared->size = length;
        memset(it->kept.known + length, 0, before - length);
        return ftruncate(fd, (off_t) length);
    }
    int error = have_room_for_known(&it->files, length);
    if (error == 0 && length > 0)
        error = posix_fallocate(fd, 0, (off_t) length);
    if (error == 0 && ftruncate(fd, (off_t) length) == 0) {
        shared->size = length;
        return 0;
    }
    errno = error == 0 ? errno : error;
    return -1;
}

static int cut_at_server(const struct named *it, size_t length)
{
    int tries = 0, result;
    do
        result = ipcd_ftruncate(it->kept.number, (off_t) length);
    while (result < 0 && is_asked_again(&tries));
    return result;
}

// The lock is held.
static int cut(struct named *it, int fd, size_t length)
{
    ipcd_use(it->mapper);
    bool is_locked = lock_shared(it->kept.shared);
    bool is_removed = it->kept.shared->is_removed || !it->is_at_server;
    size_t before = it->kept.shared->size;
    int result = is_removed ? 0 : cut_at_server(it, length);
    if (result == 0)
        result = is_removed ? ftruncate(fd, (off_t) length) : cut_file(it, fd, length);
    if (result < 0 && !is_removed && it->kept.shared->size == before) {
        int error = errno;
        cut_at_server(it, before);
        errno = error;
    }
    unlock_shared(it->kept.shared, is_locked);
    return result;
}

int cut_named(int place, int fd, off_t length)
{
    int flags = fcntl(fd, F_GETFL);
    if (length < 0 || (flags & O_ACCMODE) == O_RDONLY) {
        errno = EINVAL;
        return -1;
    }
    struct held held = hold();
    struct named *it = &all[place];
    int result = it->mapper == NULL ? ftruncate(fd, length) : cut(it, fd, (size_t) length);
    return let(&held, result);
}

void note_mapped(int place, void *address, size_t length)
{
    struct held held = hold();
    struct named *it = &all[place];
    size_t i = 0;
    while (i < RANGES && ranges[i].of != 0)
        i++;
    if (i < RANGES && it->mapper != NULL) {
        ranges[i].from = address;
        ranges[i].length = pages_of(length);
        ranges[i].of = number_of(it);
    } else
        it->stays = true;
    let(&held, 0);
}

static bool overlaps(const struct range *it, const char *from, const char *to)
{
    return it->of != 0 && it->from < to && it->from + it->length > from;
}

bool overlaps_named(const char *from, const char *to)
{
    bool found = false;
    for (size_t i = 0; !found && named_segments > 0 && i < RANGES; i++)
        found = overlaps(&ranges[i], from, to);
    return found;
}

// What cannot be written back now is written back later.
void note_unmapped(void *address, size_t length)
{
    const char *from = address, *to = from + pages_of(length);
    if (holds() || !overlaps_named(from, to))
        return;
    struct held held = hold();
    for (size_t i = 0; i < RANGES; i++) {
        struct range *it = &ranges[i];
        if (!overlaps(it, from, to))
            continue;
        write_one(&all[it->of - 1]);
        if (it->from >= from && it->from + it->length <= to)
            it->of = 0;
    }
    leave_unused();
    let(&held, 0);
}
