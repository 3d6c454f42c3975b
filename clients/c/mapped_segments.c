// Segments of System V that a program maps: shmat(2) and shmdt(2). The bytes lie in a file in the folder SOCKET.pids,
// which all processes of the host map. The first that attaches a segment fills it from the server's. What differs from
// what the server has is written back before each call by which another process may proceed, at shmdt and exit, at
// msync(2) and munmap(2) if they are redirected, and ten times a second. So whoever takes a lock after a crash finds
// what was written before it was given.
//
// A file has the bytes, then as many as the server has them, and a page with what all processes share.
#define _GNU_SOURCE
#include "mapped_segments.h"

#include <errno.h>
#include <string.h>
#include <sys/mman.h>
#include <sys/shm.h>
#include <unistd.h>

#include "info.h"
#include "mapper.h"
#include "memory.h"
#include "named_segments.h"
#include "write_back.h"

struct mapping {
    struct ipcd *mapper;      // NULL if the place is free
    struct kept kept;         // of which the bytes begin all of the file, as this library has it
    _Atomic(char *) address;  // where the program has it, or NULL if it has unmapped it
    int shmid;
    bool is_written;          // it may be: attached without SHM_RDONLY, and still the server's
};

static struct mapping mappings[DESCRIPTORS];
// Nobody else has it attached, as far as the server knows: then nobody keeps the file equal to it.
static int fill_if_first(const struct mapping *it, const struct shmid_ds *record)
{
    bool is_locked = lock_shared(it->kept.shared);
    int result = !it->kept.shared->is_filled || record->shm_nattch <= 1 ? fill(&it->kept) : 0;
    unlock_shared(it->kept.shared, is_locked);
    return result;
}

// A segment that was removed, or may not be written any more, is the server's no more when its connection ended.
static int write_mapping(struct mapping *it)
{
    if (it->mapper == NULL || !it->is_written)
        return 0;
    ipcd_use(it->mapper);
    bool is_locked = lock_shared(it->kept.shared);
    int result = write_changes(&it->kept);
    unlock_shared(it->kept.shared, is_locked);
    if (result < 0 && (errno == EBADF || errno == EACCES)) {
        it->is_written = false;
        return 0;
    }
    return result;
}

int write_attached(void)
{
    int result = 0;
    for (size_t i = 0; result == 0 && i < DESCRIPTORS; i++)
        result = write_mapping(&mappings[i]);
    return result;
}

// Where the program wants a segment. What was free from there on is taken, so that nothing that this library maps
// meanwhile, as for a connection, is put there.
struct place {
    char *wanted;             // NULL if it may be anywhere
    bool replaces;            // by SHM_REMAP, what is there
    size_t taken;
    size_t used;              // of that, by the segment
};

// Reads it as shmat(2) has it: whether that may be.
static bool read_place(const void *address, int flags, struct place *place)
{
    size_t over = (uintptr_t) address % (uintptr_t) SHMLBA;
    *place = (struct place){.wanted = (char *) (uintptr_t) address, .replaces = flags & SHM_REMAP};
    if (address == NULL)
        return !place->replaces;
    place->wanted -= flags & SHM_RND ? over : 0;
    return place->wanted != NULL && (over == 0 || (flags & SHM_RND));
}

// As far as the greatest segment goes.
static void take_room(struct place *place)
{
    int flags = MAP_PRIVATE | MAP_ANONYMOUS | MAP_NORESERVE | MAP_FIXED_NOREPLACE;
    for (size_t step = SHMMAX; place->wanted != NULL && step >= pages_of(1); step /= 2) {
        char *next = place->wanted + place->taken;
        void *made = mmap(next, step, PROT_NONE, flags, -1, 0);
        if (made == next)
            place->taken += step;
        else if (made != MAP_FAILED)
            give_back(made, step);
    }
}

static void give_room_back(const struct place *place)
{
    if (place->taken > place->used)
        give_back(place->wanted + place->used, place->taken - place->used);
}

// Maps a file where the program wants it: 0, or -1.
static int map_for_program(struct mapping *it, int file, struct place *place)
{
    size_t length = pages_of(it->kept.size);
    int protection = it->is_written ? PROT_READ | PROT_WRITE : PROT_READ;
    int fixed = place->wanted == NULL ? 0 : MAP_FIXED;
    bool has_room = fixed == 0 || place->replaces || place->taken >= length;
    void *made = has_room ? mmap(place->wanted, it->kept.size, protection, MAP_SHARED | fixed, file, 0) : MAP_FAILED;
    if (made == MAP_FAILED) {
        errno = fixed == 0 ? ENOMEM : EINVAL;
        return -1;
    }
    it->address = made;
    place->used = place->taken < length ? place->taken : length;
    return 0;
}

// Maps a file, for the program and for this library: 0, or -1. The program's place comes first: else this library's
// might be there.
static int map_file(struct mapping *it, int file, size_t length, struct place *place)
{
    if (map_for_program(it, file, place) < 0)
        return -1;
    it->kept.bytes = mmap(NULL, length, PROT_READ | PROT_WRITE, MAP_SHARED, file, 0);
    if (it->kept.bytes == MAP_FAILED) {
        give_back(it->address, it->kept.size);
        errno = ENOMEM;
        return -1;
    }
    it->kept.known = it->kept.bytes + pages_of(it->kept.size);
    it->kept.shared = (struct shared *) (it->kept.bytes + 2 * pages_of(it->kept.size));
    return 0;
}

static size_t length_of(size_t size)
{
    return 2 * pages_of(size) + (size_t) sysconf(_SC_PAGESIZE);
}

static void unmap(struct mapping *it)
{
    if (it->address != NULL)
        give_back(it->address, it->kept.size);
    give_back(it->kept.bytes, length_of(it->kept.size));
    it->address = NULL;
    it->mapper = NULL;
    mapped_segments--;
}

static int attach(int shmid, int flags, struct shmid_ds *record)
{
    int tries = 0, attachment;
    do {
        attachment = ipcd_shmattach(shmid, flags & SHM_RDONLY);
        if (attachment >= 0 && ipcd_shmctl(shmid, IPC_STAT, record) == 0)
            return attachment;
        int error = errno;
        if (attachment >= 0)
            ipcd_shmdetach(attachment);
        errno = error;
    } while (is_asked_again(&tries));
    return -1;
}

// Attaches a segment over the mapper and maps its file: 0, or -1.
static int map_segment(struct mapping *it, struct place *place, int flags)
{
    struct shmid_ds record;
    it->kept.number = attach(it->shmid, flags, &record);
    if (it->kept.number < 0)
        return -1;
    it->kept.size = record.shm_segsz;
    it->is_written = !(flags & SHM_RDONLY);
    // No server has a greater one.
    bool has_flags = it->kept.size <= SHMMAX;
    errno = ENOMEM;
    int file = has_flags ? open_file(it->mapper, it->shmid, length_of(it->kept.size)) : -1;
    int result = file < 0 ? -1 : map_file(it, file, length_of(it->kept.size), place);
    if (file >= 0)
        close(file);
    if (result == 0)
        mapped_segments++;
    if (result == 0 && fill_if_first(it, &record) < 0) {
        unmap(it);
        result = -1;
    }
    int error = errno;
    if (result < 0)
        ipcd_shmdetach(it->kept.number);
    errno = error;
    return result;
}

static struct mapping *free_mapping(void)
{
    for (size_t i = 0; i < DESCRIPTORS; i++)
        if (mappings[i].mapper == NULL)
            return &mappings[i];
    errno = EMFILE;
    return NULL;
}

// The segment is detached, also if its connection has ended meanwhile.
static void leave(struct mapping *it)
{
    bool is_removed = it->kept.shared->is_removed;
    struct ipcd *mapper = it->mapper;
    ipcd_use(mapper);
    unmap(it);
    ipcd_shmdetach(it->kept.number);
    if (is_removed)
        forget_file(mapper, it->shmid);
}

static struct mapping *mapping_at(const void *address)
{
    for (size_t i = 0; address != NULL && i < DESCRIPTORS; i++)
        if (mappings[i].mapper != NULL && mappings[i].address == address)
            return &mappings[i];
    return NULL;
}

// Another one was put in its place, by SHM_REMAP, or after the program has unmapped it.
static void replace(struct mapping *it)
{
    int error = errno;
    if (it == NULL)
        return;
    it->address = NULL;
    write_mapping(it);
    leave(it);
    errno = error;
}

void *ipcd_shmat(int shmid, const void *shmaddr, int shmflg)
{
    int result = -1;
    struct place place;
    if (!read_place(shmaddr, shmflg, &place)) {
        errno = EINVAL;
        return (void *) -1;
    }
    struct ipcd *client = current_client();
    struct held held = hold();
    take_room(&place);
    struct mapping *kept = mapper_of(client) == NULL ? NULL : free_mapping();
    struct mapping made = {.mapper = client->mapper, .shmid = shmid};
    if (kept != NULL) {
        ipcd_use(client->mapper);
        result = map_segment(&made, &place, shmflg);
    }
    // What SHM_REMAP has replaced is gone, also if the call has failed after that.
    if (made.address != NULL)
        replace(mapping_at(made.address));
    give_room_back(&place);
    if (result == 0) {
        *kept = made;
        have_a_thread();
    }
    return let(&held, result) < 0 ? (void *) -1 : made.address;
}

int ipcd_shmdt(const void *shmaddr)
{
    struct held held = hold();
    struct mapping *it = mapping_at(shmaddr);
    int result = it == NULL ? -1 : write_mapping(it);
    if (it == NULL)
        errno = EINVAL;
    if (result == 0)
        leave(it);
    return let(&held, result);
}

static bool is_within(const struct mapping *it, const char *from, const char *to)
{
    const char *address = it->address;
    return address != NULL && address >= from && address + pages_of(it->kept.size) <= to;
}

static bool overlaps(const struct mapping *it, const char *from, const char *to)
{
    const char *address = it->address;
    return address != NULL && address < to && address + it->kept.size > from;
}

static bool overlaps_any(const char *from, const char *to)
{
    bool found = false;
    for (size_t i = 0; !found && mapped_segments > 0 && i < DESCRIPTORS; i++)
        found = overlaps(&mappings[i], from, to);
    return found;
}

// What cannot be written back now stays attached, and is written back later.
int unmap_range(void *address, size_t length, int (*kernels)(void *, size_t))
{
    const char *from = address, *to = from + pages_of(length);
    if (!overlaps_any(from, to))
        return kernels(address, length);
    struct held held = hold();
    int result = kernels(address, length);
    for (size_t i = 0; result == 0 && i < DESCRIPTORS; i++) {
        struct mapping *it = &mappings[i];
        if (!is_within(it, from, to))
            continue;
        it->address = NULL;
        if (write_mapping(it) == 0)
            leave(it);
    }
    return let(&held, result);
}

int write_range(const void *address, size_t length)
{
    const char *from = address;
    return overlaps_any(from, from + length) || overlaps_named(from, from + length) ? write_back() : 0;
}

void unmap_all(struct ipcd *client)
{
    struct held held = hold();
    for (size_t i = 0; client->mapper != NULL && i < DESCRIPTORS; i++)
        if (mappings[i].mapper == client->mapper) {
            write_mapping(&mappings[i]);
            leave(&mappings[i]);
        }
    if (client->mapper != NULL)
        leave_all(client->mapper);
    ipcd_use(NULL);
    ipcd_disconnect(client->mapper);
    client->mapper = NULL;
    let(&held, 0);
}
