// Places of named semaphores, see named_semaphores.h. Each has a page of its own, since processes that are forked share
// what was there before, and nothing that comes later.
#define _GNU_SOURCE
#include <errno.h>
#include <string.h>
#include <sys/mman.h>
#include <sys/random.h>
#include <unistd.h>

#include "handles.h"
#include "link.h"
#include "memory.h"
#include "places.h"
#include "processes.h"

// What `use` says, if it does not count the calls that are at the server.
enum { CHANGING = -1, OWN = -2 };

// Milliseconds: how long one that unlinks waits for the calls of others, and these for one that unlinks.
enum { UNLINK_PATIENCE = 20, CALL_PATIENCE = 5000 };

static size_t page(void)
{
    static atomic_size_t size;
    if (size == 0)
        size = (size_t) sysconf(_SC_PAGESIZE);
    return size;
}

struct place *place_of(struct ipcd *client, size_t number)
{
    return (struct place *) (client->places + (number - DESCRIPTORS) * page());
}

size_t number_of_place(const struct ipcd *client, const sem_t *sem)
{
    const char *places = client->places;
    uintptr_t at = (uintptr_t) sem - (uintptr_t) places;
    if (places == NULL || at >= SEMAPHORES * page() || at % page() != 0)
        return HANDLES;
    return DESCRIPTORS + at / page();
}

static int reserve(struct ipcd *client)
{
    char *made = mmap(NULL, SEMAPHORES * page(), PROT_NONE, MAP_PRIVATE | MAP_ANONYMOUS | MAP_NORESERVE, -1, 0);
    if (made == MAP_FAILED)
        return -1;
    client->places = made;
    return 0;
}

int make_place(struct ipcd *client, size_t number, uint64_t token)
{
    if (client->places == NULL && reserve(client) < 0) {
        errno = ENOMEM;
        return -1;
    }
    struct place *place = place_of(client, number);
    int flags = MAP_SHARED | MAP_ANONYMOUS | MAP_FIXED;
    if (mmap(place, page(), PROT_READ | PROT_WRITE, flags, -1, 0) == MAP_FAILED) {
        errno = ENOMEM;
        return -1;
    }
    place->token = token;
    client->states[number - DESCRIPTORS] = AT_SERVER;
    return 0;
}

void remove_places(struct ipcd *client)
{
    if (client->places != NULL)
        give_back(client->places, SEMAPHORES * page());
}

void pause_shortly(void)
{
    int saved = errno, cancellation = hold_cancellation();
    nanosleep(&(struct timespec){.tv_nsec = 1000 * 1000}, NULL);
    allow_cancellation(cancellation);
    errno = saved;
}

bool is_own_place(struct ipcd *client, size_t number)
{
    return place_of(client, number)->use == OWN;
}

struct place *enter_place(struct ipcd *client, const sem_t *sem, bool *is_own)
{
    size_t number = number_of_place(client, sem);
    if (number == HANDLES || client->states[number - DESCRIPTORS] == NO_PLACE) {
        errno = EINVAL;
        return NULL;
    }
    struct place *place = place_of(client, number);
    for (int64_t end = 0;;) {
        int use = place->use;
        *is_own = use == OWN;
        if (use == OWN && client->states[number - DESCRIPTORS] != LEFT_SERVER)
            leave_server(client, number);
        if (use == OWN || (use >= 0 && atomic_compare_exchange_strong(&place->use, &use, use + 1)))
            return place;
        if (use != CHANGING)
            continue;
        // Whoever changes it blocks signals, and is done soon, unless it is killed.
        if (end == 0)
            end = clock_now() + CALL_PATIENCE;
        if (clock_now() >= end)
            atomic_compare_exchange_strong(&place->use, &use, 0);
        pause_shortly();
    }
}

int leave_place(struct place *place, int result)
{
    place->use--;
    return result;
}

bool begin_change(struct place *place)
{
    for (int64_t end = 0;;) {
        int use = 0;
        if (atomic_compare_exchange_strong(&place->use, &use, CHANGING))
            return true;
        if (end == 0)
            end = clock_now() + UNLINK_PATIENCE;
        if (use == OWN || clock_now() >= end)
            return false;
        pause_shortly();
    }
}

bool end_change(struct place *place, bool is_own)
{
    int use = CHANGING;
    return atomic_compare_exchange_strong(&place->use, &use, is_own ? OWN : 0) && is_own;
}

uint64_t new_token(void)
{
    uint64_t token;
    int saved = errno;
    if (getrandom(&token, sizeof token, GRND_NONBLOCK) != sizeof token) {
        struct timespec time;
        clock_gettime(CLOCK_MONOTONIC, &time);
        token = (uint64_t) getpid() << 32 ^ (uint64_t) time.tv_sec << 30 ^ (uint64_t) time.tv_nsec;
    }
    errno = saved;
    return token;
}

// The name of an entry has no room for that of a semaphore. If two have one hash, both stay the server's.
uint64_t hash_of(const char *name, size_t length)
{
    uint64_t hash = 14695981039346656037u;
    for (size_t i = 0; i < length; i++)
        hash = (hash ^ (unsigned char) name[i]) * 1099511628211u;
    return hash;
}

static char entry_of(enum kind kind)
{
    return kind == POSIX_QUEUE ? QUEUE_ENTRY : SEMAPHORE_ENTRY;
}

uint32_t tell_open(const struct ipcd *client, enum kind kind, const char *name, size_t length, uint64_t token)
{
    return tell_object(client->path, entry_of(kind), hash_of(name, length), token);
}

void tell_closed(const struct ipcd *client, enum kind kind, const char *name, size_t length, uint32_t told)
{
    if (told != 0)
        no_more_object(client->path, entry_of(kind), hash_of(name, length), told);
}

bool is_open_elsewhere(struct ipcd *client, size_t number, const struct handle *handle)
{
    // Who could not say that it is open has maybe not heard of others.
    if (handle->told == 0)
        return true;
    uint64_t hash = hash_of(handle->name, handle->length), token = place_of(client, number)->token;
    return others_of_object(client->path, SEMAPHORE_ENTRY, hash, token) > 0;
}

size_t opens_of_queue(const struct ipcd *client, const char *name, size_t length)
{
    return others_of_object(client->path, QUEUE_ENTRY, hash_of(name, length), 0);
}
