// Handles: opening by name, on each link that needs it, and closing.
#define _GNU_SOURCE
#include "handles.h"

#include <errno.h>
#include <fcntl.h>
#include <string.h>
#include <sys/shm.h>
#include <unistd.h>

#include "memory.h"
#include "own_queues.h"
#include "places.h"

// Writes the request of an open and answers the server's descriptor, or -1.
static long open_on_link(struct link *link, const char *name, size_t length, const struct wanted *wanted)
{
    static const enum opcode opcodes[] = {
        [POSIX_QUEUE] = MQ_OPEN, [SEGMENT] = SHM_OPEN, [NAMED_SEMAPHORE] = SEM_OPEN, [ATTACHMENT] = SHMAT};
    link_begin(link, opcodes[wanted->kind]);
    if (wanted->kind == ATTACHMENT)
        put_u32(link, wanted->shmid);
    put_u32(link, wanted->flags);
    if (wanted->kind != ATTACHMENT)
        put_u32(link, wanted->mode);
    if (wanted->kind == NAMED_SEMAPHORE)
        put_u32(link, wanted->value);
    if (wanted->kind == POSIX_QUEUE) {
        put_number(link, wanted->has_attributes, 1);
        put_u32(link, (uint32_t) wanted->maxmsg);
        put_u32(link, (uint32_t) wanted->msgsize);
    }
    put_bytes(link, name, length);
    if (link_exchange(link, ANSWERED_AT_ONCE, 4, 4) < 0)
        return -1;
    return (long) read_u32(link->body);
}

static int close_on_link(struct link *link, const struct opened *opened)
{
    link_begin(link, opened->is_attachment ? SHMDT : CLOSE);
    put_u32(link, opened->descriptor);
    return (int) link_exchange(link, ANSWERED_AT_ONCE, 0, 0);
}

static struct opened opened_by(const struct handle *handle, long descriptor)
{
    return (struct opened){(uint32_t) descriptor, handle->nonblocking, handle->kind == ATTACHMENT};
}

// Notes what is open on a link for a handle.
static void note_opened(struct link *link, size_t number, const struct handle *handle, long descriptor)
{
    link->opened[number] = opened_by(handle, descriptor);
    link->generations[number] = handle->generation;
}

int close_stale(struct link *link)
{
    struct ipcd *client = link->client;
    uint32_t closings = client->closings, generations[HANDLES];
    if (link->closings == closings)
        return 0;
    int saved = errno;
    sigset_t mask;
    lock_handles(client, &mask);
    for (size_t i = 0; i < HANDLES; i++)
        generations[i] = client->handles[i].generation;
    unlock_handles(client, &mask);
    for (size_t i = 0; i < HANDLES; i++) {
        if (link->generations[i] == 0 || link->generations[i] == generations[i])
            continue;
        link->generations[i] = 0;
        if (close_on_link(link, &link->opened[i]) < 0 && link->socket < 0)
            return -1;
    }
    link->closings = closings;
    errno = saved;
    return 0;
}

static int set_nonblocking(struct link *link, struct opened *opened, bool nonblocking)
{
    link_begin(link, MQ_SETATTR);
    put_u32(link, opened->descriptor);
    put_u32(link, nonblocking ? O_NONBLOCK : 0);
    if (link_exchange(link, ANSWERED_AT_ONCE, 16, 16) < 0)
        return -1;
    opened->nonblocking = nonblocking;
    return 0;
}

// A process that was forked tells for itself what it has open, before it opens it.
static void tell_again(struct ipcd *client, size_t number, const struct handle *handle)
{
    sigset_t mask;
    pid_t own = getpid();
    if (handle->teller == own)
        return;
    uint64_t token = handle->kind == NAMED_SEMAPHORE ? place_of(client, number)->token : new_token();
    uint32_t told = tell_open(client, handle->kind, handle->name, handle->length, token);
    lock_handles(client, &mask);
    struct handle *now = &client->handles[number];
    bool is_taken = now->generation == handle->generation && now->teller != own;
    if (is_taken) {
        now->told = told;
        now->teller = own;
    }
    unlock_handles(client, &mask);
    if (!is_taken)
        tell_closed(client, handle->kind, handle->name, handle->length, told);
}

int open_again(struct link *link, size_t number, const struct handle *handle)
{
    struct opened *opened = &link->opened[number];
    if (link->generations[number] == handle->generation) {
        bool is_same = handle->kind != POSIX_QUEUE || opened->nonblocking == handle->nonblocking;
        return is_same ? 0 : set_nonblocking(link, opened, handle->nonblocking);
    }
    if (handle->is_unlinked) {
        errno = ENOENT;
        return -1;
    }
    if (handle->kind == NAMED_SEMAPHORE || handle->kind == POSIX_QUEUE)
        tell_again(link->client, number, handle);
    uint32_t flags = handle->access | (handle->nonblocking ? O_NONBLOCK : 0);
    struct wanted wanted = {.kind = handle->kind, .flags = flags, .shmid = handle->shmid};
    long descriptor = open_on_link(link, handle->name, handle->length, &wanted);
    if (descriptor < 0) {
        // No segment has the identifier any more.
        if (handle->kind == ATTACHMENT && errno == EINVAL)
            errno = ENOENT;
        return -1;
    }
    note_opened(link, number, handle, descriptor);
    return 0;
}

// Notes that the name of a handle is of nothing any more, if the handle was not closed meanwhile.
static void note_unlinked(struct ipcd *client, size_t number, uint32_t generation)
{
    sigset_t mask;
    lock_handles(client, &mask);
    if (client->handles[number].generation == generation)
        client->handles[number].is_unlinked = true;
    unlock_handles(client, &mask);
}

// Which handles are open: how many, and their numbers.
static size_t open_numbers(struct ipcd *client, uint16_t *numbers)
{
    sigset_t mask;
    size_t count = 0;
    lock_handles(client, &mask);
    for (size_t i = 0; i < HANDLES; i++)
        if (client->handles[i].is_open)
            numbers[count++] = (uint16_t) i;
    unlock_handles(client, &mask);
    return count;
}

int open_all_again(struct link *link)
{
    struct ipcd *client = link->client;
    uint16_t numbers[HANDLES];
    int saved = errno;
    size_t count = open_numbers(client, numbers);
    for (size_t i = 0; i < count; i++) {
        sigset_t mask;
        size_t number = numbers[i];
        lock_handles(client, &mask);
        struct handle handle = client->handles[number];
        unlock_handles(client, &mask);
        if (handle.is_own || (handle.kind == NAMED_SEMAPHORE && is_own_place(client, number)))
            continue;
        if (!handle.is_open || open_again(link, number, &handle) == 0)
            continue;
        if (link->socket < 0)
            return -1;
        // An object that is made under the name later is another.
        if (errno == ENOENT)
            note_unlinked(client, number, handle.generation);
    }
    errno = saved;
    return 0;
}

static bool is_named(struct ipcd *client, size_t number, enum kind kind, const char *name, size_t length)
{
    const struct handle *handle = &client->handles[number];
    // Another process that shares its place has unlinked it.
    if (handle->is_open && handle->kind == NAMED_SEMAPHORE && is_own_place(client, number))
        return false;
    return handle->is_open && !handle->is_unlinked && handle->kind == kind && handle->length == length &&
        memcmp(handle->name, name, length) == 0;
}

// A handle that is open on a semaphore of this name, else one that is free, else -1.
static int find_handle(struct ipcd *client, enum kind kind, const char *name, size_t length)
{
    int begin = kind == NAMED_SEMAPHORE ? DESCRIPTORS : 0;
    int past = kind == NAMED_SEMAPHORE ? HANDLES : DESCRIPTORS;
    for (int i = begin; kind == NAMED_SEMAPHORE && i < past; i++)
        if (is_named(client, (size_t) i, kind, name, length))
            return i;
    for (int i = begin; i < past; i++)
        if (!client->handles[i].is_open)
            return i;
    errno = EMFILE;
    return -1;
}

int handle_of_name(struct ipcd *client, const char *name, size_t length, enum kind kind)
{
    sigset_t mask;
    int found = -1;
    lock_handles(client, &mask);
    for (int i = 0; i < HANDLES && found < 0; i++)
        if (is_named(client, (size_t) i, kind, name, length))
            found = i;
    unlock_handles(client, &mask);
    return found;
}

size_t handles_of_name(
    struct ipcd *client, const char *name, size_t length, enum kind kind, uint16_t *numbers)
{
    sigset_t mask;
    size_t count = 0;
    lock_handles(client, &mask);
    for (size_t i = 0; i < HANDLES; i++)
        if (is_named(client, i, kind, name, length))
            numbers[count++] = (uint16_t) i;
    unlock_handles(client, &mask);
    return count;
}

// Notes that an object was opened on a link. One that had its handle already is closed there once.
static int note(struct ipcd *client, struct link *link, int number, struct handle named, long descriptor)
{
    struct handle *handle = &client->handles[number];
    if (handle->is_open) {
        handle->opens++;
        struct opened twice = opened_by(handle, descriptor);
        if (link->generations[number] == handle->generation)
            return close_on_link(link, &twice);
    } else {
        named.generation = handle->generation + (handle->generation == 0);
        *handle = named;
    }
    note_opened(link, (size_t) number, handle, descriptor);
    return 0;
}

ssize_t read_name(const char *name, enum kind kind, char *copy)
{
    ssize_t length = text_length(name, PIECE_MOST), slashes = 0;
    if (length < 0)
        return -1;
    if (kind != POSIX_QUEUE) {
        *copy++ = '/';
        while (slashes < length && name[slashes] == '/')
            slashes++;
    }
    memcpy(copy, name + slashes, (size_t) (length - slashes));
    copy[length - slashes] = 0;
    return length - slashes + (kind != POSIX_QUEUE);
}

// What stays of the flags of an open: the bits that an open on another link needs.
static uint32_t access_of(const struct wanted *wanted)
{
    static const uint32_t bits[] = {
        [POSIX_QUEUE] = O_ACCMODE, [SEGMENT] = O_ACCMODE, [NAMED_SEMAPHORE] = 0, [ATTACHMENT] = SHM_RDONLY};
    return wanted->flags & bits[wanted->kind];
}

static int open_new(struct ipcd *client, const char *name, size_t length, const struct wanted *wanted)
{
    struct link *link = begin(CLOSE);
    if (link == NULL) {
        tell_closed(client, wanted->kind, name, length, wanted->told);
        return -1;
    }
    long descriptor = open_on_link(link, name, length, wanted);
    if (descriptor < 0) {
        tell_closed(client, wanted->kind, name, length, wanted->told);
        return (int) end(link, -1);
    }
    struct handle named = {.is_open = true, .kind = wanted->kind, .opens = 1, .length = length};
    named.told = wanted->told;
    named.teller = wanted->told != 0 ? getpid() : 0;
    named.access = access_of(wanted);
    named.shmid = wanted->shmid;
    named.nonblocking = wanted->kind == POSIX_QUEUE && (wanted->flags & O_NONBLOCK);
    memcpy(named.name, name, length <= NAME_MOST ? length : 0);
    sigset_t mask;
    lock_handles(client, &mask);
    int number = find_handle(client, wanted->kind, named.name, named.length);
    bool is_new = number >= 0 && !client->handles[number].is_open;
    if (is_new && wanted->kind == NAMED_SEMAPHORE && make_place(client, (size_t) number, wanted->token) < 0)
        number = -1;
    int refusal = errno, noted = number < 0 ? -1 : note(client, link, number, named, descriptor);
    unlock_handles(client, &mask);
    if (number < 0) {
        struct opened none = opened_by(&named, descriptor);
        close_on_link(link, &none);
        errno = refusal;
    }
    if (!is_new || number < 0)
        tell_closed(client, wanted->kind, name, length, wanted->told);
    return (int) end(link, noted < 0 ? -1 : number);
}

int open_handle(struct ipcd *client, const char *given, const struct wanted *wanted)
{
    char name[NAME_ROOM];
    ssize_t length = read_name(given, wanted->kind, name);
    return length < 0 ? -1 : open_new(client, name, (size_t) length, wanted);
}

int attach_handle(struct ipcd *client, const struct wanted *wanted)
{
    return open_new(client, "", 0, wanted);
}

// The handle's descriptors are closed wherever they are, since it has another generation. The lock is held.
static void begin_closing(struct ipcd *client, struct handle *handle)
{
    handle->generation++;
    handle->generation += handle->generation == 0;
    client->closings++;
}

static void tell_closed_if_told(struct ipcd *client, const struct handle *handle)
{
    if (handle->told != 0 && handle->teller == getpid())
        tell_closed(client, handle->kind, handle->name, handle->length, handle->told);
}

void tell_all_closed(struct ipcd *client)
{
    for (size_t i = 0; i < HANDLES; i++)
        if (client->handles[i].is_open)
            tell_closed_if_told(client, &client->handles[i]);
}

int close_handle(struct ipcd *client, size_t number, enum kind kind, int wrong)
{
    sigset_t mask;
    lock_handles(client, &mask);
    struct handle *handle = number < HANDLES ? &client->handles[number] : NULL;
    bool is_open = handle != NULL && handle->is_open && handle->kind == kind;
    bool is_last = is_open && --handle->opens == 0;
    struct handle closed = is_last ? *handle : (struct handle){0};
    if (is_last) {
        handle->is_open = handle->is_own = false;
        handle->told = 0;
        if (kind == NAMED_SEMAPHORE)
            client->states[number - DESCRIPTORS] = NO_PLACE;
        if (!closed.is_own)
            begin_closing(client, handle);
        // Before another queue has the number.
        else if (kind == POSIX_QUEUE)
            close_own_queue(client, number);
    }
    unlock_handles(client, &mask);
    if (!is_open) {
        errno = wrong;
        return -1;
    }
    // Each close of a descriptor ends the registration with its queue.
    if (!is_last && kind == POSIX_QUEUE)
        ipcd_mq_notify(FIRST_DESCRIPTOR + (mqd_t) number, NULL);
    if (!is_last || closed.is_own)
        return 0;
    int cancellation = hold_cancellation();
    tell_closed_if_told(client, &closed);
    end_registration_of(client, number);
    int result = close_on_idle_links(client);
    allow_cancellation(cancellation);
    return result;
}

bool open_once_more(struct ipcd *client, size_t number)
{
    sigset_t mask;
    lock_handles(client, &mask);
    struct handle *handle = &client->handles[number];
    bool is_open = handle->is_open && handle->kind == POSIX_QUEUE;
    handle->opens += is_open;
    unlock_handles(client, &mask);
    return is_open;
}

void leave_server(struct ipcd *client, size_t number)
{
    sigset_t mask;
    int saved = errno, cancellation = hold_cancellation();
    lock_handles(client, &mask);
    struct handle *handle = &client->handles[number], left = *handle;
    if (handle->is_open && !handle->is_own) {
        handle->is_own = handle->is_unlinked = true;
        handle->told = 0;
        begin_closing(client, handle);
    }
    client->states[number - DESCRIPTORS] = LEFT_SERVER;
    unlock_handles(client, &mask);
    if (left.is_open && !left.is_own) {
        tell_closed_if_told(client, &left);
        close_on_idle_links(client);
    }
    allow_cancellation(cancellation);
    errno = saved;
}

bool leave_server_queue(struct ipcd *client, size_t number)
{
    sigset_t mask;
    lock_handles(client, &mask);
    struct handle *handle = &client->handles[number], left = *handle;
    bool is_left = left.is_open && left.kind == POSIX_QUEUE && left.is_unlinked && !left.is_own;
    if (is_left) {
        handle->is_own = true;
        handle->told = 0;
        begin_closing(client, handle);
    }
    unlock_handles(client, &mask);
    if (is_left)
        tell_closed_if_told(client, &left);
    return is_left;
}

void note_name_gone(struct ipcd *client, const char *name, size_t length, enum kind kind)
{
    sigset_t mask;
    lock_handles(client, &mask);
    for (size_t i = 0; i < HANDLES; i++)
        if (is_named(client, i, kind, name, length))
            client->handles[i].is_unlinked = true;
    unlock_handles(client, &mask);
}

int unlink_name(struct ipcd *client, const char *given, enum kind kind, enum opcode opcode)
{
    char name[NAME_ROOM];
    ssize_t length = read_name(given, kind, name);
    if (length < 0)
        return -1;
    struct link *link = begin(opcode);
    if (link == NULL)
        return -1;
    put_bytes(link, name, (size_t) length);
    if (end_empty(link, ANSWERED_AT_ONCE) < 0)
        return -1;
    note_name_gone(client, name, (size_t) length, kind);
    return 0;
}
