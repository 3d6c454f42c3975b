// POSIX queues that are the kernel's, see own_queues.h.
#define _GNU_SOURCE
#include "own_queues.h"

#include <errno.h>
#include <fcntl.h>
#include <stdio.h>
#include <string.h>
#include <sys/stat.h>
#include <unistd.h>

#include "handles.h"
#include "places.h"

// What `use` says, if it does not count the calls that are at the server.
enum { CHANGING = -1, OWN = -2 };

// Milliseconds: how long one that unlinks waits for the calls of others.
enum { UNLINK_PATIENCE = 20 };

// Where the numbers of descriptors begin: programs count on low ones.
enum { OUT_OF_THE_WAY = 200 };

// The queue that is unlinked, on the link on which it is.
struct leaving {
    struct ipcd *client;
    struct link *link;
    const char *name;
    size_t length;
    bool is_open;             // here too, by a descriptor to receive what is there
    uint32_t descriptor;
    mqd_t sink;               // of the kernel, to which that is sent
    size_t count;
    uint16_t numbers[DESCRIPTORS]; // of the handles
    mqd_t files[DESCRIPTORS]; // of these, at the kernel
};

mqd_t enter_queue(struct ipcd *client, size_t number)
{
    if (number >= DESCRIPTORS)
        return -1;
    struct own_queue *queue = &client->own_queues[number];
    for (;;) {
        int use = queue->use;
        if (use == OWN)
            return queue->file;
        if (use >= 0 && atomic_compare_exchange_strong(&queue->use, &use, use + 1))
            return -1;
        // A thread that changes it blocks signals, and is done soon.
        if (use == CHANGING)
            pause_shortly();
    }
}

// A process that was forked in the midst of the call, by a handler, has begun to count again.
void leave_queue(struct ipcd *client, size_t number)
{
    if (number >= DESCRIPTORS)
        return;
    atomic_int *use = &client->own_queues[number].use;
    for (int before = *use; before > 0 && !atomic_compare_exchange_weak(use, &before, before - 1);)
        continue;
}

void forget_uses(struct ipcd *client)
{
    for (size_t i = 0; i < DESCRIPTORS; i++)
        if (client->own_queues[i].use != OWN)
            client->own_queues[i].use = 0;
}

// Not one that another file has got, after the program has closed it.
void close_own_queue(struct ipcd *client, size_t number)
{
    struct own_queue *queue = &client->own_queues[number];
    struct stat status;
    int saved = errno;
    if (queue->use != OWN)
        return;
    if (fstat(queue->file, &status) == 0 && status.st_dev == queue->device && status.st_ino == queue->inode)
        close(queue->file);
    queue->use = 0;
    errno = saved;
}

void close_own_queues(struct ipcd *client)
{
    for (size_t i = 0; i < DESCRIPTORS; i++)
        close_own_queue(client, i);
}

// While they change, calls on its handles wait. It does not begin while some are at the server.
static bool begin_changes(struct leaving *it)
{
    size_t begun = 0;
    int64_t end = clock_now() + UNLINK_PATIENCE;
    while (begun < it->count) {
        int use = 0;
        atomic_int *next = &it->client->own_queues[it->numbers[begun]].use;
        if (atomic_compare_exchange_strong(next, &use, CHANGING))
            begun++;
        else if (clock_now() >= end)
            break;
        else
            pause_shortly();
    }
    if (begun == it->count)
        return true;
    while (begun-- > 0)
        it->client->own_queues[it->numbers[begun]].use = 0;
    return false;
}

static mqd_t move_away(mqd_t file)
{
    mqd_t moved = file < 0 ? -1 : fcntl(file, F_DUPFD_CLOEXEC, OUT_OF_THE_WAY);
    if (moved < 0)
        return file;
    close(file);
    return moved;
}

// Makes a queue of the kernel's without a name, and opens it as the handles have it: whether it can.
static bool make_files(struct leaving *it, struct mq_attr *attributes)
{
    char name[64];
    const struct system_queues *system = system_queues();
    snprintf(name, sizeof name, "/ipcd.%ld.%016llx", (long) getpid(), (unsigned long long) new_token());
    it->sink = move_away(system->open(name, O_RDWR | O_CREAT | O_EXCL | O_NONBLOCK, 0600, attributes));
    if (it->sink < 0)
        return false;
    bool is_made = true;
    for (size_t i = 0; i < it->count; i++) {
        struct handle handle;
        it->files[i] = -1;
        if (!is_made || !copy_handle(it->client, it->numbers[i], POSIX_QUEUE, &handle))
            continue;
        it->files[i] = move_away(system->open(name, (int) handle.access | (handle.nonblocking ? O_NONBLOCK : 0)));
        is_made = it->files[i] >= 0;
    }
    system->unlink(name);
    return is_made;
}

static void close_files(struct leaving *it)
{
    if (it->sink < 0)
        return;
    close(it->sink);
    it->sink = -1;
    for (size_t i = 0; i < it->count; i++)
        if (it->files[i] >= 0)
            close(it->files[i]);
}

// Opens the queue to receive from it: 0 with its attributes, or -1.
static int open_to_receive(struct leaving *it, struct mq_attr *attributes)
{
    struct link *link = it->link;
    link_begin(link, MQ_OPEN);
    put_u32(link, O_RDONLY | O_NONBLOCK);
    put_u32(link, 0);
    put_number(link, false, 1);
    put_u32(link, 0);
    put_u32(link, 0);
    put_bytes(link, it->name, it->length);
    if (link_exchange(link, ANSWERED_AT_ONCE, 4, 4) < 0)
        return -1;
    it->descriptor = read_u32(link->body);
    it->is_open = true;
    link_begin(link, MQ_GETATTR);
    put_u32(link, it->descriptor);
    if (link_exchange(link, ANSWERED_AT_ONCE, 16, 16) < 0)
        return -1;
    *attributes = (struct mq_attr){.mq_maxmsg = read_u32(link->body + 4), .mq_msgsize = read_u32(link->body + 8)};
    return 0;
}

static void close_again(struct leaving *it)
{
    link_begin(it->link, CLOSE);
    put_u32(it->link, it->descriptor);
    link_exchange(it->link, ANSWERED_AT_ONCE, 0, 0);
}

// In the order in which they would be received. If the server ends meanwhile, the rest is lost, as is what it keeps
// without a name.
static void move_messages(struct leaving *it)
{
    struct link *link = it->link;
    for (;;) {
        link_begin(link, MQ_RECEIVE);
        put_u32(link, it->descriptor);
        put_u64(link, NO_TIME);
        put_u32(link, PIECE_MOST);
        ssize_t size = link_exchange(link, ANSWERED_AT_ONCE, 4, 4 + PIECE_MOST);
        if (size < 0)
            return;
        const char *text = (const char *) link->body + 4;
        system_queues()->timedsend(it->sink, text, (size_t) size - 4, read_u32(link->body), NULL);
    }
}

// Whether a process that is not this one, or a handle that is not among these, has it open, or may have. Who has opened
// it has told so before.
static bool is_open_by_others(struct leaving *it)
{
    for (size_t i = 0; i < it->count; i++) {
        struct handle handle;
        bool is_open = copy_handle(it->client, it->numbers[i], POSIX_QUEUE, &handle);
        if (!is_open || handle.told == 0 || handle.teller != getpid())
            return true;
    }
    return opens_of_queue(it->client, it->name, it->length) != it->count;
}

static int unlink_on_link(struct leaving *it)
{
    link_begin(it->link, MQ_UNLINK);
    put_bytes(it->link, it->name, it->length);
    return (int) link_exchange(it->link, ANSWERED_AT_ONCE, 0, 0);
}

// Whether a handle is the kernel's now. One that was closed meanwhile is nothing any more.
static bool take_file(struct leaving *it, size_t i)
{
    struct own_queue *queue = &it->client->own_queues[it->numbers[i]];
    struct stat status;
    if (fstat(it->files[i], &status) < 0 || !leave_server_queue(it->client, it->numbers[i]))
        return false;
    queue->file = it->files[i];
    queue->device = status.st_dev;
    queue->inode = status.st_ino;
    it->files[i] = -1;
    return true;
}

// Calls on a handle are the kernel's. It may have been closed meanwhile, and its number may be that of another queue.
static void end_changes(struct ipcd *client, size_t number)
{
    sigset_t mask;
    lock_handles(client, &mask);
    client->own_queues[number].use = OWN;
    if (!client->handles[number].is_open || !client->handles[number].is_own)
        close_own_queue(client, number);
    unlock_handles(client, &mask);
}

// The handles are the kernel's from now on. A close of any descriptor ends the process's registration by it, so those
// that are not needed are closed before.
static void become_own(struct leaving *it)
{
    bool is_taken[DESCRIPTORS];
    for (size_t i = 0; i < it->count; i++)
        is_taken[i] = take_file(it, i);
    close_files(it);
    for (size_t i = 0; i < it->count; i++) {
        size_t number = it->numbers[i];
        if (!is_taken[i])
            continue;
        move_registration(it->client, number, it->client->own_queues[number].file);
        end_changes(it->client, number);
    }
}

// The link is held from the first request to the last, so that no other thread is waited for in between.
static int unlink_on(struct leaving *it)
{
    struct mq_attr attributes;
    unsigned lost = adjustments_lost;
    it->link = begin(CLOSE);
    if (it->link == NULL)
        return -1;
    bool is_made = open_to_receive(it, &attributes) == 0 && make_files(it, &attributes);
    int result = it->link->socket < 0 ? -1 : unlink_on_link(it), error = errno;
    if (result == 0)
        note_name_gone(it->client, it->name, it->length, POSIX_QUEUE);
    bool is_own = result == 0 && is_made && !is_open_by_others(it);
    if (is_own)
        move_messages(it);
    if (is_own)
        become_own(it);
    if (it->is_open && it->link->socket >= 0)
        close_again(it);
    // The process has to hear that it has lost locks, though the name is gone.
    errno = adjustments_lost == lost ? error : ECONNRESET;
    return (int) end(it->link, adjustments_lost == lost ? result : -1);
}

static int unlink_open(struct leaving *it)
{
    int result = unlink_on(it), error = errno;
    close_files(it);
    close_on_idle_links(it->client);
    for (size_t i = 0; i < it->count; i++) {
        int use = CHANGING;
        atomic_compare_exchange_strong(&it->client->own_queues[it->numbers[i]].use, &use, 0);
    }
    errno = error;
    return result;
}

// Signals are blocked: a handler that calls in the midst of it would wait for itself.
int ipcd_mq_unlink(const char *given)
{
    struct ipcd *client = current_client();
    char name[NAME_ROOM];
    ssize_t length = read_name(given, POSIX_QUEUE, name);
    if (length < 0)
        return -1;
    struct leaving it = {.client = client, .name = name, .length = (size_t) length, .sink = -1};
    sigset_t all_signals, mask;
    sigfillset(&all_signals);
    pthread_sigmask(SIG_BLOCK, &all_signals, &mask);
    it.count = handles_of_name(client, name, it.length, POSIX_QUEUE, it.numbers);
    bool is_begun = it.count > 0 && begin_changes(&it);
    int result = is_begun ? unlink_open(&it) : unlink_name(client, name, POSIX_QUEUE, MQ_UNLINK);
    pthread_sigmask(SIG_SETMASK, &mask, NULL);
    return result;
}
