// A client: which link a call takes, what becomes of links in a forked process, and how a call begins and ends.
#define _GNU_SOURCE
#include "client.h"

#include <errno.h>
#include <fcntl.h>
#include <limits.h>
#include <linux/futex.h>
#include <stdio.h>
#include <stdlib.h>
#include <string.h>
#include <sys/mman.h>
#include <sys/socket.h>
#include <sys/stat.h>
#include <sys/syscall.h>
#include <unistd.h>

#include "cancellation.h"
#include "changes.h"
#include "handles.h"
#include "mapped_segments.h"
#include "memory.h"
#include "own_queues.h"
#include "places.h"
#include "processes.h"

// Milliseconds that a thread waits for a link while no call is answered: if all those calls may wait, and if one is
// answered at once. Then it gets one more.
enum { GRACE = 50, LONG_GRACE = 1000 };

// How often a thread looks for a link that another one has, and how long that one has it, before one whose call was
// interrupted for it takes it back.
enum { SHORT_TURN = 5, LONG_TURN = 50 };

struct changes changes;

// The first of a list of all.
static struct ipcd of_process = {.lock = PTHREAD_MUTEX_INITIALIZER};
static pthread_mutex_t all_lock = PTHREAD_MUTEX_INITIALIZER;
static _Thread_local struct ipcd *used;
static _Thread_local char thread;

// A page that the system clears in a forked process, however it was forked.
static atomic_int *same_process;
static atomic_int memory_of;

static void after_fork(void)
{
    all_lock = (pthread_mutex_t) PTHREAD_MUTEX_INITIALIZER;
    for (struct ipcd *client = &of_process; client != NULL; client = client->next) {
        client->lock = (pthread_mutex_t) PTHREAD_MUTEX_INITIALIZER;
        client->sleepers = 0;
        for (size_t i = 0; i < PROCESSES_MOST; i++) {
            struct link *link = client->links[i];
            if (link == NULL)
                continue;
            link_drop(link);
            link->owner = NULL;
            link->lending = link->busy = 0;
            link->wanted = 0;
        }
        forget_registrations(client);
        forget_uses(client);
    }
    if (same_process != NULL)
        *same_process = 1;
    memory_of = getpid();
    renew_mappings();
}

static void be_child(void)
{
    after_fork();
    let_mappings();
}

__attribute__((constructor)) static void prepare(void)
{
    pthread_atfork(hold_mappings, let_mappings, be_child);
    memory_of = getpid();
    size_t size = (size_t) sysconf(_SC_PAGESIZE);
    void *page = mmap(NULL, size, PROT_READ | PROT_WRITE, MAP_PRIVATE | MAP_ANONYMOUS, -1, 0);
    if (page == MAP_FAILED)
        return;
    if (madvise(page, size, MADV_WIPEONFORK) == 0) {
        same_process = page;
        *same_process = 1;
    }
}

static void tell_no_more(const struct ipcd *client)
{
    for (size_t i = 0; i < PROCESSES_MOST; i++)
        if (client->links[i] != NULL && client->links[i]->socket >= 0)
            no_more(client->path, &client->links[i]->life, client->links[i]->pid);
}

// What the process has told of itself is taken back, so that the folder stays small.
__attribute__((destructor)) static void leave(void)
{
    write_back();
    tell_no_more(&of_process);
    if (of_process.mapper != NULL)
        tell_no_more(of_process.mapper);
    tell_all_closed(&of_process);
}

int hold_cancellation(void)
{
    int before;
    pthread_setcancelstate(PTHREAD_CANCEL_DISABLE, &before);
    return before;
}

void allow_cancellation(int before)
{
    pthread_setcancelstate(before, NULL);
}

void lock_handles(struct ipcd *client, sigset_t *mask)
{
    sigset_t all_signals;
    sigfillset(&all_signals);
    pthread_sigmask(SIG_BLOCK, &all_signals, mask);
    pthread_mutex_lock(&client->lock);
}

void unlock_handles(struct ipcd *client, const sigset_t *mask)
{
    pthread_mutex_unlock(&client->lock);
    pthread_sigmask(SIG_SETMASK, mask, NULL);
}

bool copy_handle(struct ipcd *client, size_t number, enum kind kind, struct handle *copy)
{
    if (number >= HANDLES)
        return false;
    sigset_t mask;
    lock_handles(client, &mask);
    *copy = client->handles[number];
    unlock_handles(client, &mask);
    return copy->is_open && copy->kind == kind;
}

static void set_path(struct ipcd *client, const char *path)
{
    if (path == NULL)
        path = secure_getenv("IPCD_SOCKET");
    if (path == NULL || *path == 0)
        path = "/run/ipcd/socket";
    snprintf(client->path, sizeof client->path, "%s", path);
}

static atomic_bool has_path;

static void set_path_of_process(void)
{
    set_path(&of_process, NULL);
    has_path = true;
}

// Signals are blocked: a handler that calls in the midst of it would wait for itself.
static void set_path_once(void)
{
    static pthread_once_t once = PTHREAD_ONCE_INIT;
    sigset_t all_signals, mask;
    sigfillset(&all_signals);
    pthread_sigmask(SIG_BLOCK, &all_signals, &mask);
    pthread_once(&once, set_path_of_process);
    pthread_sigmask(SIG_SETMASK, &mask, NULL);
}

struct ipcd *current_client(void)
{
    if (same_process != NULL && *same_process == 0)
        after_fork();
    if (used != NULL)
        return used;
    if (!has_path)
        set_path_once();
    return &of_process;
}

bool has_own_memory(void)
{
    current_client();
    return memory_of == getpid();
}

static bool try_take(struct link *link)
{
    if (link == NULL || atomic_exchange(&link->busy, 1) != 0)
        return false;
    link->holder = &thread;
    link->thread = (unsigned long) pthread_self();
    link->may_wait = false;
    return true;
}

void release(struct link *link)
{
    struct ipcd *client = link->client;
    client->answers += link->socket >= 0;
    // Whoever takes it next is its holder a moment later; until then this thread is not.
    link->holder = NULL;
    link->busy = 0;
    client->releases++;
    // Who wants this link has to be among those that are woken.
    if (client->sleepers > 0)
        syscall(SYS_futex, &client->releases, FUTEX_WAKE_PRIVATE, link->wanted > 0 ? INT_MAX : 1, NULL, NULL, 0);
}

// A link that is not connected, and is busy: one that was, or a new one in a place that is free; or NULL.
static struct link *add_link(struct ipcd *client)
{
    for (size_t i = 0; i < PROCESSES_MOST && client->links[i] != NULL; i++) {
        if (client->links[i]->socket >= 0 || !try_take(client->links[i]))
            continue;
        if (client->links[i]->socket < 0)
            return client->links[i];
        release(client->links[i]);
    }
    struct link *made = mmap(NULL, sizeof *made, PROT_READ | PROT_WRITE, MAP_PRIVATE | MAP_ANONYMOUS, -1, 0);
    if (made == MAP_FAILED) {
        errno = ENOMEM;
        return NULL;
    }
    made->busy = 1;
    made->client = client;
    made->holder = &thread;
    made->thread = (unsigned long) pthread_self();
    made->socket = -1;
    for (size_t i = 0; i < PROCESSES_MOST; i++) {
        struct link *none = NULL;
        if (atomic_compare_exchange_strong(&client->links[i], &none, made))
            return made;
    }
    give_back(made, sizeof *made);
    errno = ENFILE;
    return NULL;
}

// The effective user and group. What else is preloaded may tell the program of others.
static uint64_t current_user(void)
{
    static _Atomic uint64_t known;
    static atomic_uint known_at = UINT32_MAX;
    unsigned at = changes.of_users;
    if (!changes.are_heard || known_at != at) {
        known = user_of((uid_t) syscall(SYS_geteuid), (gid_t) syscall(SYS_getegid));
        known_at = at;
    }
    return known;
}

static bool is_of(const struct link *link, uint64_t user)
{
    return link->socket >= 0 && link->user == user;
}

// An idle link of this user: the one that this thread used last, else the first; or NULL.
static struct link *find_idle(struct ipcd *client, bool of_any_user)
{
    uint64_t user = of_any_user ? 0 : current_user();
    for (int others = 0; others < 2; others++) {
        for (size_t i = 0; i < PROCESSES_MOST && client->links[i] != NULL; i++) {
            struct link *link = client->links[i];
            bool fits = of_any_user ? link->socket >= 0 : is_of(link, user);
            if ((!others && link->owner != &thread) || !fits || !try_take(link))
                continue;
            // Meanwhile another thread may have lost it, or connected it again.
            if (of_any_user ? link->socket >= 0 : is_of(link, user))
                return link;
            release(link);
        }
    }
    return NULL;
}

// What other threads do. If it is nothing, all links are of calls that a handler of this one has interrupted.
enum use { UNUSED, WAITING, QUICK };

static enum use use_by_others(const struct ipcd *client)
{
    enum use use = UNUSED;
    for (size_t i = 0; i < PROCESSES_MOST && client->links[i] != NULL; i++) {
        const struct link *link = client->links[i];
        if (!link->busy || link->holder == &thread)
            continue;
        use = link->may_wait ? WAITING : QUICK;
        if (use == QUICK)
            break;
    }
    return use;
}

// Sleeps until a link is released, of which there were so many releases before. Whether a handler has ended it.
static bool wait_for_release(struct ipcd *client, unsigned before, int64_t most)
{
    struct timespec time = {most / 1000, most % 1000 * 1000000};
    client->sleepers++;
    long done = syscall(SYS_futex, &client->releases, FUTEX_WAIT_PRIVATE, before, &time, NULL, 0);
    client->sleepers--;
    return done < 0 && errno == EINTR;
}

// An idle link of this user, else a new one. Most calls are short, so as long as others' calls are answered one of
// those links is waited for: a new one is a process more of the server, and it has few.
static struct link *find(struct ipcd *client, bool of_any_user)
{
    int64_t since = 0;
    unsigned answers = 0;
    for (;;) {
        unsigned before = client->releases;
        struct link *link = find_idle(client, of_any_user);
        enum use use = link == NULL ? use_by_others(client) : UNUSED;
        if (link != NULL || use == UNUSED)
            return link != NULL ? link : add_link(client);
        int64_t now = clock_now();
        if (since == 0 || client->answers != answers) {
            since = now;
            answers = client->answers;
        }
        int64_t left = since + (use == QUICK ? LONG_GRACE : GRACE) - now;
        if (left <= 0)
            return add_link(client);
        wait_for_release(client, before, left);
    }
}

static bool is_still_there(struct link *link)
{
    unsigned at = changes.of_files;
    if (changes.are_heard && link->file_changes == at && link->socket >= 0)
        return true;
    link->file_changes = at;
    return link_is_there(link);
}

// Connects the link if need be. A socket that the program has closed is lost, with what the process had to undo.
static int wake(struct link *link)
{
    struct ipcd *client = link->client;
    bool is_first = client->links[0] == link;
    link->owner = is_first ? NULL : &thread;
    if (link->socket >= 0 && !is_still_there(link)) {
        bool has_undone = link->has_undone;
        link_drop(link);
        if (has_undone) {
            errno = ECONNRESET;
            return -1;
        }
    }
    if (link->socket < 0) {
        // What was told of an earlier connection is of another life.
        if (link->pids_come_again)
            no_more(client->path, &link->life, link->pid);
        if (link_connect(link, client->path) < 0)
            return -1;
        tell_process(client->path, &link->life, link->pid);
        if (is_first && open_all_again(link) < 0)
            return -1;
    }
    return close_stale(link);
}

static struct link *take(struct ipcd *client, bool of_any_user)
{
    int saved = errno, cancellation = hold_cancellation();
    for (;;) {
        unsigned answers = client->answers;
        struct link *link = find(client, of_any_user);
        if (link == NULL) {
            allow_cancellation(cancellation);
            return NULL;
        }
        link->saved_errno = saved;
        link->cancellation = cancellation;
        if (wake(link) == 0)
            return link;
        // There is no room for a process more, but those that there are may be free soon.
        bool goes_on = errno == ENFILE && client->answers != answers && use_by_others(client) != UNUSED;
        end(link, -1);
        if (!goes_on)
            return NULL;
        hold_cancellation();
    }
}

// Before a call by which another process may proceed, what was written into mapped segments is the server's.
static bool may_begin(enum opcode opcode)
{
    bool lets_proceed = opcode == MSGSND || opcode == SEMOP || opcode == SEM_SETVAL || opcode == SEM_SETALL ||
        opcode == MQ_SEND || opcode == SEM_POST;
    return !lets_proceed || write_back() == 0;
}

struct link *begin(enum opcode opcode)
{
    if (!may_begin(opcode))
        return NULL;
    struct link *link = take(current_client(), false);
    if (link != NULL)
        link_begin(link, opcode);
    return link;
}

// An idle link on which a handle is open.
static struct link *take_with(struct ipcd *client, size_t number, uint32_t generation)
{
    for (size_t i = 0; i < PROCESSES_MOST && client->links[i] != NULL; i++) {
        struct link *link = client->links[i];
        if (link->generations[number] != generation || !try_take(link))
            continue;
        link->saved_errno = errno;
        if (link->generations[number] == generation && is_still_there(link)) {
            link->cancellation = hold_cancellation();
            return link;
        }
        release(link);
    }
    return NULL;
}

// A link on which a handle is open, and that is not busy with a call that a handler of this thread has interrupted; or
// NULL. Another thread may have it, and may have released it meanwhile.
static struct link *link_with(struct ipcd *client, size_t number, uint32_t generation)
{
    for (size_t i = 0; i < PROCESSES_MOST && client->links[i] != NULL; i++) {
        struct link *link = client->links[i];
        if (link->generations[number] == generation && !(link->busy && link->holder == &thread))
            return link;
    }
    return NULL;
}

// The link on which a handle is open that cannot be opened on another: that of another thread, as soon as its call has
// ended or it lends it; or NULL, if none has it, or lends it for a second.
static struct link *borrow(struct ipcd *client, size_t number, uint32_t generation)
{
    struct link *link = link_with(client, number, generation), *taken = NULL;
    int64_t end = clock_now() + LONG_GRACE;
    int saved = errno;
    if (link == NULL)
        return NULL;
    link->wanted++;
    while (taken == NULL) {
        unsigned before = client->releases;
        taken = take_with(client, number, generation);
        if (taken != NULL || link->generations[number] != generation || clock_now() >= end)
            break;
        link_ask(link);
        wait_for_release(client, before, SHORT_TURN);
    }
    link->wanted--;
    errno = saved;
    return taken;
}

// Takes a link back that was lent: whether a handler has run meanwhile that ends calls, as far as that is known. Who
// wants it has it first, and then for a while.
static bool take_back(struct link *link, enum waiting waiting)
{
    struct ipcd *client = link->client;
    int64_t since = clock_now();
    bool is_ended = false;
    for (;;) {
        unsigned before = client->releases;
        int64_t passed = clock_now() - since;
        if ((link->wanted == 0 || passed >= LONG_GRACE) && try_take(link))
            return is_ended && (waiting == ENDED_BY_HANDLERS || (changes.are_heard && !changes.some_restart));
        if (passed >= LONG_TURN)
            link_ask(link);
        is_ended = wait_for_release(client, before, SHORT_TURN) || is_ended;
    }
}

// The request and where its reply goes are kept meanwhile. If the link has lost its connection, the call has too.
int lend(struct link *link, enum waiting waiting)
{
    size_t head = (size_t) (link->end - link->request);
    link->taken = 4 + (size_t) read_u32(link->input);
    unsigned char *request = mmap(NULL, head, PROT_READ | PROT_WRITE, MAP_PRIVATE | MAP_ANONYMOUS, -1, 0);
    if (request == MAP_FAILED)
        return EINTR;
    memcpy(request, link->request, head);
    const void *text = link->text;
    size_t text_size = link->text_size;
    uint64_t cookie = link->cookie;
    int saved = link->saved_errno, cancellation = link->cancellation;
    release(link);
    if (cancellation == PTHREAD_CANCEL_ENABLE && is_cancelled())
        end_if_cancelled(cancellation, request, head);
    bool is_ended = take_back(link, waiting);
    link->saved_errno = saved;
    link->cancellation = cancellation;
    bool is_there = link->socket >= 0 && link->cookie == cookie;
    if (is_there && !is_ended) {
        link_begin(link, CLOSE);
        memcpy(link->request, request, head);
        link->end = link->request + head;
        put_text(link, text, text_size);
    }
    give_back(request, head);
    return !is_there ? ECONNRESET : is_ended ? EINTR : 0;
}

// Whether a handle is open on a link, or is by now. Else the call on the link has ended, with an error.
static bool is_open_on(struct link *link, size_t number, const struct handle *handle)
{
    if (close_stale(link) == 0 && open_again(link, number, handle) == 0)
        return true;
    end(link, -1);
    return false;
}

// A link on which a handle is open. One that cannot be opened again, since its name is gone, may be open on a link
// that is busy. NULL with ENOENT, if it is open on none.
static struct link *take_on(struct ipcd *client, size_t number, const struct handle *handle)
{
    struct link *link = take_with(client, number, handle->generation);
    if (link == NULL && handle->is_unlinked)
        link = borrow(client, number, handle->generation);
    if (link == NULL)
        link = take(client, true);
    if (link == NULL || is_open_on(link, number, handle))
        return link;
    if (errno != ENOENT || handle->is_unlinked)
        return NULL;
    link = borrow(client, number, handle->generation);
    if (link == NULL)
        errno = ENOENT;
    return link == NULL || is_open_on(link, number, handle) ? link : NULL;
}

struct link *begin_on(struct ipcd *client, size_t number, enum kind kind, int wrong, enum opcode opcode)
{
    struct handle handle;
    if (!copy_handle(client, number, kind, &handle)) {
        errno = wrong;
        return NULL;
    }
    if (!may_begin(opcode))
        return NULL;
    struct link *link = take_on(client, number, &handle);
    if (link == NULL) {
        if (errno == ENOENT)
            errno = wrong;
        return NULL;
    }
    link_begin(link, opcode);
    put_u32(link, link->opened[number].descriptor);
    return link;
}

// After a restart of the server idle links have ended too: they are closed, so that the program hears of it once.
static void drop_ended(struct ipcd *client)
{
    for (size_t i = 0; i < PROCESSES_MOST && client->links[i] != NULL; i++) {
        struct link *link = client->links[i];
        char byte;
        if (!try_take(link))
            continue;
        if (link->socket >= 0 && recv(link->socket, &byte, 1, MSG_PEEK | MSG_DONTWAIT) == 0)
            link_drop(link);
        release(link);
    }
}

int close_on_idle_links(struct ipcd *client)
{
    int result = 0, error = errno;
    for (size_t i = 0; i < PROCESSES_MOST && client->links[i] != NULL; i++) {
        struct link *link = client->links[i];
        if (!try_take(link))
            continue;
        if (link_is_there(link) && close_stale(link) < 0) {
            result = -1;
            error = errno;
        }
        release(link);
    }
    errno = error;
    return result;
}

long end(struct link *link, long result)
{
    int error = errno;
    bool is_lost = result < 0 && error == ECONNRESET && link->socket < 0;
    int saved = link->saved_errno, cancellation = link->cancellation;
    struct ipcd *client = link->client;
    if (changes.calls != NULL && link->socket >= 0)
        ++*changes.calls;
    release(link);
    if (is_lost)
        drop_ended(client);
    allow_cancellation(cancellation);
    errno = saved;
    if (result < 0)
        errno = error;
    return result;
}

int end_empty(struct link *link, enum waiting waiting)
{
    return (int) end(link, link_exchange(link, waiting, 0, 0));
}

int end_number(struct link *link)
{
    if (link_exchange(link, ANSWERED_AT_ONCE, 4, 4) < 0)
        return (int) end(link, -1);
    uint32_t number = read_u32(link->body);
    if (number > INT32_MAX) {
        link_drop(link);
        errno = EPROTO;
        return (int) end(link, -1);
    }
    return (int) end(link, (long) number);
}

static void ask_thread_of(struct ipcd *client, unsigned long wanted)
{
    for (size_t i = 0; i < PROCESSES_MOST && client->links[i] != NULL; i++) {
        struct link *link = client->links[i];
        if (link->busy && link->thread == wanted && link->cancellation == PTHREAD_CANCEL_ENABLE)
            link_ask(link);
    }
}

void ask_thread(pthread_t wanted)
{
    pthread_mutex_lock(&all_lock);
    for (struct ipcd *client = &of_process; client != NULL; client = client->next)
        ask_thread_of(client, (unsigned long) wanted);
    pthread_mutex_unlock(&all_lock);
}

const char *ipcd_version(void)
{
    return IPCD_VERSION;
}

struct ipcd *ipcd_connect(const char *socket)
{
    current_client();
    if (socket != NULL && text_length(socket, sizeof of_process.path) < 0)
        return NULL;
    struct ipcd *made = calloc(1, sizeof *made);
    if (made == NULL)
        return NULL;
    pthread_mutex_init(&made->lock, NULL);
    set_path(made, socket);
    struct link *link = take(made, false);
    if (link == NULL) {
        int error = errno;
        made->next = NULL;
        ipcd_disconnect(made);
        errno = error;
        return NULL;
    }
    end(link, 0);
    pthread_mutex_lock(&all_lock);
    made->next = of_process.next;
    of_process.next = made;
    pthread_mutex_unlock(&all_lock);
    return made;
}

void ipcd_disconnect(struct ipcd *connection)
{
    if (connection == NULL || connection == &of_process)
        return;
    if (used == connection)
        used = NULL;
    if (connection->mapper != NULL)
        unmap_all(connection);
    int cancellation = hold_cancellation();
    pthread_mutex_lock(&all_lock);
    for (struct ipcd *it = &of_process; it != NULL; it = it->next)
        if (it->next == connection)
            it->next = connection->next;
    pthread_mutex_unlock(&all_lock);
    end_registrations(connection);
    tell_all_closed(connection);
    remove_places(connection);
    close_own_queues(connection);
    for (size_t i = 0; i < PROCESSES_MOST; i++) {
        struct link *link = connection->links[i];
        if (link == NULL)
            continue;
        if (link->socket >= 0)
            no_more(connection->path, &link->life, link->pid);
        link_drop(link);
        give_back(link, sizeof *link);
    }
    free(connection);
    allow_cancellation(cancellation);
}

struct ipcd *ipcd_use(struct ipcd *connection)
{
    struct ipcd *before = used;
    used = connection;
    return before;
}
