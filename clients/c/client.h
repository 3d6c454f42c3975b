// A client: its links, the handles that it has open, and how each call begins and ends.
#ifndef IPCD_CLIENT_H
#define IPCD_CLIENT_H

#include <pthread.h>
#include <signal.h>
#include <stdatomic.h>
#include <stdbool.h>

#include "ipcd.h"
#include "link.h"

#define HIDDEN __attribute__((visibility("hidden")))

// Handles from 0 are descriptors of POSIX queues and segments, and attachments; from DESCRIPTORS on named semaphores.
// The first descriptor is the first number that no file has: fs.nr_open ends below it.
enum { DESCRIPTORS = 64, SEMAPHORES = HANDLES - DESCRIPTORS, FIRST_DESCRIPTOR = 0x7fffffc0 };

enum kind { POSIX_QUEUE, SEGMENT, NAMED_SEMAPHORE, ATTACHMENT };

struct handle {
    uint32_t generation;      // is another after each close
    bool is_open;
    bool is_unlinked;         // by this process: its name is of nothing, or of something else
    bool is_own;              // a semaphore that is the C library's, see named_semaphores.h
    enum kind kind;
    uint32_t access;
    uint32_t shmid;           // of an attachment
    bool nonblocking;
    unsigned opens;           // how many times sem_open answered it, or how many descriptors a queue has
    uint32_t told;            // of which entry of which process it was told that it is open; 0 if of none
    pid_t teller;
    size_t length;
    char name[NAME_MOST + 1];
};

struct registration;

// A queue that is the kernel's, see own_queues.h.
struct own_queue {
    atomic_int use;           // how many calls are at the server, or what own_queues.c says
    int file;                 // the descriptor, of which file it is
    dev_t device;
    ino_t inode;
};

// Objects with identifiers, and how many of each a client keeps in mind: as many as there may be.
enum family { QUEUES, SETS, SEGMENTS, FAMILIES };
enum { SEEN = 64 };

struct ipcd {
    struct ipcd *next;
    pthread_mutex_t lock;     // of handles and registrations; whoever has it blocks all signals
    atomic_uint closings;     // how many handles were closed
    atomic_uint releases;     // how many calls have ended
    atomic_uint answers;      // and of those whose connection lasts
    atomic_int sleepers;      // threads that wait for a link
    _Atomic(struct link *) links[PROCESSES_MOST];
    struct handle handles[HANDLES];
    _Atomic(char *) places;   // of semaphores, a page each, or NULL if none was opened yet
    atomic_uchar states[SEMAPHORES]; // of these, see places.h
    struct own_queue own_queues[DESCRIPTORS];
    struct registration *registrations;
    atomic_uint registered;   // how many those are
    uint32_t asked;           // the last serial of an INTERRUPT to one of them
    atomic_uint news;         // how many frames came to them: whoever waits for one sleeps on it
    struct ipcd *mapper;      // or NULL: see mapped_segments.c
    atomic_uint seen[FAMILIES][SEEN]; // identifiers that were got, in no order; 0 in a place that is free
    char path[256];           // is written before another thread knows of the client
};

// The handle of a descriptor, which is none if that is no number of this library.
static inline size_t handle_of(int descriptor)
{
    return descriptor < FIRST_DESCRIPTOR ? HANDLES : (size_t) (descriptor - FIRST_DESCRIPTOR);
}

HIDDEN struct ipcd *current_client(void);

// Whether this process has the memory, and not its parent, which waits until a child of vfork(2) is gone.
HIDDEN bool has_own_memory(void);

// Ends the call that waits of a thread, if there is one and its thread may be cancelled.
HIDDEN void ask_thread(pthread_t wanted);

// Whoever waits for a link of its client takes this one, if it wants.
HIDDEN void release(struct link *link);

// No call is a point of cancellation: what a call does would else leave the link in mid-frame.
HIDDEN int hold_cancellation(void);
HIDDEN void allow_cancellation(int before);

HIDDEN void lock_handles(struct ipcd *client, sigset_t *mask);
HIDDEN void unlock_handles(struct ipcd *client, const sigset_t *mask);

// Whether a number is that of a handle that is open as this: then there is a copy of it, as it was at one moment.
HIDDEN bool copy_handle(struct ipcd *client, size_t number, enum kind kind, struct handle *copy);

// A call begins over a link that is idle, of the effective user and group, or NULL with an error of link_connect.
HIDDEN struct link *begin(enum opcode opcode);

// A call on a handle begins: the server's descriptor is its first field. NULL with `wrong`, if it is not open as this.
HIDDEN struct link *begin_on(struct ipcd *client, size_t number, enum kind kind, int wrong, enum opcode opcode);

// The call ends, with this result: the link is idle. errno is as it was before, unless the result is negative.
HIDDEN long end(struct link *link, long result);

// It ends by a reply without a body, or with a number.
HIDDEN int end_empty(struct link *link, enum waiting waiting);
HIDDEN int end_number(struct link *link);

// What is left of a mode with the umask of the process.
HIDDEN uint32_t masked(mode_t mode);

// A time of timespec in milliseconds, rounded up: 0, or EINVAL. Without a time it is NO_TIME.
HIDDEN int milliseconds(const struct timespec *time, uint64_t *answer);

// Closes a link's copies in a process that was forked, and those of registrations: see notifications.c.
HIDDEN void forget_registrations(struct ipcd *client);

#endif
