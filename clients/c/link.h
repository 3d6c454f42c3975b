// A link: one connection to a server, which is one process there, and one request at a time over it.
#ifndef IPCD_LINK_H
#define IPCD_LINK_H

#include <stdatomic.h>
#include <stdbool.h>
#include <stddef.h>
#include <stdint.h>
#include <sys/types.h>

#include "processes.h"
#include "semaphore_values.h"
#include "wire.h"

// Milliseconds in which the rest of a frame comes that has begun, and the second of two that come together.
#ifndef PATIENCE
#define PATIENCE 30000
#endif

enum { HANDLES = 512 };

// How a signal handler ends the call: not at all; always; or as SA_RESTART has it, see signal(7).
enum waiting { ANSWERED_AT_ONCE, ENDED_BY_HANDLERS, RESTARTED };

struct ipcd;

// A descriptor of the server for a handle of the client.
struct opened {
    uint32_t descriptor;
    bool nonblocking;
    bool is_attachment;
};

// Whoever has made `busy` 1 has the link. Others read only what is atomic.
struct link {
    atomic_int busy;
    struct ipcd *client;      // whose link it is, from the making to the end
    atomic_int socket;        // -1 if there is none
    uint64_t cookie;          // the system's number of the socket, which no other has
    _Atomic(const void *) owner; // the thread that used it last, if it is not the first link
    _Atomic(const void *) holder; // the thread whose call it has, if it is busy
    atomic_ulong thread;      // and its number
    atomic_int cancellation;  // of that thread, as it was before the call
    atomic_bool may_wait;     // whether its call may wait for others
    atomic_int lending;       // whether the call that waits may be interrupted for another thread, and is
    atomic_uint wanted;       // how many threads want the link, though its call waits
    _Atomic uint64_t user;    // of the process, see user_of
    char *into;               // where a body is to go
    size_t into_size;
    size_t placed;            // how many bytes of it are there
    uint32_t pid;             // the server's number of the process
    bool pids_come_again;     // after a restart of the server, as on a device of version 3
    struct life life;         // of the server, if so
    uint32_t serial;
    uint32_t file_changes;    // when it was last seen that the socket is there
    uint32_t closings;        // how many handles were closed when it was last looked through
    bool ends_always;         // whether a handler ends each read
    bool has_undone;          // whether adjustments may have been made
    int saved_errno;
    size_t filled;            // bytes of input that have come
    size_t taken;             // bytes of input that were answered already
    unsigned char *end;       // of the request
    const void *text;         // the caller's bytes that follow it
    size_t text_size;
    const unsigned char *body; // of the reply
    atomic_uint generations[HANDLES]; // of the handle for which `opened` counts; 0 if it is open for none
    struct opened opened[HANDLES];
    struct known_values known; // of the process that it is at the server
    unsigned char request[FRAME_BYTES];
    unsigned char input[2 * FRAME_BYTES];
};

// A user and a group as one number.
static inline uint64_t user_of(uid_t uid, gid_t gid)
{
    return (uint64_t) uid << 32 | gid;
}

// Milliseconds of a clock that is never set.
int64_t clock_now(void);

// Connects and says HELLO, as the effective user and group. 0, or -1: ECONNREFUSED without a server, ENFILE if it has
// no room for a process, or another error of connect(2). A HELLO that is ENFILE is said again for a while.
int link_connect(struct link *link, const char *path);

// How many links of this process have ended whose process of the server may have had adjustments (SEM_UNDO).
extern atomic_uint adjustments_lost __attribute__((visibility("hidden")));

// Closes the socket. It is forgotten only, if the program has closed it: then its number may be another's.
void link_drop(struct link *link);

// Whether the socket is still the one that was connected.
bool link_is_there(const struct link *link);

// A request begins, and has fields. What does not fit is left out, so callers keep to TEXT_MOST and PIECE_MOST.
void link_begin(struct link *link, enum opcode opcode);
void put_number(struct link *link, uint64_t number, size_t bytes);
void put_u16(struct link *link, uint32_t number);
void put_u32(struct link *link, uint32_t number);
void put_u64(struct link *link, uint64_t number);
void put_bytes(struct link *link, const void *bytes, size_t size);

// The request ends with bytes of the caller's, which the system reads: if it cannot, the exchange is EFAULT.
void put_text(struct link *link, const void *text, size_t size);

// The reply's body may go there at once, if it comes whole and it can be written: then `placed` is how many bytes did.
void read_into(struct link *link, void *into, size_t size);

// How many bytes a request may have still.
size_t room_left(const struct link *link);

// Sends the request, and waits for its reply: how many bytes its body has, from `least` to `most`, or -1 with the
// server's error, ECONNRESET if the connection has ended, EPROTO if the reply is none. After the last two, and EIO,
// the link is dropped.
ssize_t link_exchange(struct link *link, enum waiting waiting, size_t least, size_t most);

// Ends the call that waits on the link of another thread, if it does: that thread lends the link, and makes its call
// again.
void link_ask(struct link *link);

// Lets others have the link, whose call has not begun, and takes it back, with the call: 0, or an error. See client.c.
__attribute__((visibility("hidden"))) int lend(struct link *link, enum waiting waiting);

// The next frame of a link on which nobody waits for a reply, without its length: its size, or -1.
ssize_t link_next_frame(struct link *link, unsigned char *frame, size_t most);

// Sends the request and does not wait. 0, or -1.
int link_send(struct link *link);

#endif
