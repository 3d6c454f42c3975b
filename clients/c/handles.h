// Handles: descriptors of POSIX queues and segments, and named semaphores, which each link opens by name; and
// attachments of System V segments, which each link makes by identifier.
#ifndef IPCD_HANDLES_H
#define IPCD_HANDLES_H

#include "client.h"

// What an open asks beside the name.
struct wanted {
    enum kind kind;
    uint32_t flags;
    uint32_t mode;
    uint32_t value;           // of a new semaphore
    bool has_attributes;
    int32_t maxmsg;
    int32_t msgsize;
    uint32_t shmid;           // of an attachment
    uint64_t token;           // of a semaphore that is new to this process: see places.h
    uint32_t told;            // what was told of that, or of a queue
};

// Opens an object by its name: the number of its handle, or -1. A semaphore that is open has its handle again.
HIDDEN int open_handle(struct ipcd *client, const char *name, const struct wanted *wanted);

// Attaches a segment: the number of the handle, or -1.
HIDDEN int attach_handle(struct ipcd *client, const struct wanted *wanted);

// Closes a handle: 0, or -1 with `wrong` if it is not open as this, or ECONNRESET; then it is closed too.
HIDDEN int close_handle(struct ipcd *client, size_t number, enum kind kind, int wrong);

// Opens a handle of a queue once more, so that it is closed once more: whether it is open.
HIDDEN bool open_once_more(struct ipcd *client, size_t number);

// Copies a name, as far as a frame has room, and a byte 0: how many bytes the name has, or -1 with EFAULT. The C
// library takes names of semaphores and segments with any number of slashes before them, also none, as with one.
enum { NAME_ROOM = PIECE_MOST + 2 };
HIDDEN ssize_t read_name(const char *name, enum kind kind, char *copy);

// The number of a handle that is open on an object of this name, or -1.
HIDDEN int handle_of_name(struct ipcd *client, const char *name, size_t length, enum kind kind);

// The numbers of all those: how many they are.
HIDDEN size_t handles_of_name(
    struct ipcd *client, const char *name, size_t length, enum kind kind, uint16_t *numbers);

// Tells that nothing of a client is open any more.
HIDDEN void tell_all_closed(struct ipcd *client);

// A handle is nothing more to the server, since the semaphore is the C library's from now on.
HIDDEN void leave_server(struct ipcd *client, size_t number);

// The same of a queue that is the kernel's: whether its handle was open.
HIDDEN bool leave_server_queue(struct ipcd *client, size_t number);

// Takes a name off an object: 0, or -1.
HIDDEN int unlink_name(struct ipcd *client, const char *name, enum kind kind, enum opcode opcode);

// Notes that a name was taken off an object.
HIDDEN void note_name_gone(struct ipcd *client, const char *name, size_t length, enum kind kind);

// Opens a handle, as a copy has it, on a link too, if it is not open there: 0, or -1; ENOENT if its name is gone.
HIDDEN int open_again(struct link *link, size_t number, const struct handle *handle);

// Opens all handles on a new link, as far as their names are there: 0, or -1 if the link is lost.
HIDDEN int open_all_again(struct link *link);

// Closes what is open on the link of handles that were closed since: 0, or -1 if the link is lost.
HIDDEN int close_stale(struct link *link);

// Closes them on each link on which no call waits: 0, or -1 if one is lost.
HIDDEN int close_on_idle_links(struct ipcd *client);

// Ends what waits for notifications of a handle, or of all: see notifications.c.
HIDDEN void end_registration_of(struct ipcd *client, size_t number);
HIDDEN void end_registrations(struct ipcd *client);

// After a message was sent: waits until a notification of it, if this process has registered with the queue, has come.
HIDDEN void await_registration(struct ipcd *client, size_t number);

#endif
