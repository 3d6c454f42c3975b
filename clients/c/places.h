// Places of named semaphores: a page for each that is open, whose address the program has, and which forked processes
// share.
#ifndef IPCD_PLACES_H
#define IPCD_PLACES_H

#include <semaphore.h>

#include "client.h"

// The semaphore stands in it if it is the C library's.
struct place {
    sem_t semaphore;
    atomic_int use;           // how many calls are at the server, or what places.c says
    uint64_t token;           // of those that share it, and of nobody else
};

// What a client knows of a place: it is none; its handle is the server's; it is the C library's, and the handle was
// left.
enum place_state { NO_PLACE, AT_SERVER, LEFT_SERVER };

HIDDEN struct place *place_of(struct ipcd *client, size_t number);

// The number of the handle at an address, or HANDLES.
HIDDEN size_t number_of_place(const struct ipcd *client, const sem_t *sem);

// Makes the place of a handle, while the lock of handles is held: 0, or -1 with ENOMEM.
HIDDEN int make_place(struct ipcd *client, size_t number, uint64_t token);
HIDDEN void remove_places(struct ipcd *client);

// Whether a semaphore is the C library's, by this process or another one.
HIDDEN bool is_own_place(struct ipcd *client, size_t number);

// A call begins: NULL with EINVAL, if no semaphore is open there. One of the server's has to leave; it does with a
// result.
HIDDEN struct place *enter_place(struct ipcd *client, const sem_t *sem, bool *is_own);
HIDDEN int leave_place(struct place *place, int result);

// While it changes calls wait. It does not begin while some are at the server. Whether it has become the C library's.
HIDDEN bool begin_change(struct place *place);
HIDDEN bool end_change(struct place *place, bool is_own);

// Lets a moment pass, as while another thread changes an object. errno stays.
HIDDEN void pause_shortly(void);

// What processes tell each other in the folder SOCKET.pids: which have a semaphore or a queue open. Each entry has a
// number, 0 if nothing could be told; those that share the place of a semaphore have one token.
HIDDEN uint64_t new_token(void);
HIDDEN uint64_t hash_of(const char *name, size_t length);
HIDDEN uint32_t tell_open(
    const struct ipcd *client, enum kind kind, const char *name, size_t length, uint64_t token);
HIDDEN void tell_closed(
    const struct ipcd *client, enum kind kind, const char *name, size_t length, uint32_t told);

// Whether a process has a semaphore open that does not share the place, or may have.
HIDDEN bool is_open_elsewhere(struct ipcd *client, size_t number, const struct handle *handle);

// How many opens of a queue there are, by all processes.
HIDDEN size_t opens_of_queue(const struct ipcd *client, const char *name, size_t length);

#endif
