// What segments of both kinds share that programs map: a client within a client, its mapper, by whose connection bytes
// go, so that no error which the program has to hear is spent on them; a lock; and a thread that writes back.
#ifndef IPCD_MAPPER_H
#define IPCD_MAPPER_H

#include "client.h"

// Whoever has the lock blocks all signals, and uses the client that it wants.
struct held {
    sigset_t mask;
    struct ipcd *used;
    int cancellation, saved_errno;
};

HIDDEN struct held hold(void);

// Whether this thread has it: what it maps and cuts then is no segment of the program's.
HIDDEN bool holds(void);

// errno is as it was before, unless the result is negative.
HIDDEN int let(const struct held *held, int result);

// The mapper of a client, made if there is none: NULL with an error of the connection. The lock is held.
HIDDEN struct ipcd *mapper_of(struct ipcd *client);

// Begins the thread, if a segment is mapped. The lock is held.
HIDDEN void have_a_thread(void);

HIDDEN size_t pages_of(size_t size);

#endif
