// What IPC_INFO and its kin answer: the standard limits of a server, which tells nobody its own, and counts of the
// objects that this client has got, since no call lists those of others.
#ifndef IPCD_INFO_H
#define IPCD_INFO_H

#include "client.h"

// See docs/PROTOCOL.md, "Limits".
enum {
    PROCESSES = 64,
    MSGMNI = 64, MSGMAX = 65536, MSGMNB = 65536,
    SEMMNI = 32, SEMMSL = 64, SEMMNS = 512, SEMOPM = 32, SEMVMX = 32767,
    SHMMNI = 32, SHMMAX = 1048576, SHMALL = 1048576, ATTACHMENTS = 32,
};

// Notes that a client has got this object, if it is one: an identifier above 0. Answers the identifier.
HIDDEN int noted(struct ipcd *client, enum family family, int id);

// Calls `add` for each object that was noted, if it is there still: 0, with errno as it was, or -1. `add` adds what the
// object has to `counts`; it answers 0, or -1 with an error of IPC_STAT. Of one that the caller may not read nothing is
// added, but it is counted.
HIDDEN int count_each(struct ipcd *client, enum family family, int (*add)(int id, void *counts), void *counts,
                      int *objects);

// Whether this may be asked: 0, or -1 with an error. The identifier means nothing else, there has to be room for the
// answer, and a server, as for each call.
HIDDEN int ask_for_info(int id, void *info, size_t size);

#endif
