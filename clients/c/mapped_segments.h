// Segments that a program maps: those of System V, see mapped_segments.c; those of shm_open(3), see named_segments.c.
#ifndef IPCD_MAPPED_SEGMENTS_H
#define IPCD_MAPPED_SEGMENTS_H

#include "client.h"

// How many segments are mapped now, by all clients of the process.
extern atomic_uint mapped_segments HIDDEN;

// What was written into each that is attached, and then of both kinds: 0, or -1. For the first the lock is held.
HIDDEN int write_attached(void);
HIDDEN int write_mapped_back(void);

// What was written into mapped segments, by whomever, is the server's: 0, or -1 with an error of the connection. Else
// errno is as it was.
static inline int write_back(void)
{
    return mapped_segments == 0 ? 0 : write_mapped_back();
}

// As munmap(2), which is this one: by it the program detaches what it has attached, if it unmaps all of it.
HIDDEN int unmap_range(void *address, size_t length, int (*kernels)(void *, size_t));

// As write_back, if a segment is attached there.
HIDDEN int write_range(const void *address, size_t length);

// Detaches what a client has mapped, before it ends.
HIDDEN void unmap_all(struct ipcd *client);

// Around a fork: nothing is written back meanwhile. The child has what its parent had mapped.
HIDDEN void hold_mappings(void);
HIDDEN void let_mappings(void);
HIDDEN void renew_mappings(void);

#endif
