// Bytes of a segment that programs map, beside what the server has of them: filling them, and writing back what differs.
#ifndef IPCD_WRITE_BACK_H
#define IPCD_WRITE_BACK_H

#include "segment_files.h"

struct kept {
    struct shared *shared;
    unsigned char *bytes;     // as programs have them
    unsigned char *known;     // as the server has them
    size_t size;
    int number;               // by which they go: an attachment, or a descriptor
    bool is_named;            // that of a segment of shm_open(3)
};

// Whether a request of a mapper is made once more: its connection has ended, as at a restart of the server.
HIDDEN bool is_asked_again(int *tries);

// A process that was killed leaves the lock. One that was stopped keeps it, and is not waited for, as one is whose
// writes are answered. What it writes later is written again.
HIDDEN bool lock_shared(struct shared *shared);
HIDDEN void unlock_shared(struct shared *shared, bool is_locked);

// Takes what the server has where nobody has written since it was known. It differs if clients have written it by
// requests, or if another device is served. Where a write has got no answer the bytes of the file count. 0, or -1.
HIDDEN int fill(const struct kept *it);

// Writes each piece that differs: 0, or -1. Whoever calls has the lock.
HIDDEN int write_changes(const struct kept *it);

#endif
