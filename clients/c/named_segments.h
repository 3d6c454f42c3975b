// Segments of shm_open(3) that programs map, under ipcd-run --segments: see named_segments.c.
#ifndef IPCD_NAMED_SEGMENTS_H
#define IPCD_NAMED_SEGMENTS_H

#include <sys/stat.h>

#include "client.h"

// How many are open or mapped.
extern atomic_uint named_segments HIDDEN;

// As shm_open(3): a descriptor of the system's. As shm_unlink(3).
HIDDEN int open_named(const char *name, int flags, mode_t mode);
HIDDEN int unlink_named(const char *name);

// The place of the segment of a descriptor, or -1.
HIDDEN int place_of_named(int fd);
static inline int named_place(int fd)
{
    return named_segments == 0 || fd < 0 ? -1 : place_of_named(fd);
}

// As ftruncate(2) of the segment of a place, by a descriptor of the program.
HIDDEN int cut_named(int place, int fd, off_t length);

// Notes what the program has mapped, and what it unmaps. That is written back.
HIDDEN void note_mapped(int place, void *address, size_t length);
HIDDEN void note_unmapped(void *address, size_t length);
HIDDEN bool overlaps_named(const char *from, const char *to);

// Puts owner and mode of the segment into what fstat(2) has found of its file.
HIDDEN void tell_owner(struct stat *status);

// What was written into them is the server's: 0, or -1. What no mapping and no descriptor is left of is closed. The
// lock is held.
HIDDEN int write_named(void);
HIDDEN void leave_unused(void);
HIDDEN void leave_all(struct ipcd *mapper);

#endif
