// The files of segments of shm_open(3) that are mapped, in the folder SOCKET.pids: an `n`, the system's boot, and the
// hash of the name has the bytes, which programs map, cut and close as any file; a `k` has what processes share, and
// the bytes as the server has them.
#ifndef IPCD_NAMED_FILES_H
#define IPCD_NAMED_FILES_H

#include "segment_files.h"

// The files of a segment.
struct named_files {
    struct shared *shared;    // the first page of what is shared
    unsigned char *known;     // and the rest
    unsigned char *bytes;     // as long as any segment may be
    int lock;                 // of the second file: open, and locked as long as a process has it
    int file;                 // of the first, while it is filled; else -1
    bool is_first;            // nobody else has it
};

// While it is held no other process opens or removes files, except one that has waited for it for 2 s: a descriptor,
// which is closed, or -1.
HIDDEN int lock_folder(const struct ipcd *client);

// Opens the files of a segment: 0, or -1. Those of a segment that is new are made anew. And a descriptor of the bytes for
// the program, or -1.
HIDDEN int open_named_files(const struct ipcd *client, const char *name, bool is_new, struct named_files *files);
HIDDEN int open_named_bytes(const struct ipcd *client, const char *name, int access);

// Opens those that are there for a moment, as to remove the segment: whether they are there.
HIDDEN bool look_at_named_files(const struct ipcd *client, const char *name, struct named_files *files);
HIDDEN void close_named_files(struct named_files *files);
HIDDEN void remove_named_files(const struct ipcd *client, const char *name);

// Who has the file of a segment that is unlinked finds the mode of that segment.
HIDDEN void give_mode(const struct ipcd *client, const char *name, mode_t mode);

// Makes room for bytes that the server has, so that no write to the memory fails: 0, or an error.
HIDDEN int have_room_for_known(const struct named_files *files, size_t size);

#endif
