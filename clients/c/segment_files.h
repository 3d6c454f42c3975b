// The files of segments that are mapped, in the folder SOCKET.pids, each with a name of its identifier and of the
// system's boot: after another one the server's bytes are the later ones.
#ifndef IPCD_SEGMENT_FILES_H
#define IPCD_SEGMENT_FILES_H

#include <pthread.h>
#include <stdatomic.h>

#include "client.h"
#include "info.h"

// Bytes are compared and written by pieces of this size.
enum { COMPARED = 4096, PIECES = SHMMAX / COMPARED };

// The last page of a file, of all processes.
struct shared {
    pthread_mutex_t lock;
    atomic_bool is_filled;
    atomic_bool is_removed;   // by IPC_RMID: the file goes with the last attachment
    atomic_uint answers;      // of requests that whoever has the lock has made
    atomic_uint writes;       // how many were begun
    atomic_uint unanswered[PIECES]; // of each piece the number of a write that may be done or not, or 0
    atomic_ulong size;        // of a segment of shm_open(3)
    atomic_uint mode;         // of that
    char name[NAME_MOST + 1]; // of that
};

_Static_assert(sizeof(struct shared) <= 4096, "it has room on the smallest page");

// The system's boot, as far as it can be read: at most so many bytes, and a byte 0.
enum { BOOT = 36 };
HIDDEN void name_boot(char *text);

// Makes what processes share, of which all bytes are 0.
HIDDEN void prepare_shared(struct shared *shared);

// The file of a segment, of this length: it is made if there is none. A descriptor, or -1.
HIDDEN int open_file(const struct ipcd *client, int shmid, size_t length);

// After an IPC_RMID: the file goes too, at once or with the last attachment.
HIDDEN void forget_file(const struct ipcd *client, int shmid);

#endif
