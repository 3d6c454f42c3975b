// What a connection knows of the semaphores that it has changed: how small a value may be after its last change. With
// the value, and the process that has changed it last, this may show that a semop(2) was done whose reply was lost.
#ifndef IPCD_SEMAPHORE_VALUES_H
#define IPCD_SEMAPHORE_VALUES_H

#include <stddef.h>
#include <stdint.h>

enum { KNOWN_VALUES = 64 };

struct known_value {
    uint32_t semid;
    uint16_t number;
    uint16_t least;
};

struct known_values {
    unsigned count;           // above KNOWN_VALUES if there was no room for all
    struct known_value of[KNOWN_VALUES];
};

// A semop over a connection that has ended before its reply.
struct lost_semop {
    uint32_t pid;             // the server's number of the process; 0 if no semop was lost, or it may be another's now
    struct known_values known;
};

struct sembuf;
struct timespec;

// A change that was done.
__attribute__((visibility("hidden"))) void note_value(
    struct known_values *known, uint32_t semid, uint16_t number, uint16_t least);

// How small a value may be, if its semaphore was not changed since: greater than any, if it never was changed before.
__attribute__((visibility("hidden"))) uint32_t least_value(
    const struct known_values *known, uint32_t semid, uint16_t number);

// As semtimedop(2). If it fails with ECONNRESET, it may be made again with the same `lost`, whose pid is 0 at first:
// then it is not done again if it is known to have been done.
__attribute__((visibility("hidden"))) int semtimedop_once(
    int semid, struct sembuf *sops, size_t nsops, const struct timespec *timeout, struct lost_semop *lost);

#endif
