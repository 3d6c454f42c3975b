// Calls that wait for a server that is starting, as ipcd-run is told: one that finds none, or whose connection ends, is
// made again, for so many seconds from its first failure on.
#ifndef IPCD_AGAIN_H
#define IPCD_AGAIN_H

#include <stdbool.h>
#include <stdint.h>

struct attempts {
    int saved_errno;
    unsigned lost;            // how often adjustments were lost before
    int64_t end;              // when the last one begins, or 0 before the first has failed
};

__attribute__((visibility("hidden"))) struct attempts begin_attempts(void);

// After a call that has failed: whether it is to be made again, after a pause. Not one by which the program hears that
// the adjustments of SEM_UNDO were added: what it had locked is locked no more.
__attribute__((visibility("hidden"))) bool is_made_again(struct attempts *attempts);

// The body of a call.
#define SERVED(type, call, failed) \
    do { \
        struct attempts attempts = begin_attempts(); \
        type result; \
        do \
            result = (call); \
        while (result == (failed) && is_made_again(&attempts)); \
        return result; \
    } while (0)

#endif
