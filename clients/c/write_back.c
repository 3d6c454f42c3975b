// What programs have written into a segment that they map, and what the server has of it, see write_back.h.
#define _GNU_SOURCE
#include "write_back.h"

#include <errno.h>
#include <string.h>

enum { PATIENT = 2, TRIES = 3 };

bool is_asked_again(int *tries)
{
    return errno == ECONNRESET && ++*tries < TRIES;
}

static ssize_t read_piece(const struct kept *it, void *piece, size_t size, size_t offset)
{
    int tries = 0;
    ssize_t done;
    do
        done = it->is_named ? ipcd_pread(it->number, piece, size, (off_t) offset)
                            : ipcd_shmread(it->number, piece, size, (off_t) offset);
    while (done < 0 && is_asked_again(&tries));
    return done;
}

static ssize_t write_piece(const struct kept *it, const void *piece, size_t size, size_t offset)
{
    int tries = 0;
    ssize_t done;
    do
        done = it->is_named ? ipcd_pwrite(it->number, piece, size, (off_t) offset)
                            : ipcd_shmwrite(it->number, piece, size, (off_t) offset);
    while (done < 0 && is_asked_again(&tries));
    return done;
}

bool lock_shared(struct shared *shared)
{
    unsigned before;
    int error;
    do {
        struct timespec end;
        clock_gettime(CLOCK_REALTIME, &end);
        end.tv_sec += PATIENT;
        before = shared->answers;
        error = pthread_mutex_timedlock(&shared->lock, &end);
    } while (error == ETIMEDOUT && shared->answers != before);
    if (error == EOWNERDEAD)
        pthread_mutex_consistent(&shared->lock);
    return error == 0 || error == EOWNERDEAD;
}

void unlock_shared(struct shared *shared, bool is_locked)
{
    int error = errno;
    if (is_locked)
        pthread_mutex_unlock(&shared->lock);
    errno = error;
}

int fill(const struct kept *it)
{
    unsigned char piece[COMPARED];
    for (size_t at = 0; at < it->size; at += COMPARED) {
        size_t size = it->size - at < COMPARED ? it->size - at : COMPARED;
        if (read_piece(it, piece, size, at) < 0)
            return -1;
        it->shared->answers++;
        if (memcmp(it->known + at, piece, size) == 0)
            continue;
        if (it->shared->unanswered[at / COMPARED] == 0 && memcmp(it->bytes + at, it->known + at, size) == 0)
            memcpy(it->bytes + at, piece, size);
        memcpy(it->known + at, piece, size);
    }
    it->shared->is_filled = true;
    return 0;
}

// Writes a piece that may differ from what the server has. While no answer has come the server may have it or not, so
// it is written again, also if the program has written back what was there before: a number says of which write that
// is. If another process has written the piece meanwhile, which does not wait for one that was stopped, nobody knows
// whose write came last.
static int write_change(const struct kept *it, size_t at, size_t size)
{
    unsigned char piece[COMPARED];
    atomic_uint *unanswered = &it->shared->unanswered[at / COMPARED];
    // An odd one, so not 0.
    unsigned number = 2 * ++it->shared->writes + 1, expected = number;
    *unanswered = number;
    memcpy(piece, it->bytes + at, size);
    if (write_piece(it, piece, size, at) < 0)
        return -1;
    it->shared->answers++;
    memcpy(it->known + at, piece, size);
    if (!atomic_compare_exchange_strong(unanswered, &expected, 0))
        *unanswered = number;
    return 0;
}

int write_changes(const struct kept *it)
{
    int result = 0;
    for (size_t at = 0; result == 0 && at < it->size; at += COMPARED) {
        size_t size = it->size - at < COMPARED ? it->size - at : COMPARED;
        if (it->shared->unanswered[at / COMPARED] != 0 || memcmp(it->bytes + at, it->known + at, size) != 0)
            result = write_change(it, at, size);
    }
    return result;
}
