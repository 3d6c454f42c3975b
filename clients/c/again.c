// Calls that wait for a server that is starting, see again.h.
#define _GNU_SOURCE
#include "again.h"

#include <errno.h>
#include <stdlib.h>
#include <time.h>

#include "client.h"
#include "link.h"

enum { PAUSE = 20 * 1000 * 1000 };

// Milliseconds, as ipcd-run has checked them.
static int64_t patience;

__attribute__((constructor)) static void read_patience(void)
{
    const char *text = secure_getenv("IPCD_WAIT");
    patience = text == NULL ? 0 : (int64_t) (strtod(text, NULL) * 1000);
}

struct attempts begin_attempts(void)
{
    return (struct attempts){errno, adjustments_lost, 0};
}

bool is_made_again(struct attempts *attempts)
{
    int error = errno;
    if (patience <= 0 || (error != ECONNREFUSED && error != ECONNRESET))
        return false;
    if (adjustments_lost != attempts->lost)
        return false;
    if (attempts->end == 0)
        attempts->end = clock_now() + patience;
    if (clock_now() >= attempts->end)
        return false;
    int cancellation = hold_cancellation();
    nanosleep(&(struct timespec){.tv_nsec = PAUSE}, NULL);
    allow_cancellation(cancellation);
    errno = attempts->saved_errno;
    return true;
}
