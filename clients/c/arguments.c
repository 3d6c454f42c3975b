// Arguments that several calls have: modes, times.
#define _GNU_SOURCE
#include "client.h"

#include <errno.h>
#include <fcntl.h>
#include <stdlib.h>
#include <string.h>
#include <sys/stat.h>
#include <unistd.h>

#include "memory.h"

uint32_t masked(mode_t mode)
{
    char text[4096];
    int saved = errno, cancellation = hold_cancellation();
    int file = open("/proc/self/status", O_RDONLY | O_CLOEXEC);
    ssize_t size = file < 0 ? -1 : read(file, text, sizeof text - 1);
    if (file >= 0)
        close(file);
    allow_cancellation(cancellation);
    errno = saved;
    text[size < 0 ? 0 : size] = 0;
    const char *found = strstr(text, "\nUmask:");
    if (found != NULL)
        return mode & ~(uint32_t) strtoul(found + strlen("\nUmask:"), NULL, 8) & 07777;
    mode_t mask = umask(077);
    umask(mask);
    return mode & ~mask & 07777;
}

int milliseconds(const struct timespec *time, uint64_t *answer)
{
    *answer = NO_TIME;
    if (time == NULL)
        return 0;
    if (!is_readable(time, sizeof *time))
        return EFAULT;
    if (time->tv_sec < 0 || time->tv_nsec < 0 || time->tv_nsec >= 1000000000)
        return EINVAL;
    if ((uint64_t) time->tv_sec < NO_TIME / 1000 - 1)
        *answer = (uint64_t) time->tv_sec * 1000 + (uint64_t) (time->tv_nsec + 999999) / 1000000;
    return 0;
}
