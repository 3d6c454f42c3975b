// What the library that is preloaded says of itself: lines on standard error, and how many calls came to the server.
#define _GNU_SOURCE
#include <errno.h>
#include <fcntl.h>
#include <stdio.h>
#include <stdlib.h>
#include <string.h>
#include <sys/mman.h>
#include <sys/stat.h>
#include <unistd.h>

#include "changes.h"
#include "preload.h"

// Standard error as the program has found it: what it opens later by that number is its own.
static struct stat errors;
static bool has_errors, has_begun;

// ipcd-run's memory, in which the calls of all the programs that it has started are counted.
static void share_counts(const char *path)
{
    int file = open(path, O_RDWR | O_CLOEXEC);
    struct stat status;
    if (file < 0)
        return;
    void *place = MAP_FAILED;
    if (fstat(file, &status) == 0 && status.st_size >= (off_t) sizeof(atomic_ulong))
        place = mmap(NULL, sizeof(atomic_ulong), PROT_READ | PROT_WRITE, MAP_SHARED, file, 0);
    close(file);
    if (place != MAP_FAILED)
        changes.calls = place;
}

__attribute__((constructor)) static void begin_to_say(void)
{
    int saved = errno;
    const char *path = secure_getenv("IPCD_CHECK");
    if (has_begun)
        return;
    has_begun = true;
    has_errors = fstat(STDERR_FILENO, &errors) == 0;
    if (path != NULL && *path != 0)
        share_counts(path);
    errno = saved;
}

void say_once(atomic_bool *is_said, const char *text)
{
    struct stat now;
    char line[300];
    int saved = errno;
    // Another library's constructor may call before that of this one.
    begin_to_say();
    if (!atomic_exchange(is_said, true) && has_errors && fstat(STDERR_FILENO, &now) == 0 &&
        now.st_dev == errors.st_dev && now.st_ino == errors.st_ino) {
        int size = snprintf(line, sizeof line, "ipcd-run: %.100s: %.180s\n", program_invocation_short_name, text);
        ssize_t written = write(STDERR_FILENO, line, (size_t) size);
        (void) written;
    }
    errno = saved;
}
