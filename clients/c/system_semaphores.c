// The C library's own calls of unnamed semaphores, where its names are not redirected. The library that is preloaded
// finds them otherwise, see preload_posix.c.
#define _GNU_SOURCE
#include "named_semaphores.h"

// Older ones have none.
extern int sem_clockwait(sem_t *, clockid_t, const struct timespec *) __attribute__((weak));

const struct system_semaphores *system_semaphores(void)
{
    static const struct system_semaphores calls = {
        sem_init, sem_wait, sem_trywait, sem_timedwait, sem_clockwait, sem_post, sem_getvalue};
    return &calls;
}
