// Named semaphores: which addresses are of them, and those that are the C library's. One that is unlinked while it is
// open becomes so at that moment, if no process has it open but this one and those that were forked since the open:
// its value stands in memory that they share. No crash keeps what has no name, so nothing is lost by it; and forked
// processes and other threads, which could not open it again, go on.
#ifndef IPCD_NAMED_SEMAPHORES_H
#define IPCD_NAMED_SEMAPHORES_H

#include <semaphore.h>
#include <time.h>

#include "client.h"

// The C library's own calls, of semaphores without a name. It may have no `clockwait`.
struct system_semaphores {
    int (*init)(sem_t *, int, unsigned);
    int (*wait)(sem_t *);
    int (*trywait)(sem_t *);
    int (*timedwait)(sem_t *, const struct timespec *);
    int (*clockwait)(sem_t *, clockid_t, const struct timespec *);
    int (*post)(sem_t *);
    int (*getvalue)(sem_t *, int *);
};

HIDDEN const struct system_semaphores *system_semaphores(void);

HIDDEN bool is_named_semaphore(const sem_t *sem);

#endif
