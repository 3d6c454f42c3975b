// The C library's own calls of POSIX queues, where its names are not redirected. The library that is preloaded finds
// them otherwise, see preload_posix.c.
#define _GNU_SOURCE
#include "own_queues.h"

const struct system_queues *system_queues(void)
{
    static const struct system_queues calls = {
        mq_open, mq_unlink, mq_timedsend, mq_timedreceive, mq_getattr, mq_setattr, mq_notify};
    return &calls;
}
