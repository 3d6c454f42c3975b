// POSIX queues that are the kernel's. One that is unlinked while it is open becomes so at that moment, with its
// messages, if no process has it open but this one. No crash keeps what has no name, so nothing is lost by it; and
// processes that are forked then, and mq_notify, which could not open it again by a name, have it.
#ifndef IPCD_OWN_QUEUES_H
#define IPCD_OWN_QUEUES_H

#include <mqueue.h>
#include <time.h>

#include "client.h"

// The C library's own calls.
struct system_queues {
    mqd_t (*open)(const char *, int, ...);
    int (*unlink)(const char *);
    int (*timedsend)(mqd_t, const char *, size_t, unsigned, const struct timespec *);
    ssize_t (*timedreceive)(mqd_t, char *, size_t, unsigned *, const struct timespec *);
    int (*getattr)(mqd_t, struct mq_attr *);
    int (*setattr)(mqd_t, const struct mq_attr *, struct mq_attr *);
    int (*notify)(mqd_t, const struct sigevent *);
};

HIDDEN const struct system_queues *system_queues(void);

// A call on a queue begins: the kernel's descriptor if it is the kernel's; else -1, and it has to leave.
HIDDEN mqd_t enter_queue(struct ipcd *client, size_t number);
HIDDEN void leave_queue(struct ipcd *client, size_t number);

// Closes the kernel's descriptor of a handle that is closed, if it has one, and those of all.
HIDDEN void close_own_queue(struct ipcd *client, size_t number);
HIDDEN void close_own_queues(struct ipcd *client);

// In a process that was forked no other thread is in a call.
HIDDEN void forget_uses(struct ipcd *client);

// Registers at the kernel's queue what is registered by a handle at the server, and ends that: see notifications.c.
HIDDEN void move_registration(struct ipcd *client, size_t number, mqd_t to);

#endif
