// Descriptors of POSIX queues under ipcd-run: each is one of the system's, an eventfd that the library sets as the
// queue is, so that poll(2) and its kin wait on it. It holds 0 if the queue is empty, the most if the queue is full.
#ifndef IPCD_QUEUE_FILES_H
#define IPCD_QUEUE_FILES_H

#include <mqueue.h>
#include <stdint.h>

#include "again.h"
#include "client.h"

// How many are open.
extern atomic_uint queue_files HIDDEN;

// Makes a descriptor, before its queue is open: -1 with the system's error. Then it is that of a queue, by libipcd's
// number, or is closed.
HIDDEN int make_queue_file(void);
HIDDEN mqd_t have_queue_file(int file, mqd_t queue);

// Before and after the system makes a copy of a descriptor of the queue of a place: has room for it, -1 with errno; and
// it is of the queue too, or, if there is no copy, there is none. Both are of a room.
HIDDEN int begin_copy(int place);
HIDDEN int end_copy(int room, int copy);

// The place of a descriptor, or -1 if it is of no queue.
HIDDEN int place_of_queue_file(int file);

// The same, quickly where no queue is open.
static inline int queue_place(int file)
{
    return queue_files == 0 ? -1 : place_of_queue_file(file);
}

// The place of a descriptor that is to be copied, or -1 if the copy is of no queue: a child of vfork(2) has its own.
static inline int place_to_copy(int file)
{
    int place = queue_place(file);
    return place >= 0 && has_own_memory() ? place : -1;
}

// Puts libipcd's number in place of a descriptor: -1, which each call refuses, if it is of no queue. False with errno,
// if a wait has had an error of the connection that the program has to hear.
HIDDEN bool find_queue(mqd_t *mqdes);

// Before and after the system closes a descriptor: libipcd's number, or -1 if it was of no queue, and closing that. The
// queue is closed with its last descriptor.
HIDDEN mqd_t forget_queue_file(int file);
HIDDEN int close_queue(mqd_t queue, int result);

// The same of each descriptor from `first` to `last`, after they were closed.
HIDDEN void close_queues(unsigned first, unsigned last);

// The flags of a queue as fcntl(2) has them, and setting O_NONBLOCK.
HIDDEN int flags_of_queue(int place);
HIDDEN int set_flags_of_queue(int place, long flags);

// An epoll instance watches the queue of a place, or does so no more.
HIDDEN void watch_queue(int place, int epoll, bool is_watched);

// Places as a set of bits: of the queue of a descriptor, or of those that only this epoll instance watches; and of all
// that it may watch.
HIDDEN uint64_t queues_behind(int file);
HIDDEN uint64_t queues_of_epoll(int epoll);

// Asks the server how these queues are, and sets their descriptors. A wait of epoll that begins has news of each that
// has messages, also with EPOLLET.
HIDDEN void ask_queues(uint64_t places, bool has_news, struct attempts *attempts);

#endif
