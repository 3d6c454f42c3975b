// Descriptors of POSIX queues under ipcd-run, see queue_files.h.
#define _GNU_SOURCE
#include "queue_files.h"

#include <errno.h>
#include <fcntl.h>
#include <poll.h>
#include <string.h>
#include <sys/eventfd.h>
#include <sys/stat.h>
#include <sys/syscall.h>
#include <unistd.h>

#include "handles.h"

// What an eventfd holds for a queue: a full one can be read and not written.
enum { EMPTY = 0, SOME = 1 };
static const uint64_t FULL = UINT64_MAX - 1, UNKNOWN = UINT64_MAX;

// Several epoll instances, of which none is known.
enum { SEVERAL = -1 };

// Each number is more by 1, and 0 is none.
struct queue_file {
    atomic_int file;
    atomic_int epoll;         // that watches it, or SEVERAL
    atomic_int error;         // that the program has to hear
};

// Each in the place that its handle has.
static struct queue_file all[DESCRIPTORS];
static atomic_uint past;      // those from there on are free

// Copies of descriptors, of which each is an open of its handle more: the place, more by 1, above the number, more by 1;
// that is 0 until the system has made it. 0 is none.
enum { COPIES = 64 };
static atomic_ullong copies[COPIES];
static atomic_uint past_copies;

atomic_uint queue_files;

int make_queue_file(void)
{
    return eventfd(0, EFD_CLOEXEC | EFD_NONBLOCK);
}

static mqd_t number_of(unsigned place)
{
    return FIRST_DESCRIPTOR + (mqd_t) place;
}

static unsigned long long copy_of(int place, int file)
{
    return ((unsigned long long) place + 1) << 32 | (unsigned) (file + 1);
}

static int place_of(unsigned long long copy)
{
    return (int) (copy >> 32) - 1;
}

static int file_of(unsigned long long copy)
{
    return (int) (copy & UINT32_MAX) - 1;
}

// The number of a copy among them, or -1.
static int find_copy(int file)
{
    unsigned end = past_copies;
    for (unsigned i = 0; file >= 0 && i < end; i++)
        if (file_of(copies[i]) == file)
            return (int) i;
    return -1;
}

int place_of_queue_file(int file)
{
    unsigned end = past;
    for (unsigned i = 0; i < end; i++)
        if (all[i].file == file + 1)
            return (int) i;
    int copy = find_copy(file);
    return copy < 0 ? -1 : place_of(copies[copy]);
}

// A copy of the descriptor of a place, or -1.
static int copy_of_place(int place)
{
    unsigned end = past_copies;
    for (unsigned i = 0; i < end; i++) {
        unsigned long long copy = copies[i];
        if (place_of(copy) == place && file_of(copy) >= 0)
            return file_of(copy);
    }
    return -1;
}

// A descriptor of the queue of a place, or -1.
static int file_of_place(unsigned place)
{
    int file = all[place].file - 1;
    return file >= 0 ? file : copy_of_place((int) place);
}

static mqd_t forget_place(unsigned place, int file)
{
    int expected = file + 1;
    if (!atomic_compare_exchange_strong(&all[place].file, &expected, 0))
        return -1;
    queue_files--;
    return number_of(place);
}

static mqd_t forget_copy(unsigned number, int file)
{
    unsigned long long copy = copies[number];
    if (file_of(copy) != file || !atomic_compare_exchange_strong(&copies[number], &copy, 0))
        return -1;
    queue_files--;
    return number_of((unsigned) place_of(copy));
}

// A child of vfork(2) closes descriptors that are its own, and uses its parent's memory.
mqd_t forget_queue_file(int file)
{
    int place = queue_place(file);
    if (place < 0 || !has_own_memory())
        return -1;
    int copy = find_copy(file);
    return copy < 0 ? forget_place((unsigned) place, file) : forget_copy((unsigned) copy, file);
}

int begin_copy(int place)
{
    for (unsigned i = 0; i < COPIES; i++) {
        unsigned long long none = 0;
        if (!atomic_compare_exchange_strong(&copies[i], &none, copy_of(place, -1)))
            continue;
        if (open_once_more(current_client(), (size_t) place))
            return (int) i;
        copies[i] = 0;
        errno = EBADF;
        return -1;
    }
    errno = EMFILE;
    return -1;
}

// One of the same number has been closed by the system, or by a way that nobody has heard of.
int end_copy(int room, int copy)
{
    int place = place_of(copies[room]), saved = errno;
    unsigned end = past_copies, next = (unsigned) room + 1;
    if (copy < 0) {
        copies[room] = 0;
        ipcd_mq_close(number_of((unsigned) place));
    } else {
        close_queue(forget_queue_file(copy), 0);
        copies[room] = copy_of(place, copy);
        while (end < next && !atomic_compare_exchange_weak(&past_copies, &end, next))
            continue;
        queue_files++;
    }
    errno = saved;
    return copy;
}

int close_queue(mqd_t queue, int result)
{
    if (queue < 0)
        return result;
    int closed = ipcd_mq_close(queue);
    return result < 0 ? result : closed;
}

void close_queues(unsigned first, unsigned last)
{
    int saved = errno;
    for (unsigned i = 0; queue_files > 0 && i < past; i++) {
        int file = all[i].file - 1;
        if (file >= 0 && (unsigned) file >= first && (unsigned) file <= last && has_own_memory())
            close_queue(forget_place(i, file), 0);
    }
    for (unsigned i = 0; queue_files > 0 && i < past_copies; i++) {
        int file = file_of(copies[i]);
        if (file >= 0 && (unsigned) file >= first && (unsigned) file <= last && has_own_memory())
            close_queue(forget_copy(i, file), 0);
    }
    errno = saved;
}

// One of the same number has been closed by a way that nobody has heard of.
mqd_t have_queue_file(int file, mqd_t queue)
{
    unsigned place = (unsigned) (queue - FIRST_DESCRIPTOR), end = past;
    close_queue(forget_queue_file(file), 0);
    all[place].epoll = all[place].error = 0;
    all[place].file = file + 1;
    while (end <= place && !atomic_compare_exchange_weak(&past, &end, place + 1))
        continue;
    queue_files++;
    return file;
}

bool find_queue(mqd_t *mqdes)
{
    int place = queue_place(*mqdes);
    *mqdes = place < 0 ? -1 : number_of((unsigned) place);
    if (place < 0 || all[place].error == 0)
        return true;
    errno = atomic_exchange(&all[place].error, 0);
    return errno == 0;
}

int flags_of_queue(int place)
{
    struct handle handle;
    if (!copy_handle(current_client(), (size_t) place, POSIX_QUEUE, &handle)) {
        errno = EBADF;
        return -1;
    }
    return (int) handle.access | (handle.nonblocking ? O_NONBLOCK : 0);
}

int set_flags_of_queue(int place, long flags)
{
    return ipcd_mq_setattr(
        number_of((unsigned) place), &(struct mq_attr){.mq_flags = flags & O_NONBLOCK}, &(struct mq_attr){0});
}

void watch_queue(int place, int epoll, bool is_watched)
{
    int none = 0, before = epoll + 1;
    // It may watch a copy too.
    if (!is_watched && copy_of_place(place) >= 0)
        return;
    if (!is_watched)
        atomic_compare_exchange_strong(&all[place].epoll, &before, 0);
    else if (!atomic_compare_exchange_strong(&all[place].epoll, &none, epoll + 1) && none != epoll + 1)
        all[place].epoll = SEVERAL;
}

uint64_t queues_behind(int file)
{
    uint64_t found = 0;
    unsigned end = queue_files == 0 ? 0 : past;
    for (unsigned i = 0; file >= 0 && i < end; i++)
        if (all[i].epoll == file + 1 && file_of_place(i) >= 0)
            found |= UINT64_C(1) << i;
    int place = end == 0 ? -1 : place_of_queue_file(file);
    return place < 0 ? found : found | UINT64_C(1) << place;
}

uint64_t queues_of_epoll(int epoll)
{
    uint64_t found = 0;
    unsigned end = queue_files == 0 ? 0 : past;
    for (unsigned i = 0; i < end; i++)
        if ((all[i].epoll == epoll + 1 || all[i].epoll == SEVERAL) && file_of_place(i) >= 0)
            found |= UINT64_C(1) << i;
    return found;
}

// Whether it is an eventfd: nobody has put another file there by a way that is not heard of.
static bool is_eventfd(int file)
{
    static _Atomic(dev_t) device;
    struct stat status;
    if (device == 0) {
        int made = eventfd(0, EFD_CLOEXEC);
        if (made < 0 || fstat(made, &status) < 0)
            return false;
        device = status.st_dev;
        syscall(SYS_close, made);
    }
    return fstat(file, &status) == 0 && status.st_dev == device;
}

// By the system's own calls, since those of the C library are redirected. Another process may have the descriptor too,
// after a fork, so what it holds is asked.
static void set_file(int file, uint64_t wanted, bool has_news)
{
    struct pollfd entry = {file, POLLIN | POLLOUT, 0};
    if (!is_eventfd(file) || syscall(SYS_ppoll, &entry, 1, &(struct timespec){0}, NULL, 0) < 0)
        return;
    uint64_t before, held = !(entry.revents & POLLIN) ? EMPTY : entry.revents & POLLOUT ? SOME : FULL;
    if (held == wanted && (wanted == EMPTY || !has_news))
        return;
    // It has been set meanwhile if one of these fails.
    bool is_read = held == EMPTY || syscall(SYS_read, file, &before, sizeof before) > 0;
    if (is_read && wanted != EMPTY)
        is_read = syscall(SYS_write, file, &wanted, sizeof wanted) > 0;
}

// The server's answer, or SOME if it has none: then the program calls, and hears why.
static uint64_t state_of(unsigned place, struct attempts *attempts)
{
    struct mq_attr attributes;
    if (ipcd_mq_getattr(number_of(place), &attributes) == 0)
        return attributes.mq_curmsgs == 0 ? EMPTY : attributes.mq_curmsgs < attributes.mq_maxmsg ? SOME : FULL;
    int error = errno;
    if (is_made_again(attempts))
        return UNKNOWN;
    if (error == ECONNRESET)
        all[place].error = error;
    return SOME;
}

void ask_queues(uint64_t places, bool has_news, struct attempts *attempts)
{
    for (unsigned i = 0; i < DESCRIPTORS; i++) {
        int file = (places >> i & 1) == 0 ? -1 : file_of_place(i);
        if (file < 0)
            continue;
        uint64_t state = state_of(i, attempts);
        if (state != UNKNOWN)
            set_file(file, state, has_news);
    }
}
