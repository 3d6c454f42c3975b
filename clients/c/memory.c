// Whether the caller's memory can be read and written: two calls of the system that touch it and do nothing else.
#define _GNU_SOURCE
#include "memory.h"

#include <errno.h>
#include <linux/futex.h>
#include <signal.h>
#include <stdint.h>
#include <string.h>
#include <sys/syscall.h>
#include <unistd.h>

enum { NO_SUCH_HOW = 99 };

// Bytes of a page, a power of two.
static uintptr_t page(void)
{
    return (uintptr_t) sysconf(_SC_PAGESIZE);
}

// The system reads a signal set, if it is given one, before it looks what is to be done with it: nothing it knows.
static bool reads(uintptr_t at)
{
    if (at < page())
        return false;
    return syscall(SYS_rt_sigprocmask, NO_SUCH_HOW, at & ~(uintptr_t) 7, NULL, 8) == 0 || errno != EFAULT;
}

// Adds 0 to a word, whatever it is, and wakes nobody.
static bool writes(uintptr_t at)
{
    uint32_t nobody = 0;
    long operation = FUTEX_OP(FUTEX_OP_ADD, 0, FUTEX_OP_CMP_EQ, 0);
    long done = syscall(SYS_futex, &nobody, FUTEX_WAKE_OP_PRIVATE, 0, NULL, at & ~(uintptr_t) 3, operation);
    return done >= 0 || errno != EFAULT;
}

static bool each_page(uintptr_t begin, size_t size, bool (*is_good)(uintptr_t))
{
    if (size == 0)
        return true;
    uintptr_t last = begin + (size - 1);
    if (last < begin)
        return false;
    int saved = errno;
    bool good = true;
    uintptr_t within = page() - 1;
    for (uintptr_t at = begin; good; at = (at | within) + 1) {
        good = is_good(at);
        if ((at | within) >= last)
            break;
    }
    errno = saved;
    return good;
}

bool is_readable(const void *address, size_t size)
{
    return each_page((uintptr_t) address, size, reads);
}

bool is_writable(void *address, size_t size)
{
    return each_page((uintptr_t) address, size, writes);
}

bool is_in_page(const void *address, size_t size)
{
    return (uintptr_t) address % page() + size <= page();
}

bool is_writable_on(void *address, size_t first, size_t size)
{
    uintptr_t next = (((uintptr_t) address + first - 1) | (page() - 1)) + 1;
    uintptr_t end = (uintptr_t) address + size;
    return end <= next || is_writable((void *) next, end - next);
}

ssize_t text_length(const char *text, size_t most)
{
    size_t length = 0;
    while (length < most) {
        uintptr_t at = (uintptr_t) text + length;
        size_t here = page() - at % page();
        if (here > most - length)
            here = most - length;
        if (!is_readable(text + length, here)) {
            errno = EFAULT;
            return -1;
        }
        size_t found = strnlen(text + length, here);
        length += found;
        if (found < here)
            break;
    }
    return (ssize_t) length;
}

int give_back(void *address, size_t size)
{
    return (int) syscall(SYS_munmap, address, size);
}
