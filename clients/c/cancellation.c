// Which threads were cancelled, see cancellation.h.
#define _GNU_SOURCE
#include "cancellation.h"

#include <stdatomic.h>
#include <sys/mman.h>

#include "client.h"
#include "memory.h"

enum { CANCELLED_MOST = 64 };

// A number of a thread is not 0. If there is no room for one, its call waits on.
static atomic_ulong cancelled[CANCELLED_MOST];
static atomic_uint count;

static void note(unsigned long thread)
{
    for (size_t i = 0; i < CANCELLED_MOST; i++) {
        unsigned long none = 0;
        if (cancelled[i] == thread)
            return;
        if (atomic_compare_exchange_strong(&cancelled[i], &none, thread)) {
            count++;
            return;
        }
    }
}

static void forget(unsigned long thread)
{
    for (size_t i = 0; i < CANCELLED_MOST; i++) {
        unsigned long there = thread;
        if (atomic_compare_exchange_strong(&cancelled[i], &there, 0))
            count--;
    }
}

bool is_cancelled(void)
{
    if (count == 0)
        return false;
    for (size_t i = 0; i < CANCELLED_MOST; i++)
        if (cancelled[i] == (unsigned long) pthread_self())
            return true;
    return false;
}

void end_call_of(pthread_t thread)
{
    note((unsigned long) thread);
    ask_thread(thread);
}

struct memory {
    void *place;
    size_t size;
};

static void unmap(void *memory)
{
    struct memory *it = memory;
    give_back(it->place, it->size);
}

void end_if_cancelled(int state, void *memory, size_t size)
{
    struct memory it = {memory, size};
    forget((unsigned long) pthread_self());
    pthread_cleanup_push(unmap, &it);
    allow_cancellation(state);
    pthread_testcancel();
    hold_cancellation();
    pthread_cleanup_pop(0);
}
