// Threads that are cancelled while a call waits: whoever cancels one ends its call, as a thread that needs its link
// does.
#ifndef IPCD_CANCELLATION_H
#define IPCD_CANCELLATION_H

#include <pthread.h>
#include <stdbool.h>
#include <stddef.h>

// A thread was cancelled: if a call of it waits, it ends, unless its reply has come.
__attribute__((visibility("hidden"))) void end_call_of(pthread_t thread);

// Whether this thread was cancelled, as far as is known. It may have been another one with its number.
__attribute__((visibility("hidden"))) bool is_cancelled(void);

// Ends the thread, if it was cancelled, with this memory. Else that is forgotten. The state is as before its call.
__attribute__((visibility("hidden"))) void end_if_cancelled(int state, void *memory, size_t size);

#endif
