// What the preloaded library hears of: that the program may have another user, or other files, or a handler with
// SA_RESTART. Without it, or if it hears of something, a call asks the system whether its link is still right.
// And where calls that came to the server are counted, if somebody wants to know.
#ifndef IPCD_CHANGES_H
#define IPCD_CHANGES_H

#include <stdatomic.h>
#include <stdbool.h>

struct changes {
    atomic_bool are_heard;
    atomic_uint of_users;
    atomic_uint of_files;
    atomic_bool some_restart;
    atomic_ulong *calls;      // is set before any call, or is NULL
};

extern struct changes changes __attribute__((visibility("hidden")));

#endif
