// Objects that a client has got, see info.h.
#define _GNU_SOURCE
#include "info.h"

#include <errno.h>

#include "memory.h"

int noted(struct ipcd *client, enum family family, int id)
{
    atomic_uint *seen = client->seen[family], *oldest = seen;
    if (id <= 0)
        return id;
    for (size_t i = 0; i < SEEN; i++)
        if (seen[i] == (unsigned) id)
            return id;
    for (size_t i = 0; i < SEEN; i++) {
        unsigned none = 0;
        if (atomic_compare_exchange_strong(&seen[i], &none, (unsigned) id))
            return id;
        // Identifiers rise, and no more are there at a time.
        if (seen[i] < *oldest)
            oldest = &seen[i];
    }
    *oldest = (unsigned) id;
    return id;
}

int count_each(struct ipcd *client, enum family family, int (*add)(int id, void *counts), void *counts, int *objects)
{
    int saved = errno;
    *objects = 0;
    for (size_t i = 0; i < SEEN; i++) {
        atomic_uint *seen = &client->seen[family][i];
        unsigned id = *seen;
        if (id == 0)
            continue;
        if (add((int) id, counts) == 0 || errno == EACCES)
            ++*objects;
        else if (errno == EINVAL || errno == EIDRM)
            atomic_compare_exchange_strong(seen, &id, 0);
        else
            return -1;
    }
    errno = saved;
    return 0;
}

int ask_for_info(int id, void *info, size_t size)
{
    if (id < 0 || !is_writable(info, size)) {
        errno = id < 0 ? EINVAL : EFAULT;
        return -1;
    }
    struct link *link = begin(CLOSE);
    return link == NULL ? -1 : (int) end(link, 0);
}
