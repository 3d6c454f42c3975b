// Whether the caller's memory can be read and written, asked of the system: a bad address is EFAULT, never a crash.
#ifndef IPCD_MEMORY_H
#define IPCD_MEMORY_H

#include <stdbool.h>
#include <stddef.h>
#include <sys/types.h>

// With a size of 0 any address is good. They leave errno as it was.
bool is_readable(const void *address, size_t size);
bool is_writable(void *address, size_t size);

// Whether all of it is in one page, so that what holds of its first byte holds of all.
bool is_in_page(const void *address, size_t size);

// Whether all of it can be written, if the first bytes of it, at least one, can.
bool is_writable_on(void *address, size_t first, size_t size);

// As munmap(2), which the preloaded library redirects. What this library has mapped is no segment of the program's.
int give_back(void *address, size_t size);

// The length of a text that ends with a byte 0, at most `most`, or -1 with EFAULT.
ssize_t text_length(const char *text, size_t most);

#endif
