// Which programs a library can be preloaded into.
#ifndef IPCD_PROGRAM_H
#define IPCD_PROGRAM_H

#include <stdbool.h>
#include <stddef.h>

// Finds a program as a shell does: with a slash it is a path, else it is sought in PATH.
bool find_program(const char *name, char *path, size_t size);

// Why the calls of a program would be the system's own, without a word; or NULL. Of a script that is its interpreter.
const char *why_not_redirected(const char *path);

#endif
