// What stands in place of the C library's calls. Names are given by labels, since its headers declare them otherwise.
#ifndef IPCD_PRELOAD_H
#define IPCD_PRELOAD_H

#include <stdatomic.h>
#include <stdbool.h>

#define IN_PLACE_OF(name) __asm__(#name) __attribute__((visibility("default")))

// Says a line on standard error, `ipcd-run: PROGRAM: text`, if that is still the file that the program has found there
// at its begin. Of one flag it is said once. errno stays.
__attribute__((visibility("hidden"))) void say_once(atomic_bool *is_said, const char *text);

#endif
