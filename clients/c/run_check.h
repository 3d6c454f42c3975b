// ipcd-run --check: the program runs as a child, and at its end it is said how many of its calls came to the server.
#ifndef IPCD_RUN_CHECK_H
#define IPCD_RUN_CHECK_H

#include <stdbool.h>

// Makes the memory in which programs count their calls, and sets IPCD_CHECK to its path. Else there is an errno.
bool count_calls(void);

// Returns in the child alone, which is to become the program. The other one says what there is to say at the program's
// end, and ends with its status.
void follow_program(const char *name);

#endif
