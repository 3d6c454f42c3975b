// Libraries for loads.c: PART says which. The first two are linked, the third is loaded.
#define _GNU_SOURCE
#include <dlfcn.h>
#include <stdlib.h>
#include <sys/ipc.h>
#include <sys/msg.h>

#if PART == 1
int mark(void)
{
    return 1;
}

// Of the one that is linked after this.
int mark_of_next(void)
{
    int (*next)(void);
    *(void **) &next = dlsym(RTLD_NEXT, "mark");
    return next == NULL ? -1 : next();
}

// The system seeks it where this library says, and not where the program says.
void *load_beside(const char *file, int mode)
{
    void *volatile loaded = dlopen(file, mode);
    return loaded;
}
#elif PART == 2
int mark(void)
{
    return 2;
}
#else
int get_queue(key_t key, int flags)
{
    return msgget(key, flags);
}

// It has the name of a call that is redirected, and is none.
int setegid(unsigned number)
{
    return abs((int) number) + 1;
}
#endif
