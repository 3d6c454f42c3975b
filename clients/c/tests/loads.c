// Calls of libraries that are loaded, and calls that are found by name. Each way makes a queue of a key of its own, for
// which whoever runs this asks. With `remove` they are removed, and with `names` each of the words that follow is the
// same call by the C library's handle as by the program's own.
#define _GNU_SOURCE
#include <dlfcn.h>
#include <sys/ipc.h>
#include <sys/msg.h>

#include "check.h"

enum { KEY = 0x69706370, KEYS = 5, FLAGS = IPC_CREAT | 0600 };

typedef int get(key_t, int);

int mark(void);
int mark_of_next(void);
void *load_beside(const char *file, int mode);

static get *found(void *library, const char *name)
{
    get *call;
    *(void **) &call = dlsym(library, name);
    CHECK(call != NULL && dlerror() == NULL);
    return call;
}

static void *load(void *loaded)
{
    if (loaded == NULL)
        fprintf(stderr, "%s\n", dlerror());
    CHECK(loaded != NULL);
    return loaded;
}

// Whoever asks is told of what is not there, and of nothing else.
static void errors_are_told(void *library)
{
    CHECK(dlopen("ipcd-none.so", RTLD_NOW) == NULL && strstr(dlerror(), "ipcd-none.so") != NULL && dlerror() == NULL);
    CHECK(dlsym(library, "ipcd_none") == NULL && strstr(dlerror(), "ipcd_none") != NULL && dlerror() == NULL);
    CHECK(dlsym(RTLD_DEFAULT, "ipcd_none") == NULL && strstr(dlerror(), "ipcd_none") != NULL);
}

static void make(const char *folder)
{
    char path[4200];
    snprintf(path, sizeof path, "%s/libloaded.so", folder);
    void *system = load(dlopen("libc.so.6", RTLD_LAZY)), *own = load(dlopen(NULL, RTLD_LAZY));
    void *beside = load(load_beside("libloaded.so", RTLD_NOW | RTLD_DEEPBIND));
    CHECK(mark() == 1 && mark_of_next() == 2);
    CHECK(found(beside, "get_queue")(KEY, FLAGS) >= 0);
    CHECK(found(system, "msgget")(KEY + 1, FLAGS) >= 0);
    CHECK(found(own, "msgget")(KEY + 2, FLAGS) >= 0);
    CHECK(found(RTLD_DEFAULT, "msgget")(KEY + 3, FLAGS) >= 0);
    CHECK(dlclose(beside) == 0);
    beside = load(dlmopen(LM_ID_BASE, path, RTLD_NOW | RTLD_DEEPBIND));
    CHECK(found(beside, "get_queue")(KEY + 4, FLAGS) >= 0);
    int (*number)(unsigned);
    *(void **) &number = dlsym(beside, "setegid");
    CHECK(number != NULL && number(42) == 43 && dlerror() == NULL);
    errors_are_told(beside);
}

static void make_apart(const char *folder)
{
    char path[4200];
    snprintf(path, sizeof path, "%s/libloaded.so", folder);
    for (int i = 0; i < 2; i++)
        CHECK(found(load(dlmopen(LM_ID_NEWLM, path, RTLD_NOW)), "get_queue")(KEY, FLAGS) >= 0);
}

static void remove_all(void)
{
    for (int i = 0; i < KEYS; i++)
        CHECK(msgctl(msgget(KEY + i, 0), IPC_RMID, NULL) == 0 || i > 0);
}

static void are_the_same(char **names)
{
    void *system = load(dlopen("libc.so.6", RTLD_LAZY));
    for (; *names != NULL; names++) {
        void *by_handle = dlsym(system, *names), *own = dlsym(RTLD_DEFAULT, *names);
        if (by_handle != own)
            fprintf(stderr, "%s is another one\n", *names);
        CHECK(own != NULL && by_handle == own);
    }
}

int main(int count, char **words)
{
    const char *word = count > 1 ? words[1] : "";
    alarm(60);
    if (strcmp(word, "make") == 0 && count == 3)
        make(words[2]);
    else if (strcmp(word, "apart") == 0 && count == 3)
        make_apart(words[2]);
    else if (strcmp(word, "remove") == 0)
        remove_all();
    else if (strcmp(word, "names") == 0)
        are_the_same(words + 2);
    else
        return 2;
    return 0;
}
