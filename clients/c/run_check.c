// ipcd-run --check, see run_check.h.
#define _GNU_SOURCE
#include "run_check.h"

#include <errno.h>
#include <fcntl.h>
#include <signal.h>
#include <stdatomic.h>
#include <stddef.h>
#include <stdio.h>
#include <stdlib.h>
#include <string.h>
#include <sys/mman.h>
#include <sys/wait.h>
#include <unistd.h>

enum { NOT_RUN = 126 };

static const atomic_ulong *calls;
static volatile pid_t program;

bool count_calls(void)
{
    char path[64];
    int memory = memfd_create("ipcd-run --check", MFD_CLOEXEC | MFD_ALLOW_SEALING);
    if (memory < 0 || ftruncate(memory, sizeof *calls) < 0)
        return false;
    // A program that cuts it would be the end of the others.
    if (fcntl(memory, F_ADD_SEALS, F_SEAL_SHRINK | F_SEAL_GROW | F_SEAL_SEAL) < 0)
        return false;
    void *place = mmap(NULL, sizeof *calls, PROT_READ, MAP_SHARED, memory, 0);
    if (place == MAP_FAILED)
        return false;
    calls = place;
    snprintf(path, sizeof path, "/proc/%ld/fd/%d", (long) getpid(), memory);
    return setenv("IPCD_CHECK", path, 1) == 0;
}

static void pass_on(int number)
{
    int saved = errno;
    kill(program, number);
    errno = saved;
}

// A terminal sends the first two to both, and the program says what they mean. Others may come to this process alone.
static const int ignored[] = {SIGINT, SIGQUIT}, passed[] = {SIGTERM, SIGHUP, SIGUSR1, SIGUSR2};

static void report(const char *name)
{
    unsigned long count = *calls;
    if (count == 0)
        fprintf(stderr, "ipcd-run: %s: no call came to the server\n", name);
    else
        fprintf(stderr, "ipcd-run: %s: %lu call%s came to the server\n", name, count, count == 1 ? "" : "s");
}

void follow_program(const char *name)
{
    struct sigaction action = {.sa_handler = SIG_IGN}, before[sizeof ignored / sizeof *ignored];
    sigset_t held, mask;
    sigemptyset(&held);
    for (size_t i = 0; i < sizeof passed / sizeof *passed; i++)
        sigaddset(&held, passed[i]);
    // What comes before the program is known waits.
    sigprocmask(SIG_BLOCK, &held, &mask);
    for (size_t i = 0; i < sizeof ignored / sizeof *ignored; i++)
        sigaction(ignored[i], &action, &before[i]);
    program = fork();
    if (program <= 0) {
        for (size_t i = 0; i < sizeof ignored / sizeof *ignored; i++)
            sigaction(ignored[i], &before[i], NULL);
        sigprocmask(SIG_SETMASK, &mask, NULL);
    }
    if (program == 0)
        return;
    if (program < 0) {
        fprintf(stderr, "ipcd-run: %s: %s\n", name, strerror(errno));
        exit(NOT_RUN);
    }
    action.sa_handler = pass_on;
    for (size_t i = 0; i < sizeof passed / sizeof *passed; i++)
        sigaction(passed[i], &action, NULL);
    sigprocmask(SIG_SETMASK, &mask, NULL);
    int status;
    while (waitpid(program, &status, 0) < 0 && errno == EINTR)
        continue;
    report(name);
    exit(WIFSIGNALED(status) ? 128 + WTERMSIG(status) : WEXITSTATUS(status));
}
