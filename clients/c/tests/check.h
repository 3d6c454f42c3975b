// What the tests check, and a program's time. Each test is run on the kernel's own objects, too, where it can be.
#ifndef IPCD_TESTS_CHECK_H
#define IPCD_TESTS_CHECK_H

#include <errno.h>
#include <signal.h>
#include <stdbool.h>
#include <stdio.h>
#include <stdlib.h>
#include <string.h>
#include <sys/wait.h>
#include <time.h>
#include <unistd.h>

#define CHECK(holds) check_line((holds), #holds, __FILE__, __LINE__)
#define REFUSED(call, error) (errno = 0, refused_line((long) (call), (error), #call, __FILE__, __LINE__))

static inline void check_line(bool holds, const char *text, const char *file, int line)
{
    if (holds)
        return;
    fprintf(stderr, "%s:%d: %s; errno is %s\n", file, line, text, strerror(errno));
    exit(1);
}

static inline void refused_line(long result, int error, const char *text, const char *file, int line)
{
    if (result == -1 && errno == error)
        return;
    fprintf(stderr, "%s:%d: %s is %ld, %s, and not %s\n", file, line, text, result, strerror(errno), strerror(error));
    exit(1);
}

// Whether the objects are the kernel's.
static inline bool is_on_kernel(void)
{
    return getenv("ON_KERNEL") != NULL;
}

// Whether bad addresses may be tried: memcheck would report them.
static inline bool tries_bad_addresses(void)
{
    return getenv("NO_BAD_ADDRESSES") == NULL;
}

static inline double now(void)
{
    struct timespec time;
    clock_gettime(CLOCK_MONOTONIC, &time);
    return (double) time.tv_sec + (double) time.tv_nsec / 1e9;
}

static inline void pause_for(double seconds)
{
    struct timespec time = {(time_t) seconds, (long) ((seconds - (double) (time_t) seconds) * 1e9)};
    while (nanosleep(&time, &time) < 0 && errno == EINTR)
        continue;
}

// A moment of CLOCK_REALTIME or another.
static inline struct timespec moment(clockid_t clock, double after)
{
    struct timespec time;
    clock_gettime(clock, &time);
    double sum = (double) time.tv_nsec + after * 1e9;
    time.tv_sec += (time_t) (sum / 1e9);
    time.tv_nsec = (long) (sum - 1e9 * (double) (time_t) (sum / 1e9));
    return time;
}

// Waits for a child, which ends well.
static inline void ends_well(pid_t child)
{
    int status;
    CHECK(waitpid(child, &status, 0) == child);
    CHECK(WIFEXITED(status) && WEXITSTATUS(status) == 0);
}

// Forks a child that does this, and ends.
static inline pid_t start(void (*work)(void *), void *argument)
{
    pid_t child = fork();
    CHECK(child >= 0);
    if (child != 0)
        return child;
    alarm(60);
    work(argument);
    exit(0);
}

#endif
