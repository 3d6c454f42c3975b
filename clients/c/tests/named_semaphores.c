// Named semaphores: what sem_overview(7) and its pages say, on the C library's objects and on a server's.
#define _GNU_SOURCE
#include <fcntl.h>
#include <limits.h>
#include <semaphore.h>

#include "check.h"

static int value_of(sem_t *sem)
{
    int value = -1;
    CHECK(sem_getvalue(sem, &value) == 0);
    return value;
}

// sem_open says that it fails by SEM_FAILED, which is no -1.
static long opened(sem_t *sem)
{
    return sem == SEM_FAILED ? -1 : 0;
}

static void opens(void)
{
    static char longest[400];
    memset(longest, 'n', 300);
    longest[0] = '/';
    REFUSED(opened(sem_open("/ipcd_none", 0)), ENOENT);
    REFUSED(sem_unlink("/ipcd_none"), ENOENT);
    REFUSED(opened(sem_open("/a/b", 0)), EINVAL);
    REFUSED(opened(sem_open("/", 0)), EINVAL);
    // The C library is not as its page has it.
    REFUSED(opened(sem_open(longest, 0)), is_on_kernel() ? EINVAL : ENAMETOOLONG);
    REFUSED(opened(sem_open("/ipcd_none", O_CREAT, 0600, (unsigned) SEM_VALUE_MAX + 1)), EINVAL);
    sem_t *first = sem_open("/ipcd_s", O_CREAT | O_EXCL, 0600, 2);
    CHECK(first != SEM_FAILED && value_of(first) == 2);
    REFUSED(opened(sem_open("/ipcd_s", O_CREAT | O_EXCL, 0600, 2)), EEXIST);
    sem_t *second = sem_open("/ipcd_s", O_CREAT, 0600, 9);
    CHECK(second == first && value_of(second) == 2);
    CHECK(sem_close(second) == 0);
    // The C library takes it with any number of slashes.
    second = sem_open("ipcd_s", 0);
    CHECK(second != SEM_FAILED && value_of(second) == 2 && sem_close(second) == 0);
    second = sem_open("///ipcd_s", O_CREAT, 0600, 9);
    CHECK(second != SEM_FAILED && value_of(second) == 2 && sem_close(second) == 0);
    REFUSED(opened(sem_open("", 0)), EINVAL);
    CHECK(sem_post(first) == 0 && value_of(first) == 3);
    CHECK(sem_unlink("ipcd_s") == 0);
    REFUSED(sem_unlink("/ipcd_s"), ENOENT);
    CHECK(value_of(first) == 3);
    sem_t *other = sem_open("/ipcd_s", O_CREAT | O_EXCL, 0600, 7);
    CHECK(other != SEM_FAILED && other != first && value_of(other) == 7 && value_of(first) == 3);
    CHECK(sem_close(first) == 0 && sem_close(other) == 0);
    CHECK(sem_unlink("/ipcd_s") == 0);
}

static void post_soon(void *sem)
{
    pause_for(0.2);
    CHECK(sem_post(sem) == 0);
}

static void counts(void)
{
    sem_t *sem = sem_open("/ipcd_t", O_CREAT | O_EXCL, 0600, 1);
    CHECK(sem != SEM_FAILED);
    errno = 77;
    CHECK(sem_wait(sem) == 0);
    CHECK(errno == 77);
    REFUSED(sem_trywait(sem), EAGAIN);
    struct timespec soon = moment(CLOCK_REALTIME, 0.2);
    double began = now();
    REFUSED(sem_timedwait(sem, &soon), ETIMEDOUT);
    CHECK(now() - began > 0.15 && now() - began < 2);
    soon = moment(CLOCK_MONOTONIC, 0.2);
    began = now();
    REFUSED(sem_clockwait(sem, CLOCK_MONOTONIC, &soon), ETIMEDOUT);
    CHECK(now() - began > 0.15 && now() - began < 2);
    REFUSED(sem_clockwait(sem, CLOCK_BOOTTIME, &soon), EINVAL);
    soon.tv_nsec = 1000000000;
    REFUSED(sem_timedwait(sem, &soon), EINVAL);
    soon = (struct timespec){-5, 0};
    REFUSED(sem_timedwait(sem, &soon), ETIMEDOUT);
    pid_t child = start(post_soon, sem);
    CHECK(sem_wait(sem) == 0 && value_of(sem) == 0);
    ends_well(child);
    soon = moment(CLOCK_REALTIME, 5);
    child = start(post_soon, sem);
    CHECK(sem_timedwait(sem, &soon) == 0 && value_of(sem) == 0);
    ends_well(child);
    CHECK(sem_close(sem) == 0 && sem_unlink("/ipcd_t") == 0);
    sem = sem_open("/ipcd_t", O_CREAT | O_EXCL, 0600, SEM_VALUE_MAX);
    CHECK(sem != SEM_FAILED);
    REFUSED(sem_post(sem), EOVERFLOW);
    CHECK(sem_close(sem) == 0 && sem_unlink("/ipcd_t") == 0);
}

// They are the C library's, also where named ones are not.
static void leaves_unnamed_ones(void)
{
#ifndef PREFIXED
    sem_t own;
    CHECK(sem_init(&own, 0, 1) == 0);
    CHECK(sem_wait(&own) == 0 && value_of(&own) == 0);
    REFUSED(sem_trywait(&own), EAGAIN);
    struct timespec over = {0, 0};
    REFUSED(sem_timedwait(&own, &over), ETIMEDOUT);
    REFUSED(sem_clockwait(&own, CLOCK_MONOTONIC, &over), ETIMEDOUT);
    CHECK(sem_post(&own) == 0 && sem_trywait(&own) == 0);
    CHECK(sem_destroy(&own) == 0);
#else
    sem_t own;
    CHECK(sem_init(&own, 0, 1) == 0);
    REFUSED(sem_wait(&own), EINVAL);
    REFUSED(sem_close(&own), EINVAL);
    CHECK(sem_destroy(&own) == 0);
#endif
}

int main(void)
{
    alarm(60);
    // What a run before this has left.
    sem_unlink("/ipcd_s"), sem_unlink("/ipcd_t");
    opens();
    counts();
    leaves_unnamed_ones();
    return 0;
}
