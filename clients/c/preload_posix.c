// The calls of POSIX queues and semaphores of the C library, redirected. Unnamed semaphores stay its own.
#define _GNU_SOURCE
#include <dlfcn.h>
#include <errno.h>
#include <fcntl.h>
#include <stdarg.h>
#include <unistd.h>

#include "again.h"
#include "named_semaphores.h"
#include "own_queues.h"
#include "preload.h"
#include "queue_files.h"

mqd_t redirected_mq_open(const char *name, int oflag, ...) IN_PLACE_OF(mq_open);
mqd_t redirected_mq_open_2(const char *name, int oflag) IN_PLACE_OF(__mq_open_2);
int redirected_mq_close(mqd_t mqdes) IN_PLACE_OF(mq_close);
int redirected_mq_unlink(const char *name) IN_PLACE_OF(mq_unlink);
int redirected_mq_send(mqd_t mqdes, const char *text, size_t size, unsigned int priority) IN_PLACE_OF(mq_send);
int redirected_mq_timedsend(mqd_t mqdes, const char *text, size_t size, unsigned int priority,
                            const struct timespec *deadline) IN_PLACE_OF(mq_timedsend);
ssize_t redirected_mq_receive(mqd_t mqdes, char *text, size_t size, unsigned int *priority)
    IN_PLACE_OF(mq_receive);
ssize_t redirected_mq_timedreceive(mqd_t mqdes, char *text, size_t size, unsigned int *priority,
                                   const struct timespec *deadline) IN_PLACE_OF(mq_timedreceive);
int redirected_mq_getattr(mqd_t mqdes, struct mq_attr *attributes) IN_PLACE_OF(mq_getattr);
int redirected_mq_setattr(mqd_t mqdes, const struct mq_attr *wanted, struct mq_attr *before)
    IN_PLACE_OF(mq_setattr);
int redirected_mq_notify(mqd_t mqdes, const struct sigevent *event) IN_PLACE_OF(mq_notify);
sem_t *redirected_sem_open(const char *name, int oflag, ...) IN_PLACE_OF(sem_open);
int redirected_sem_close(sem_t *sem) IN_PLACE_OF(sem_close);
int redirected_sem_unlink(const char *name) IN_PLACE_OF(sem_unlink);
int redirected_sem_wait(sem_t *sem) IN_PLACE_OF(sem_wait);
int redirected_sem_trywait(sem_t *sem) IN_PLACE_OF(sem_trywait);
int redirected_sem_timedwait(sem_t *sem, const struct timespec *deadline) IN_PLACE_OF(sem_timedwait);
int redirected_sem_clockwait(sem_t *sem, clockid_t clock, const struct timespec *deadline)
    IN_PLACE_OF(sem_clockwait);
int redirected_sem_post(sem_t *sem) IN_PLACE_OF(sem_post);
int redirected_sem_getvalue(sem_t *sem, int *value) IN_PLACE_OF(sem_getvalue);

// The C library's own calls of unnamed semaphores, and of queues that are the kernel's. A program whose library has
// none of a name does not call it.
static struct system_semaphores own;
static struct system_queues own_queues;

static void find(void *place, const char *name)
{
    *(void **) place = dlsym(RTLD_NEXT, name);
}

__attribute__((constructor)) static void find_own(void)
{
    find(&own.init, "sem_init");
    find(&own.wait, "sem_wait");
    find(&own.trywait, "sem_trywait");
    find(&own.timedwait, "sem_timedwait");
    find(&own.clockwait, "sem_clockwait");
    find(&own.post, "sem_post");
    find(&own.getvalue, "sem_getvalue");
    find(&own_queues.open, "mq_open");
    find(&own_queues.unlink, "mq_unlink");
    find(&own_queues.timedsend, "mq_timedsend");
    find(&own_queues.timedreceive, "mq_timedreceive");
    find(&own_queues.getattr, "mq_getattr");
    find(&own_queues.setattr, "mq_setattr");
    find(&own_queues.notify, "mq_notify");
}

// Another library's constructor may call before that of this one.
static bool is_unnamed(const sem_t *sem)
{
    if (is_named_semaphore(sem))
        return false;
    if (own.post == NULL)
        find_own();
    return true;
}

const struct system_semaphores *system_semaphores(void)
{
    if (own.post == NULL)
        find_own();
    return &own;
}

const struct system_queues *system_queues(void)
{
    if (own.post == NULL)
        find_own();
    return &own_queues;
}

static mqd_t open_queue(const char *name, int oflag, mode_t mode, struct mq_attr *attributes)
{
    SERVED(mqd_t, ipcd_mq_open(name, oflag, mode, attributes), -1);
}

// The descriptor comes first: a queue is not made if there is none.
static mqd_t open_file(const char *name, int oflag, mode_t mode, struct mq_attr *attributes)
{
    int file = make_queue_file();
    mqd_t queue = file < 0 ? -1 : open_queue(name, oflag, mode, attributes);
    if (queue >= 0)
        return have_queue_file(file, queue);
    int error = errno;
    if (file >= 0)
        close(file);
    errno = error;
    return -1;
}

mqd_t redirected_mq_open(const char *name, int oflag, ...)
{
    if (!(oflag & O_CREAT))
        return open_file(name, oflag, 0, NULL);
    va_list rest;
    va_start(rest, oflag);
    mode_t mode = va_arg(rest, mode_t);
    struct mq_attr *attributes = va_arg(rest, struct mq_attr *);
    va_end(rest);
    return open_file(name, oflag, mode, attributes);
}

mqd_t redirected_mq_open_2(const char *name, int oflag)
{
    if (!(oflag & O_CREAT))
        return open_file(name, oflag, 0, NULL);
    errno = EINVAL;
    return -1;
}

int redirected_mq_close(mqd_t mqdes)
{
    struct attempts attempts = begin_attempts();
    mqd_t queue = forget_queue_file(mqdes);
    if (queue >= 0)
        close(mqdes);
    int result = ipcd_mq_close(queue);
    // It is closed also if the connection has ended.
    return result < 0 && is_made_again(&attempts) ? 0 : result;
}

int redirected_mq_unlink(const char *name)
{
    SERVED(int, ipcd_mq_unlink(name), -1);
}

int redirected_mq_send(mqd_t mqdes, const char *text, size_t size, unsigned int priority)
{
    if (!find_queue(&mqdes))
        return -1;
    SERVED(int, ipcd_mq_send(mqdes, text, size, priority), -1);
}

int redirected_mq_timedsend(mqd_t mqdes, const char *text, size_t size, unsigned int priority,
                            const struct timespec *deadline)
{
    if (!find_queue(&mqdes))
        return -1;
    SERVED(int, ipcd_mq_timedsend(mqdes, text, size, priority, deadline), -1);
}

ssize_t redirected_mq_receive(mqd_t mqdes, char *text, size_t size, unsigned int *priority)
{
    if (!find_queue(&mqdes))
        return -1;
    SERVED(ssize_t, ipcd_mq_receive(mqdes, text, size, priority), -1);
}

ssize_t redirected_mq_timedreceive(mqd_t mqdes, char *text, size_t size, unsigned int *priority,
                                   const struct timespec *deadline)
{
    if (!find_queue(&mqdes))
        return -1;
    SERVED(ssize_t, ipcd_mq_timedreceive(mqdes, text, size, priority, deadline), -1);
}

int redirected_mq_getattr(mqd_t mqdes, struct mq_attr *attributes)
{
    if (!find_queue(&mqdes))
        return -1;
    SERVED(int, ipcd_mq_getattr(mqdes, attributes), -1);
}

int redirected_mq_setattr(mqd_t mqdes, const struct mq_attr *wanted, struct mq_attr *before)
{
    if (!find_queue(&mqdes))
        return -1;
    SERVED(int, ipcd_mq_setattr(mqdes, wanted, before), -1);
}

int redirected_mq_notify(mqd_t mqdes, const struct sigevent *event)
{
    if (!find_queue(&mqdes))
        return -1;
    SERVED(int, ipcd_mq_notify(mqdes, event), -1);
}

sem_t *redirected_sem_open(const char *name, int oflag, ...)
{
    if (!(oflag & O_CREAT))
        SERVED(sem_t *, ipcd_sem_open(name, oflag), SEM_FAILED);
    va_list rest;
    va_start(rest, oflag);
    mode_t mode = va_arg(rest, mode_t);
    unsigned int value = va_arg(rest, unsigned int);
    va_end(rest);
    SERVED(sem_t *, ipcd_sem_open(name, oflag, mode, value), SEM_FAILED);
}

int redirected_sem_close(sem_t *sem)
{
    struct attempts attempts = begin_attempts();
    int result = ipcd_sem_close(sem);
    return result < 0 && is_made_again(&attempts) ? 0 : result;
}

int redirected_sem_unlink(const char *name)
{
    SERVED(int, ipcd_sem_unlink(name), -1);
}

int redirected_sem_wait(sem_t *sem)
{
    if (is_unnamed(sem))
        return own.wait(sem);
    SERVED(int, ipcd_sem_wait(sem), -1);
}

int redirected_sem_trywait(sem_t *sem)
{
    if (is_unnamed(sem))
        return own.trywait(sem);
    SERVED(int, ipcd_sem_trywait(sem), -1);
}

int redirected_sem_timedwait(sem_t *sem, const struct timespec *deadline)
{
    if (is_unnamed(sem))
        return own.timedwait(sem, deadline);
    SERVED(int, ipcd_sem_timedwait(sem, deadline), -1);
}

int redirected_sem_clockwait(sem_t *sem, clockid_t clock, const struct timespec *deadline)
{
    if (is_unnamed(sem))
        return own.clockwait(sem, clock, deadline);
    SERVED(int, ipcd_sem_clockwait(sem, clock, deadline), -1);
}

int redirected_sem_post(sem_t *sem)
{
    if (is_unnamed(sem))
        return own.post(sem);
    SERVED(int, ipcd_sem_post(sem), -1);
}

int redirected_sem_getvalue(sem_t *sem, int *value)
{
    if (is_unnamed(sem))
        return own.getvalue(sem, value);
    SERVED(int, ipcd_sem_getvalue(sem, value), -1);
}
