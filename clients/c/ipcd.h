// ipcd.h: the calls of a client of ipcd, see libipcd(3). Each is the call of the manual without its prefix, with its
// arguments, its result and its errors, over a server that keeps the objects. Beside the errors of its page each call
// may fail with these of the connection:
//
//   ECONNREFUSED  there is no server at the socket
//   ECONNRESET    the connection has ended, also in the midst of the call, which may be done or not; the next connects
//   ENFILE        the server has as many processes as it takes, 64
//   EPROTO, EIO   the server's answer was none, or its disk has failed; the connection has ended
//   ENOMEM        the server has no memory for the call; nothing has changed
//   EACCES        the caller may not write the socket or enter its folder, maybe since it has changed its user
//   EMFILE, ENAMETOOLONG  of socket(2), and for a path of more than 107 bytes
//
// Calls are made over the connection of the process to the socket that IPCD_SOCKET names, else /run/ipcd/socket,
// unless ipcd_use chooses another. A connection is made by the first call, and again after its end and in a process
// that was forked. Threads may call at once: one that calls while the others wait gets a process of the server of its
// own. No call raises SIGPIPE, or is a point of cancellation.
#ifndef IPCD_H
#define IPCD_H

#include <mqueue.h>
#include <semaphore.h>
#include <stddef.h>
#include <sys/ipc.h>
#include <sys/stat.h>
#include <sys/types.h>
#include <time.h>

#ifdef __cplusplus
extern "C" {
#endif

#define IPCD_PUBLIC __attribute__((visibility("default")))

// The version of this header. A later one of the same major number has all that this one has.
#define IPCD_VERSION_MAJOR 0
#define IPCD_VERSION_MINOR 1
#define IPCD_VERSION_PATCH 0
#define IPCD_VERSION "0.1.0"

struct ipcd;
struct msqid_ds;
struct sembuf;
struct shmid_ds;

// The version of the library that is loaded, as IPCD_VERSION has that of the header.
IPCD_PUBLIC const char *ipcd_version(void);

// A connection of its own to a socket, at most 107 bytes long; with NULL to that of the process. NULL if it fails.
IPCD_PUBLIC struct ipcd *ipcd_connect(const char *socket);
// Ends it, with what is open over it. No call may be in it, and no thread may use it.
IPCD_PUBLIC void ipcd_disconnect(struct ipcd *connection);
// The calls of this thread go over this connection from then on; NULL is that of the process. Answers the one before.
IPCD_PUBLIC struct ipcd *ipcd_use(struct ipcd *connection);

// Message queues, see msgget(2), msgop(2), msgctl(2). Types are above 0, texts have at most 65536 bytes. With MSG_COPY
// ipcd_msgrcv is ENOSYS, or EINVAL without IPC_NOWAIT. Commands are IPC_STAT, IPC_SET, IPC_RMID, and IPC_INFO and
// MSG_INFO, which answer standard limits, and counts of the queues that this process has got.
IPCD_PUBLIC int ipcd_msgget(key_t key, int msgflg);
IPCD_PUBLIC int ipcd_msgsnd(int msqid, const void *msgp, size_t msgsz, int msgflg);
IPCD_PUBLIC ssize_t ipcd_msgrcv(int msqid, void *msgp, size_t msgsz, long msgtyp, int msgflg);
IPCD_PUBLIC int ipcd_msgctl(int msqid, int cmd, struct msqid_ds *buf);

// Semaphore sets, see semget(2), semop(2), semctl(2). A set has at most 64 semaphores, a list at most 32 operations;
// values are from 0 to 32767. The timeout is a length of time, kept to some milliseconds. Commands are those of
// semctl(2) but SEM_STAT and SEM_STAT_ANY. SETALL needs the permission to read, too.
IPCD_PUBLIC int ipcd_semget(key_t key, int nsems, int semflg);
IPCD_PUBLIC int ipcd_semop(int semid, struct sembuf *sops, size_t nsops);
IPCD_PUBLIC int ipcd_semtimedop(int semid, struct sembuf *sops, size_t nsops, const struct timespec *timeout);
IPCD_PUBLIC int ipcd_semctl(int semid, int semnum, int cmd, ...);

// POSIX queues, see mq_overview(7). Descriptors are numbers that no file has, from 0x7fffffc0 on. Priorities are from 0
// to 32767. Deadlines are moments of CLOCK_REALTIME, kept to some milliseconds.
IPCD_PUBLIC mqd_t ipcd_mq_open(const char *name, int oflag, ...);
IPCD_PUBLIC int ipcd_mq_close(mqd_t mqdes);
IPCD_PUBLIC int ipcd_mq_unlink(const char *name);
IPCD_PUBLIC int ipcd_mq_send(mqd_t mqdes, const char *msg_ptr, size_t msg_len, unsigned int msg_prio);
IPCD_PUBLIC int ipcd_mq_timedsend(mqd_t mqdes, const char *msg_ptr, size_t msg_len, unsigned int msg_prio,
                                  const struct timespec *abs_timeout);
IPCD_PUBLIC ssize_t ipcd_mq_receive(mqd_t mqdes, char *msg_ptr, size_t msg_len, unsigned int *msg_prio);
IPCD_PUBLIC ssize_t ipcd_mq_timedreceive(mqd_t mqdes, char *msg_ptr, size_t msg_len, unsigned int *msg_prio,
                                         const struct timespec *abs_timeout);
IPCD_PUBLIC int ipcd_mq_getattr(mqd_t mqdes, struct mq_attr *attr);
IPCD_PUBLIC int ipcd_mq_setattr(mqd_t mqdes, const struct mq_attr *newattr, struct mq_attr *oldattr);
// A registration takes a thread, and a process of the server of its own. A signal has a si_pid and si_uid of 0.
IPCD_PUBLIC int ipcd_mq_notify(mqd_t mqdes, const struct sigevent *sevp);

// Named semaphores, see sem_overview(7). An address is of this library: no call of the C library takes it. A name may
// lack its slash, as the C library has it. One that is unlinked while it is open, and that no other process has opened,
// is in memory of this process from then on, which forked processes share.
IPCD_PUBLIC sem_t *ipcd_sem_open(const char *name, int oflag, ...);
IPCD_PUBLIC int ipcd_sem_close(sem_t *sem);
IPCD_PUBLIC int ipcd_sem_unlink(const char *name);
IPCD_PUBLIC int ipcd_sem_wait(sem_t *sem);
IPCD_PUBLIC int ipcd_sem_trywait(sem_t *sem);
IPCD_PUBLIC int ipcd_sem_timedwait(sem_t *sem, const struct timespec *abs_timeout);
IPCD_PUBLIC int ipcd_sem_clockwait(sem_t *sem, clockid_t clock, const struct timespec *abs_timeout);
IPCD_PUBLIC int ipcd_sem_post(sem_t *sem);
IPCD_PUBLIC int ipcd_sem_getvalue(sem_t *sem, int *sval);

// Segments with a name, see shm_overview(7); there is no mapping. Names are as those of semaphores, descriptors like
// those of queues. One call reads or writes at most 8192 bytes, and fewer are read at the end. A write that would pass
// the end is EINVAL and writes nothing.
IPCD_PUBLIC int ipcd_shm_open(const char *name, int oflag, mode_t mode);
IPCD_PUBLIC int ipcd_shm_unlink(const char *name);
IPCD_PUBLIC int ipcd_ftruncate(int fd, off_t length);
IPCD_PUBLIC ssize_t ipcd_pread(int fd, void *buf, size_t count, off_t offset);
IPCD_PUBLIC ssize_t ipcd_pwrite(int fd, const void *buf, size_t count, off_t offset);
IPCD_PUBLIC int ipcd_fstat(int fd, struct stat *statbuf);
IPCD_PUBLIC int ipcd_close(int fd);

// Segments of System V, see shmget(2), shmctl(2). Commands are IPC_STAT, IPC_SET, IPC_RMID, IPC_INFO and SHM_INFO.
// ipcd_shmat maps a segment: what is written there is the server's before each call by which another process may
// proceed. ipcd_shmattach maps none and answers a number like the descriptors above, by which one call reads or writes
// at most 8192 bytes, all within the segment (else EINVAL); with SHM_RDONLY a write is EBADF. ipcd_shmdetach gives it
// up. No read is short: the length of a segment of System V is fixed, so what passes its end is a mistake, as with a
// mapping. A segment of shm_open is a file that may be cut, and ends as one in ipcd_pread.
IPCD_PUBLIC int ipcd_shmget(key_t key, size_t size, int shmflg);
IPCD_PUBLIC int ipcd_shmctl(int shmid, int cmd, struct shmid_ds *buf);
IPCD_PUBLIC int ipcd_shmattach(int shmid, int shmflg);
IPCD_PUBLIC int ipcd_shmdetach(int attachment);
IPCD_PUBLIC ssize_t ipcd_shmread(int attachment, void *buf, size_t count, off_t offset);
IPCD_PUBLIC ssize_t ipcd_shmwrite(int attachment, const void *buf, size_t count, off_t offset);
IPCD_PUBLIC void *ipcd_shmat(int shmid, const void *shmaddr, int shmflg);
IPCD_PUBLIC int ipcd_shmdt(const void *shmaddr);

#ifdef __cplusplus
}
#endif

#endif
