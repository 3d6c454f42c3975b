// The numbers of the protocol, each in this place alone, and how a number is written and read: big-endian.
#ifndef IPCD_WIRE_H
#define IPCD_WIRE_H

#include <stddef.h>
#include <stdint.h>
#include <sys/types.h>

enum {
    FRAME_MOST = 65792,               // the greatest length that a frame says, of what follows its length
    FRAME_LEAST = 6,                  // the least of a reply: a serial and an error number
    FRAME_BYTES = 4 + FRAME_MOST,
    REQUEST_HEAD = 9,                 // length, serial, opcode
    REPLY_HEAD = 10,                  // length, serial, error number
    TEXT_MOST = 65536,                // MSGMAX
    PIECE_MOST = 8192,                // bytes of a POSIX message, and of a segment in one call
    BODY_MOST = FRAME_MOST - FRAME_LEAST,
    NAME_MOST = 255,                  // bytes of a name, with its slash
    PROCESSES_MOST = 64,              // processes of a server
    ERROR_MOST = 4095,                // the greatest error number that a system has
};

#define NO_TIME UINT64_MAX

// A message is copied to the caller as the type and the text of its frame; offsets and times fill fields of 64 bits.
_Static_assert(sizeof(long) == 8, "a long has 64 bits: a message begins with one");
_Static_assert(sizeof(off_t) == 8 && sizeof(time_t) == 8, "offsets and times have 64 bits");

enum opcode {
    HELLO = 0x01, INTERRUPT = 0x02, CLOSE = 0x03,
    MSGGET = 0x0a, MSGSND = 0x0b, MSGRCV = 0x0c, MSG_IPC_STAT = 0x0d, MSG_IPC_SET = 0x0e, MSG_IPC_RMID = 0x0f,
    SEMGET = 0x14, SEMOP = 0x15, SEM_GETVAL = 0x16, SEM_GETPID = 0x17, SEM_GETNCNT = 0x18, SEM_GETZCNT = 0x19,
    SEM_SETVAL = 0x1a, SEM_GETALL = 0x1b, SEM_SETALL = 0x1c, SEM_IPC_STAT = 0x1d, SEM_IPC_SET = 0x1e,
    SEM_IPC_RMID = 0x1f,
    MQ_OPEN = 0x28, MQ_UNLINK = 0x29, MQ_SEND = 0x2a, MQ_RECEIVE = 0x2b, MQ_NOTIFY = 0x2c, MQ_GETATTR = 0x2d,
    MQ_SETATTR = 0x2e,
    SEM_OPEN = 0x32, SEM_UNLINK = 0x33, SEM_POST = 0x34, SEM_WAIT = 0x35, SEM_TRYWAIT = 0x36, SEM_GETVALUE = 0x37,
    SHM_OPEN = 0x3c, SHM_UNLINK = 0x3d, SHM_FTRUNCATE = 0x3e, SHM_READ = 0x3f, SHM_WRITE = 0x40, SHM_FSTAT = 0x41,
    SHMGET = 0x46, SHMAT = 0x47, SHMDT = 0x48, SHM_IPC_STAT = 0x49, SHM_IPC_SET = 0x4a, SHM_IPC_RMID = 0x4b,
    ATTACHED_READ = 0x4c, ATTACHED_WRITE = 0x4d,
};

// What a process asks of MQ_NOTIFY.
enum notify { NOTIFY_NOT = 0, NOTIFY_NULL = 1, NOTIFY_FRAME = 2 };

static inline void write_number(unsigned char *at, uint64_t number, size_t bytes)
{
    for (size_t i = bytes; i-- > 0; number >>= 8)
        at[i] = (unsigned char) number;
}

static inline uint64_t read_number(const unsigned char *at, size_t bytes)
{
    uint64_t number = 0;
    for (size_t i = 0; i < bytes; i++)
        number = number << 8 | at[i];
    return number;
}

static inline uint16_t read_u16(const unsigned char *at) { return (uint16_t) read_number(at, 2); }
static inline uint32_t read_u32(const unsigned char *at) { return (uint32_t) read_number(at, 4); }
static inline uint64_t read_u64(const unsigned char *at) { return read_number(at, 8); }

#endif
