//! The calls: each sends a request, and its `Pending` has the reply.

use std::time::{Duration, SystemTime, UNIX_EPOCH};

use crate::{errno, Attr, Connection, Field, Message, Pending, PosixMessage, QueueStat, SegmentStat, SetStat, ShmStat};

pub const IPC_PRIVATE: i32 = 0;
pub const IPC_CREAT: u32 = 0x200;
pub const IPC_EXCL: u32 = 0x400;
pub const IPC_NOWAIT: u32 = 0x800;
pub const MSG_NOERROR: u32 = 0x1000;
pub const MSG_EXCEPT: u32 = 0x2000;
pub const SEM_UNDO: u32 = 0x1000;
pub const SHM_RDONLY: u32 = 0x1000;
/// In the mode of a removed segment that is attached.
pub const SHM_DEST: u32 = 0x200;
pub const O_RDONLY: u32 = 0;
pub const O_WRONLY: u32 = 1;
pub const O_RDWR: u32 = 2;
pub const O_CREAT: u32 = 0x40;
pub const O_EXCL: u32 = 0x80;
pub const O_TRUNC: u32 = 0x200;
pub const O_NONBLOCK: u32 = 0x800;
/// The kinds of mq_notify: no registration, one without a frame, and one with a frame.
pub const NOTIFY_NOT: u32 = 0;
pub const NOTIFY_NULL: u32 = 1;
pub const NOTIFY_FRAME: u32 = 2;

const NO_TIME: u64 = u64::MAX;

/// An operation of semop(2): `op` is added to semaphore `num`, or waits for 0; IPC_NOWAIT and SEM_UNDO are its flags.
#[derive(Clone, Copy, Debug, PartialEq, Eq)]
pub struct Op {
    pub num: u16,
    pub op: i16,
    pub flags: u32,
}

impl Field for &[Op] {
    fn put(&self, frame: &mut Vec<u8>) {
        for it in *self {
            it.num.put(frame);
            it.op.put(frame);
            (it.flags as u16).put(frame);
        }
    }
}

/// The greatest messages and bytes of a message of a new POSIX queue.
#[derive(Clone, Copy, Debug, PartialEq, Eq)]
pub struct Limits {
    pub maxmsg: i32,
    pub msgsize: i32,
}

/// What a request that no frame can carry is refused, as its manual page has it.
pub(crate) fn too_long(opcode: u8) -> i32 {
    match opcode {
        0x0b | 0x1c | 0x40 | 0x4d => errno::EINVAL,
        0x15 => errno::E2BIG,
        0x2a => errno::EMSGSIZE,
        _ => errno::ENAMETOOLONG,
    }
}

/// Milliseconds, rounded up, so that no call ends before its time.
fn milliseconds(time: Duration) -> u64 {
    u64::try_from((time + Duration::from_nanos(999_999)).as_millis()).unwrap_or(NO_TIME)
}

fn timeout(length: Option<Duration>) -> u64 {
    length.map_or(NO_TIME, milliseconds)
}

fn deadline(moment: Option<SystemTime>) -> u64 {
    moment.map_or(NO_TIME, |it| milliseconds(it.duration_since(UNIX_EPOCH).unwrap_or_default()))
}

macro_rules! calls {
    ($($(#[$doc:meta])* $name:ident = $opcode:literal, ($($field:ident: $kind:ty),*) -> $reply:ty,
        [$($sent:expr),*];)*) => {
        impl Connection {
            $($(#[$doc])*
            pub fn $name(&self, $($field: $kind),*) -> Pending<$reply> {
                self.begin(stringify!($name), $opcode, &[$(&$sent),*])
            })*
        }
    };
}

calls! {
    /// Makes the connection a process of this user and group, and answers its pid. ENFILE: there are as many processes
    /// as the limit allows; one that has just ended may still be there, so send it again.
    hello = 0x01, (uid: u32, gid: u32) -> u32, [uid, gid];
    /// Ends the call that waits, if one does: that call is EINTR, unless its reply came first.
    interrupt = 0x02, () -> (), [];
    /// Closes a descriptor of a POSIX queue, a named semaphore or a segment: mq_close(3), sem_close(3), close(2).
    close_fd = 0x03, (fd: u32) -> (), [fd];

    /// msgget(2).
    msgget = 0x0a, (key: i32, flags: u32) -> u32, [key, flags];
    /// msgop(2). Without IPC_NOWAIT it waits while the queue is full. The kind is above 0.
    msgsnd = 0x0b, (id: u32, kind: i64, text: &[u8], flags: u32) -> (), [id, flags, kind, text];
    /// msgop(2). Without IPC_NOWAIT it waits for a message that the kind allows: 0 any, above 0 of this type, below 0
    /// the least type up to its absolute value. A longer text than `size` is E2BIG, or cut with MSG_NOERROR.
    msgrcv = 0x0c, (id: u32, size: u32, kind: i64, flags: u32) -> Message, [id, flags, size, kind];
    /// IPC_STAT of msgctl(2).
    msgctl_stat = 0x0d, (id: u32) -> QueueStat, [id];
    /// IPC_SET of msgctl(2).
    msgctl_set = 0x0e, (id: u32, uid: u32, gid: u32, mode: u32, qbytes: u32) -> (), [id, uid, gid, mode, qbytes];
    /// IPC_RMID of msgctl(2). Calls that wait for the queue are EIDRM.
    msgctl_rmid = 0x0f, (id: u32) -> (), [id];

    /// semget(2).
    semget = 0x14, (key: i32, nsems: i32, flags: u32) -> u32, [key, nsems, flags];
    /// semop(2), semtimedop(2). It performs the list as a whole, and waits until it can, this long at most: EAGAIN.
    semop = 0x15, (id: u32, ops: &[Op], length: Option<Duration>) -> (), [id, timeout(length), ops];
    /// GETVAL of semctl(2), a value from 0 to 32767.
    semctl_getval = 0x16, (id: u32, num: u32) -> u32, [id, num];
    /// GETPID of semctl(2), the process that set it last, or 0.
    semctl_getpid = 0x17, (id: u32, num: u32) -> u32, [id, num];
    /// GETNCNT of semctl(2), how many calls wait for a greater value.
    semctl_getncnt = 0x18, (id: u32, num: u32) -> u32, [id, num];
    /// GETZCNT of semctl(2), how many calls wait for 0.
    semctl_getzcnt = 0x19, (id: u32, num: u32) -> u32, [id, num];
    /// SETVAL of semctl(2), from 0 to 32767, else ERANGE.
    semctl_setval = 0x1a, (id: u32, num: u32, value: i32) -> (), [id, num, value];
    /// GETALL of semctl(2).
    semctl_getall = 0x1b, (id: u32) -> Vec<u16>, [id];
    /// SETALL of semctl(2), as many values as the set has semaphores.
    semctl_setall = 0x1c, (id: u32, values: &[u16]) -> (), [id, values];
    /// IPC_STAT of semctl(2).
    semctl_stat = 0x1d, (id: u32) -> SetStat, [id];
    /// IPC_SET of semctl(2).
    semctl_set = 0x1e, (id: u32, uid: u32, gid: u32, mode: u32) -> (), [id, uid, gid, mode];
    /// IPC_RMID of semctl(2).
    semctl_rmid = 0x1f, (id: u32) -> (), [id];

    /// mq_open(3), a descriptor from 0. Without limits a new queue has the greatest of the server.
    mq_open = 0x28, (name: &[u8], flags: u32, mode: u32, limits: Option<Limits>) -> u32,
        [flags, mode, u8::from(limits.is_some()), limits.map_or(0, |it| it.maxmsg), limits.map_or(0, |it| it.msgsize),
         name];
    /// mq_unlink(3).
    mq_unlink = 0x29, (name: &[u8]) -> (), [name];
    /// mq_timedsend(3). It waits while the queue is full, until the deadline: ETIMEDOUT. Priorities are 0 to 32767.
    mq_send = 0x2a, (fd: u32, text: &[u8], priority: u32, until: Option<SystemTime>) -> (),
        [fd, deadline(until), priority, text];
    /// mq_timedreceive(3), the oldest of the greatest priority. The size is at least the queue's msgsize.
    mq_receive = 0x2b, (fd: u32, size: u32, until: Option<SystemTime>) -> PosixMessage, [fd, deadline(until), size];
    /// mq_notify(3). With NOTIFY_FRAME the next message to the empty queue is a notification with this cookie.
    mq_notify = 0x2c, (fd: u32, kind: u32, cookie: u32) -> (), [fd, kind, cookie];
    /// mq_getattr(3).
    mq_getattr = 0x2d, (fd: u32) -> Attr, [fd];
    /// mq_setattr(3), 0 or O_NONBLOCK. It answers the attributes as they were.
    mq_setattr = 0x2e, (fd: u32, flags: u32) -> Attr, [fd, flags];

    /// sem_open(3), a descriptor. The value is that of a new one.
    sem_open = 0x32, (name: &[u8], flags: u32, mode: u32, value: u32) -> u32, [flags, mode, value, name];
    /// sem_unlink(3).
    sem_unlink = 0x33, (name: &[u8]) -> (), [name];
    /// sem_post(3).
    sem_post = 0x34, (fd: u32) -> (), [fd];
    /// sem_timedwait(3). It waits while the value is 0, until the deadline: ETIMEDOUT.
    sem_wait = 0x35, (fd: u32, until: Option<SystemTime>) -> (), [fd, deadline(until)];
    /// sem_trywait(3), EAGAIN at 0.
    sem_trywait = 0x36, (fd: u32) -> (), [fd];
    /// sem_getvalue(3).
    sem_getvalue = 0x37, (fd: u32) -> u32, [fd];

    /// shm_open(3), a descriptor.
    shm_open = 0x3c, (name: &[u8], flags: u32, mode: u32) -> u32, [flags, mode, name];
    /// shm_unlink(3).
    shm_unlink = 0x3d, (name: &[u8]) -> (), [name];
    /// ftruncate(2).
    ftruncate = 0x3e, (fd: u32, length: u64) -> (), [fd, length];
    /// Reads bytes within a segment as pread(2), 8192 at most, else EINVAL.
    shm_read = 0x3f, (fd: u32, offset: u64, length: u32) -> Vec<u8>, [fd, offset, length];
    /// Writes bytes within a segment as pwrite(2), 8192 at most, else EINVAL.
    shm_write = 0x40, (fd: u32, offset: u64, bytes: &[u8]) -> (), [fd, offset, bytes];
    /// fstat(2) of a segment.
    shm_stat = 0x41, (fd: u32) -> ShmStat, [fd];

    /// shmget(2).
    shmget = 0x46, (key: i32, size: u64, flags: u32) -> u32, [key, size, flags];
    /// shmop(2). It answers an attachment, by which the bytes are read and written, in place of an address.
    shmat = 0x47, (id: u32, flags: u32) -> u32, [id, flags];
    /// shmop(2).
    shmdt = 0x48, (attachment: u32) -> (), [attachment];
    /// IPC_STAT of shmctl(2).
    shmctl_stat = 0x49, (id: u32) -> SegmentStat, [id];
    /// IPC_SET of shmctl(2).
    shmctl_set = 0x4a, (id: u32, uid: u32, gid: u32, mode: u32) -> (), [id, uid, gid, mode];
    /// IPC_RMID of shmctl(2).
    shmctl_rmid = 0x4b, (id: u32) -> (), [id];
    /// Reads bytes within an attached segment, 8192 at most, else EINVAL.
    attached_read = 0x4c, (attachment: u32, offset: u64, length: u32) -> Vec<u8>, [attachment, offset, length];
    /// Writes bytes within an attached segment, 8192 at most, else EINVAL.
    attached_write = 0x4d, (attachment: u32, offset: u64, bytes: &[u8]) -> (), [attachment, offset, bytes];
}
