// A client of an ipcd server: System V and POSIX IPC objects that survive crashes. README.md has a first session; the
// server's docs/PROTOCOL.md says what each call means.
import { Stream, bytes, i16, i32, i64, time, u16, u32, u64, u8 } from './stream.js'

export { ConnectionEnded, IpcdError, PATIENCE } from './stream.js'

export const IPC_PRIVATE = 0
export const IPC_CREAT = 0x200
export const IPC_EXCL = 0x400
export const IPC_NOWAIT = 0x800
export const MSG_NOERROR = 0x1000
export const MSG_EXCEPT = 0x2000
export const SEM_UNDO = 0x1000
export const SHM_RDONLY = 0x1000
/** In the mode of a removed segment that is attached. */
export const SHM_DEST = 0x200
export const O_RDONLY = 0
export const O_WRONLY = 1
export const O_RDWR = 2
export const O_CREAT = 0x40
export const O_EXCL = 0x80
export const O_TRUNC = 0x200
export const O_NONBLOCK = 0x800
/** The kinds of mqNotify: no registration, one without a frame, and one with a frame. */
export const NOTIFY_NOT = 0
export const NOTIFY_NULL = 1
export const NOTIFY_FRAME = 2

const nothing = () => undefined
const number = (it) => it.u32()
const rest = (it) => it.rest()
const owner = (it) => ({ key: it.i32(), uid: it.u32(), gid: it.u32(), cuid: it.u32(), cgid: it.u32(), mode: it.u32() })
const message = (it) => ({ type: it.i64(), text: it.rest() })
const posixMessage = (it) => ({ priority: it.u32(), text: it.rest() })
const attributes = (it) => ({ flags: it.u32(), maxmsg: it.u32(), msgsize: it.u32(), curmsgs: it.u32() })
const queue = (it) => ({
  ...owner(it), stime: it.u64(), rtime: it.u64(), ctime: it.u64(), lspid: it.u32(), lrpid: it.u32(), qbytes: it.u32(),
  qnum: it.u32(), cbytes: it.u32(),
})
const set = (it) => ({ ...owner(it), otime: it.u64(), ctime: it.u64(), nsems: it.u32() })
const systemVSegment = (it) => ({
  ...owner(it), atime: it.u64(), dtime: it.u64(), ctime: it.u64(), cpid: it.u32(), lpid: it.u32(), nattch: it.u32(),
  segsz: it.u64(),
})
const segment = (it) => ({ length: it.u64(), uid: it.u32(), gid: it.u32(), mode: it.u32() })
const values = (it) => {
  const found = []
  while (it.left() > 0) found.push(it.u16())
  return found
}
const operation = ([num, op, flags = 0]) => Buffer.concat([u16(num), i16(op), u16(flags)])

/** A connection, which is one process of the server after `hello`. Each call sends its request at once and answers a
 * promise. The server has one waiting call of a process at a time: further calls are EALREADY meanwhile, so a wait has
 * a connection of its own. Texts are strings or bytes, and come as Buffers. Calls that wait take { signal } last. */
export class Connection extends Stream {
  /** The version of the server's device, 3 or later, after `hello`. null: the server has told none, as on devices of
   * version 1 and 2. */
  version = null

  /** Makes the connection a process of this user and group: its pid. ENFILE: there are as many processes as the limit
   * allows; one that has just ended may still be there, so send it again. */
  hello(uid, gid) {
    return this.call('hello', 0x01, [u32(uid), u32(gid)], (it) => {
      const pid = it.u32()
      if (it.left() >= 4) this.version = it.u32()
      // A later server may tell more.
      it.rest()
      return pid
    })
  }
  /** Ends the call that waits, if one does: that call is EINTR, unless its reply came first. */
  interrupt() { return this.call('interrupt', 0x02, [], nothing) }
  /** Closes a descriptor of a POSIX queue, a named semaphore or a segment: mq_close(3), sem_close(3), close(2). */
  closeFd(fd) { return this.call('close', 0x03, [u32(fd)], nothing) }

  /** msgget(2). */
  msgget(key, flags) { return this.call('msgget', 0x0a, [i32(key), u32(flags)], number) }
  /** msgop(2). Without IPC_NOWAIT it waits while the queue is full. The type is above 0. */
  msgsnd(id, type, text, flags = 0, options) {
    return this.call('msgsnd', 0x0b, [u32(id), u32(flags), i64(type), bytes(text)], nothing, options)
  }
  /** msgop(2): { type, text }, the type a BigInt. Without IPC_NOWAIT it waits for a message that type allows: 0 any,
   * above 0 of this type, below 0 the least type up to its absolute value. A longer text than `size` is E2BIG, or cut
   * with MSG_NOERROR. */
  msgrcv(id, size, type = 0, flags = 0, options) {
    return this.call('msgrcv', 0x0c, [u32(id), u32(flags), u32(size), i64(type)], message, options)
  }
  /** IPC_STAT of msgctl(2). Times are milliseconds since 1970, and 0 is never. */
  msgctlStat(id) { return this.call('msgctl', 0x0d, [u32(id)], queue) }
  /** IPC_SET of msgctl(2). */
  msgctlSet(id, uid, gid, mode, qbytes) {
    return this.call('msgctl', 0x0e, [id, uid, gid, mode, qbytes].map(u32), nothing)
  }
  /** IPC_RMID of msgctl(2). Calls that wait for the queue are EIDRM. */
  msgctlRmid(id) { return this.call('msgctl', 0x0f, [u32(id)], nothing) }

  /** semget(2). */
  semget(key, nsems, flags) { return this.call('semget', 0x14, [i32(key), i32(nsems), u32(flags)], number) }
  /** semop(2), semtimedop(2): a list of [num, op] or [num, op, flags]. It performs the list as a whole, and waits until
   * it can, `timeout` milliseconds at most: EAGAIN. */
  semop(id, operations, timeout = null, options) {
    return this.call('semop', 0x15, [u32(id), time(timeout), ...operations.map(operation)], nothing, options)
  }
  /** GETVAL of semctl(2), a value from 0 to 32767. */
  semctlGetval(id, num) { return this.call('semctl', 0x16, [u32(id), u32(num)], number) }
  /** GETPID of semctl(2), the process that set it last, or 0. */
  semctlGetpid(id, num) { return this.call('semctl', 0x17, [u32(id), u32(num)], number) }
  /** GETNCNT of semctl(2), how many calls wait for a greater value. */
  semctlGetncnt(id, num) { return this.call('semctl', 0x18, [u32(id), u32(num)], number) }
  /** GETZCNT of semctl(2), how many calls wait for 0. */
  semctlGetzcnt(id, num) { return this.call('semctl', 0x19, [u32(id), u32(num)], number) }
  /** SETVAL of semctl(2), from 0 to 32767, else ERANGE. */
  semctlSetval(id, num, value) { return this.call('semctl', 0x1a, [u32(id), u32(num), i32(value)], nothing) }
  /** GETALL of semctl(2). */
  semctlGetall(id) { return this.call('semctl', 0x1b, [u32(id)], values) }
  /** SETALL of semctl(2), as many values as the set has semaphores. */
  semctlSetall(id, to) { return this.call('semctl', 0x1c, [u32(id), ...to.map(u16)], nothing) }
  /** IPC_STAT of semctl(2). */
  semctlStat(id) { return this.call('semctl', 0x1d, [u32(id)], set) }
  /** IPC_SET of semctl(2). */
  semctlSet(id, uid, gid, mode) { return this.call('semctl', 0x1e, [id, uid, gid, mode].map(u32), nothing) }
  /** IPC_RMID of semctl(2). */
  semctlRmid(id) { return this.call('semctl', 0x1f, [u32(id)], nothing) }

  /** mq_open(3), a descriptor from 0. Without { maxmsg, msgsize } a new queue has the greatest of the server. */
  mqOpen(name, flags, mode = 0, limits = null) {
    const { maxmsg, msgsize } = limits ?? { maxmsg: 0, msgsize: 0 }
    const fields = [u32(flags), u32(mode), u8(limits ? 1 : 0), i32(maxmsg), i32(msgsize), bytes(name)]
    return this.call('mq_open', 0x28, fields, number)
  }
  /** mq_unlink(3). */
  mqUnlink(name) { return this.call('mq_unlink', 0x29, [bytes(name)], nothing) }
  /** mq_timedsend(3). It waits while the queue is full, until the deadline, a Date or milliseconds since 1970:
   * ETIMEDOUT. Priorities are 0 to 32767. */
  mqSend(fd, text, priority = 0, deadline = null, options) {
    return this.call('mq_send', 0x2a, [u32(fd), time(deadline), u32(priority), bytes(text)], nothing, options)
  }
  /** mq_timedreceive(3): { priority, text }, the oldest of the greatest priority. The size is at least the queue's
   * msgsize. */
  mqReceive(fd, size, deadline = null, options) {
    return this.call('mq_receive', 0x2b, [u32(fd), time(deadline), u32(size)], posixMessage, options)
  }
  /** mq_notify(3). With NOTIFY_FRAME the next message to the empty queue is a `notification` event with this cookie. */
  mqNotify(fd, kind, cookie = 0) { return this.call('mq_notify', 0x2c, [fd, kind, cookie].map(u32), nothing) }
  /** mq_getattr(3). */
  mqGetattr(fd) { return this.call('mq_getattr', 0x2d, [u32(fd)], attributes) }
  /** mq_setattr(3), 0 or O_NONBLOCK. It answers the attributes as they were. */
  mqSetattr(fd, flags) { return this.call('mq_setattr', 0x2e, [u32(fd), u32(flags)], attributes) }

  /** sem_open(3), a descriptor. The value is that of a new one. */
  semOpen(name, flags, mode = 0, value = 0) {
    return this.call('sem_open', 0x32, [u32(flags), u32(mode), u32(value), bytes(name)], number)
  }
  /** sem_unlink(3). */
  semUnlink(name) { return this.call('sem_unlink', 0x33, [bytes(name)], nothing) }
  /** sem_post(3). */
  semPost(fd) { return this.call('sem_post', 0x34, [u32(fd)], nothing) }
  /** sem_timedwait(3). It waits while the value is 0, until the deadline, as mqSend: ETIMEDOUT. */
  semWait(fd, deadline = null, options) {
    return this.call('sem_wait', 0x35, [u32(fd), time(deadline)], nothing, options)
  }
  /** sem_trywait(3), EAGAIN at 0. */
  semTrywait(fd) { return this.call('sem_trywait', 0x36, [u32(fd)], nothing) }
  /** sem_getvalue(3). */
  semGetvalue(fd) { return this.call('sem_getvalue', 0x37, [u32(fd)], number) }

  /** shm_open(3), a descriptor. */
  shmOpen(name, flags, mode = 0) { return this.call('shm_open', 0x3c, [u32(flags), u32(mode), bytes(name)], number) }
  /** shm_unlink(3). */
  shmUnlink(name) { return this.call('shm_unlink', 0x3d, [bytes(name)], nothing) }
  /** ftruncate(2). */
  ftruncate(fd, length) { return this.call('ftruncate', 0x3e, [u32(fd), u64(length)], nothing) }
  /** Reads bytes within a segment as pread(2), 8192 at most, else EINVAL. */
  shmRead(fd, offset, length) { return this.call('read', 0x3f, [u32(fd), u64(offset), u32(length)], rest) }
  /** Writes bytes within a segment as pwrite(2), 8192 at most, else EINVAL. */
  shmWrite(fd, offset, data) { return this.call('write', 0x40, [u32(fd), u64(offset), bytes(data)], nothing) }
  /** fstat(2) of a segment. */
  shmStat(fd) { return this.call('fstat', 0x41, [u32(fd)], segment) }

  /** shmget(2). */
  shmget(key, size, flags) { return this.call('shmget', 0x46, [i32(key), u64(size), u32(flags)], number) }
  /** shmop(2). It answers an attachment, by which the bytes are read and written, in place of an address. */
  shmat(id, flags = 0) { return this.call('shmat', 0x47, [u32(id), u32(flags)], number) }
  /** shmop(2). */
  shmdt(attachment) { return this.call('shmdt', 0x48, [u32(attachment)], nothing) }
  /** IPC_STAT of shmctl(2). */
  shmctlStat(id) { return this.call('shmctl', 0x49, [u32(id)], systemVSegment) }
  /** IPC_SET of shmctl(2). */
  shmctlSet(id, uid, gid, mode) { return this.call('shmctl', 0x4a, [id, uid, gid, mode].map(u32), nothing) }
  /** IPC_RMID of shmctl(2). */
  shmctlRmid(id) { return this.call('shmctl', 0x4b, [u32(id)], nothing) }
  /** Reads bytes within an attached segment, 8192 at most, else EINVAL. */
  attachedRead(attachment, offset, length) {
    return this.call('attached read', 0x4c, [u32(attachment), u64(offset), u32(length)], rest)
  }
  /** Writes bytes within an attached segment, 8192 at most, else EINVAL. */
  attachedWrite(attachment, offset, data) {
    return this.call('attached write', 0x4d, [u32(attachment), u64(offset), bytes(data)], nothing)
  }
}
