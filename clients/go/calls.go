package ipcd

import (
	"bytes"
	"encoding/binary"
	"time"
)

// Flags of the calls, as the manual pages name them.
const (
	IPC_PRIVATE = 0
	IPC_CREAT   = 0x200
	IPC_EXCL    = 0x400
	IPC_NOWAIT  = 0x800
	MSG_NOERROR = 0x1000
	MSG_EXCEPT  = 0x2000
	SEM_UNDO    = 0x1000
	SHM_RDONLY  = 0x1000
	SHM_DEST    = 0x200 // in the mode of a removed segment that is attached
	O_RDONLY    = 0
	O_WRONLY    = 1
	O_RDWR      = 2
	O_CREAT     = 0x40
	O_EXCL      = 0x80
	O_TRUNC     = 0x200
	O_NONBLOCK  = 0x800
)

// The kinds of MqNotify: no registration, one without a frame, and one with a frame.
const (
	NOTIFY_NOT uint32 = iota
	NOTIFY_NULL
	NOTIFY_FRAME
)

// Forever is the timeout of a semop without one. The zero time.Time is no deadline.
const Forever time.Duration = -1

// None is the result of a call that answers nothing.
type None struct{}

// Op is an operation of semop(2): Op is added to semaphore Num, or waits for 0; IPC_NOWAIT and SEM_UNDO are its flags.
type Op struct {
	Num   uint16
	Op    int16
	Flags uint16
}

// Message is what msgrcv(2) answers.
type Message struct {
	Type int64
	Text []byte
}

// PosixMessage is what mq_receive(3) answers.
type PosixMessage struct {
	Priority uint32
	Text     []byte
}

// Owner is who owns and who created a System V object, and its mode: the user, group and others in nine bits.
type Owner struct{ UID, GID, CreatorUID, CreatorGID, Mode uint32 }

// QueueStat is the record of a queue. Times are milliseconds since 1970, and 0 is never.
type QueueStat struct {
	Key                            int32
	Owner                          Owner
	Stime, Rtime, Ctime            uint64
	Lspid, Lrpid, Qbytes, Messages uint32
	Bytes                          uint32
}

// SetStat is the record of a semaphore set. Times are milliseconds since 1970, and 0 is never.
type SetStat struct {
	Key          int32
	Owner        Owner
	Otime, Ctime uint64
	Nsems        uint32
}

// SegmentStat is the record of a System V segment. Times are milliseconds since 1970, and 0 is never.
type SegmentStat struct {
	Key                 int32
	Owner               Owner
	Atime, Dtime, Ctime uint64
	Cpid, Lpid, Nattch  uint32
	Size                uint64
}

// ShmStat is the record of a segment of shm_open(3).
type ShmStat struct {
	Length         uint64
	UID, GID, Mode uint32
}

// Attr is what mq_getattr(3) answers. Flags are 0 or O_NONBLOCK.
type Attr struct{ Flags, Maxmsg, Msgsize, Curmsgs uint32 }

// Limits are the attributes of a new POSIX queue: nil stands for the greatest of the server.
type Limits struct{ Maxmsg, Msgsize int32 }

func begin[T any](c *Conn, call string, opcode byte, decode func([]byte) (T, bool), fields ...any) *Pending[T] {
	return &Pending[T]{c, c.send(call, opcode, fields), decode}
}

func nothing(body []byte) (None, bool) { return None{}, len(body) == 0 }

func all(body []byte) ([]byte, bool) { return body, true }

// record is a body of this size, field after field.
func record[T any](body []byte) (T, bool) {
	var value T
	is := binary.Size(value) == len(body)
	if is {
		is = binary.Read(bytes.NewReader(body), binary.BigEndian, &value) == nil
	}
	return value, is
}

func message(body []byte) (Message, bool) {
	if len(body) < 8 {
		return Message{}, false
	}
	return Message{int64(binary.BigEndian.Uint64(body)), body[8:]}, true
}

func posixMessage(body []byte) (PosixMessage, bool) {
	if len(body) < 4 {
		return PosixMessage{}, false
	}
	return PosixMessage{binary.BigEndian.Uint32(body), body[4:]}, true
}

func values(body []byte) ([]uint16, bool) {
	found := make([]uint16, len(body)/2)
	return found, binary.Read(bytes.NewReader(body), binary.BigEndian, found) == nil && len(body)%2 == 0
}

// Milliseconds are rounded up, so that no call ends before its time.
func timeout(length time.Duration) uint64 {
	if length < 0 {
		return noTime
	}
	return uint64((length + time.Millisecond - 1) / time.Millisecond)
}

func deadline(moment time.Time) uint64 {
	if moment.IsZero() {
		return noTime
	}
	return uint64(moment.Add(time.Millisecond - 1).UnixMilli())
}

// Hello makes the connection a process of this user and group, and answers its pid. ENFILE: there are as many processes
// as the limit allows; one that has just ended may still be there, so send it again.
func (c *Conn) Hello(uid, gid uint32) *Pending[uint32] {
	return begin(c, "hello", 0x01, c.greeting, uid, gid)
}

// greeting is the pid. The version may follow, and what a later server tells after it.
func (c *Conn) greeting(body []byte) (uint32, bool) {
	if len(body) < 4 {
		return 0, false
	}
	if len(body) >= 8 {
		c.lock.Lock()
		c.version = binary.BigEndian.Uint32(body[4:])
		c.lock.Unlock()
	}
	return binary.BigEndian.Uint32(body), true
}

// Version is the version of the server's device, 3 or later, after the Wait of Hello. It is 0 if the server has told
// none, as on devices of version 1 and 2.
func (c *Conn) Version() uint32 {
	c.lock.Lock()
	defer c.lock.Unlock()
	return c.version
}

// Interrupt ends the call that waits, if one does: that call is EINTR, unless its reply came first.
func (c *Conn) Interrupt() *Pending[None] { return begin(c, "interrupt", 0x02, nothing) }

// CloseFd closes a descriptor of a POSIX queue, a named semaphore or a segment: mq_close(3), sem_close(3), close(2).
func (c *Conn) CloseFd(fd uint32) *Pending[None] { return begin(c, "close", 0x03, nothing, fd) }

// Msgget: msgget(2).
func (c *Conn) Msgget(key int32, flags uint32) *Pending[uint32] {
	return begin(c, "msgget", 0x0a, record[uint32], key, flags)
}

// Msgsnd: msgop(2). Without IPC_NOWAIT it waits while the queue is full. The kind is above 0.
func (c *Conn) Msgsnd(id uint32, kind int64, text []byte, flags uint32) *Pending[None] {
	return begin(c, "msgsnd", 0x0b, nothing, id, flags, kind, text)
}

// Msgrcv: msgop(2). Without IPC_NOWAIT it waits for a message that the kind allows: 0 any, above 0 of this type, below
// 0 the least type up to its absolute value. A longer text than size is E2BIG, or cut with MSG_NOERROR.
func (c *Conn) Msgrcv(id, size uint32, kind int64, flags uint32) *Pending[Message] {
	return begin(c, "msgrcv", 0x0c, message, id, flags, size, kind)
}

// MsgctlStat: IPC_STAT of msgctl(2).
func (c *Conn) MsgctlStat(id uint32) *Pending[QueueStat] {
	return begin(c, "msgctl", 0x0d, record[QueueStat], id)
}

// MsgctlSet: IPC_SET of msgctl(2).
func (c *Conn) MsgctlSet(id, uid, gid, mode, qbytes uint32) *Pending[None] {
	return begin(c, "msgctl", 0x0e, nothing, id, uid, gid, mode, qbytes)
}

// MsgctlRmid: IPC_RMID of msgctl(2). Calls that wait for the queue are EIDRM.
func (c *Conn) MsgctlRmid(id uint32) *Pending[None] { return begin(c, "msgctl", 0x0f, nothing, id) }

// Semget: semget(2).
func (c *Conn) Semget(key, nsems int32, flags uint32) *Pending[uint32] {
	return begin(c, "semget", 0x14, record[uint32], key, nsems, flags)
}

// Semop: semop(2), semtimedop(2). It performs the list as a whole, and waits until it can, this long at most: EAGAIN.
func (c *Conn) Semop(id uint32, operations []Op, length time.Duration) *Pending[None] {
	return begin(c, "semop", 0x15, nothing, id, timeout(length), operations)
}

// SemctlGetval: GETVAL of semctl(2), a value from 0 to 32767.
func (c *Conn) SemctlGetval(id, num uint32) *Pending[uint32] {
	return begin(c, "semctl", 0x16, record[uint32], id, num)
}

// SemctlGetpid: GETPID of semctl(2), the process that set it last, or 0.
func (c *Conn) SemctlGetpid(id, num uint32) *Pending[uint32] {
	return begin(c, "semctl", 0x17, record[uint32], id, num)
}

// SemctlGetncnt: GETNCNT of semctl(2), how many calls wait for a greater value.
func (c *Conn) SemctlGetncnt(id, num uint32) *Pending[uint32] {
	return begin(c, "semctl", 0x18, record[uint32], id, num)
}

// SemctlGetzcnt: GETZCNT of semctl(2), how many calls wait for 0.
func (c *Conn) SemctlGetzcnt(id, num uint32) *Pending[uint32] {
	return begin(c, "semctl", 0x19, record[uint32], id, num)
}

// SemctlSetval: SETVAL of semctl(2), from 0 to 32767, else ERANGE.
func (c *Conn) SemctlSetval(id, num uint32, value int32) *Pending[None] {
	return begin(c, "semctl", 0x1a, nothing, id, num, value)
}

// SemctlGetall: GETALL of semctl(2).
func (c *Conn) SemctlGetall(id uint32) *Pending[[]uint16] {
	return begin(c, "semctl", 0x1b, values, id)
}

// SemctlSetall: SETALL of semctl(2), as many values as the set has semaphores.
func (c *Conn) SemctlSetall(id uint32, to []uint16) *Pending[None] {
	return begin(c, "semctl", 0x1c, nothing, id, to)
}

// SemctlStat: IPC_STAT of semctl(2).
func (c *Conn) SemctlStat(id uint32) *Pending[SetStat] {
	return begin(c, "semctl", 0x1d, record[SetStat], id)
}

// SemctlSet: IPC_SET of semctl(2).
func (c *Conn) SemctlSet(id, uid, gid, mode uint32) *Pending[None] {
	return begin(c, "semctl", 0x1e, nothing, id, uid, gid, mode)
}

// SemctlRmid: IPC_RMID of semctl(2).
func (c *Conn) SemctlRmid(id uint32) *Pending[None] { return begin(c, "semctl", 0x1f, nothing, id) }

// MqOpen: mq_open(3), a descriptor from 0.
func (c *Conn) MqOpen(name string, flags, mode uint32, limits *Limits) *Pending[uint32] {
	has, given := uint8(0), Limits{}
	if limits != nil {
		has, given = 1, *limits
	}
	return begin(c, "mq_open", 0x28, record[uint32], flags, mode, has, given, []byte(name))
}

// MqUnlink: mq_unlink(3).
func (c *Conn) MqUnlink(name string) *Pending[None] {
	return begin(c, "mq_unlink", 0x29, nothing, []byte(name))
}

// MqSend: mq_timedsend(3). It waits while the queue is full, until the deadline: ETIMEDOUT. Priorities are 0 to 32767.
func (c *Conn) MqSend(fd uint32, text []byte, priority uint32, until time.Time) *Pending[None] {
	return begin(c, "mq_send", 0x2a, nothing, fd, deadline(until), priority, text)
}

// MqReceive: mq_timedreceive(3), the oldest of the greatest priority. The size is at least the queue's msgsize.
func (c *Conn) MqReceive(fd, size uint32, until time.Time) *Pending[PosixMessage] {
	return begin(c, "mq_receive", 0x2b, posixMessage, fd, deadline(until), size)
}

// MqNotify: mq_notify(3). With NOTIFY_FRAME the next message to the empty queue is a Notification with this cookie.
func (c *Conn) MqNotify(fd, kind, cookie uint32) *Pending[None] {
	return begin(c, "mq_notify", 0x2c, nothing, fd, kind, cookie)
}

// MqGetattr: mq_getattr(3).
func (c *Conn) MqGetattr(fd uint32) *Pending[Attr] {
	return begin(c, "mq_getattr", 0x2d, record[Attr], fd)
}

// MqSetattr: mq_setattr(3), 0 or O_NONBLOCK. It answers the attributes as they were.
func (c *Conn) MqSetattr(fd, flags uint32) *Pending[Attr] {
	return begin(c, "mq_setattr", 0x2e, record[Attr], fd, flags)
}

// SemOpen: sem_open(3), a descriptor. The value is that of a new one.
func (c *Conn) SemOpen(name string, flags, mode, value uint32) *Pending[uint32] {
	return begin(c, "sem_open", 0x32, record[uint32], flags, mode, value, []byte(name))
}

// SemUnlink: sem_unlink(3).
func (c *Conn) SemUnlink(name string) *Pending[None] {
	return begin(c, "sem_unlink", 0x33, nothing, []byte(name))
}

// SemPost: sem_post(3).
func (c *Conn) SemPost(fd uint32) *Pending[None] { return begin(c, "sem_post", 0x34, nothing, fd) }

// SemWait: sem_timedwait(3). It waits while the value is 0, until the deadline: ETIMEDOUT.
func (c *Conn) SemWait(fd uint32, until time.Time) *Pending[None] {
	return begin(c, "sem_wait", 0x35, nothing, fd, deadline(until))
}

// SemTrywait: sem_trywait(3), EAGAIN at 0.
func (c *Conn) SemTrywait(fd uint32) *Pending[None] {
	return begin(c, "sem_trywait", 0x36, nothing, fd)
}

// SemGetvalue: sem_getvalue(3).
func (c *Conn) SemGetvalue(fd uint32) *Pending[uint32] {
	return begin(c, "sem_getvalue", 0x37, record[uint32], fd)
}

// ShmOpen: shm_open(3), a descriptor.
func (c *Conn) ShmOpen(name string, flags, mode uint32) *Pending[uint32] {
	return begin(c, "shm_open", 0x3c, record[uint32], flags, mode, []byte(name))
}

// ShmUnlink: shm_unlink(3).
func (c *Conn) ShmUnlink(name string) *Pending[None] {
	return begin(c, "shm_unlink", 0x3d, nothing, []byte(name))
}

// Ftruncate: ftruncate(2).
func (c *Conn) Ftruncate(fd uint32, length uint64) *Pending[None] {
	return begin(c, "ftruncate", 0x3e, nothing, fd, length)
}

// ShmRead reads bytes within a segment as pread(2), 8192 at most, else EINVAL.
func (c *Conn) ShmRead(fd uint32, offset uint64, length uint32) *Pending[[]byte] {
	return begin(c, "read", 0x3f, all, fd, offset, length)
}

// ShmWrite writes bytes within a segment as pwrite(2), 8192 at most, else EINVAL.
func (c *Conn) ShmWrite(fd uint32, offset uint64, data []byte) *Pending[None] {
	return begin(c, "write", 0x40, nothing, fd, offset, data)
}

// ShmStat: fstat(2) of a segment.
func (c *Conn) ShmStat(fd uint32) *Pending[ShmStat] {
	return begin(c, "fstat", 0x41, record[ShmStat], fd)
}

// Shmget: shmget(2).
func (c *Conn) Shmget(key int32, size uint64, flags uint32) *Pending[uint32] {
	return begin(c, "shmget", 0x46, record[uint32], key, size, flags)
}

// Shmat: shmop(2). It answers an attachment, by which the bytes are read and written, in place of an address.
func (c *Conn) Shmat(id, flags uint32) *Pending[uint32] {
	return begin(c, "shmat", 0x47, record[uint32], id, flags)
}

// Shmdt: shmop(2).
func (c *Conn) Shmdt(attachment uint32) *Pending[None] {
	return begin(c, "shmdt", 0x48, nothing, attachment)
}

// ShmctlStat: IPC_STAT of shmctl(2).
func (c *Conn) ShmctlStat(id uint32) *Pending[SegmentStat] {
	return begin(c, "shmctl", 0x49, record[SegmentStat], id)
}

// ShmctlSet: IPC_SET of shmctl(2).
func (c *Conn) ShmctlSet(id, uid, gid, mode uint32) *Pending[None] {
	return begin(c, "shmctl", 0x4a, nothing, id, uid, gid, mode)
}

// ShmctlRmid: IPC_RMID of shmctl(2).
func (c *Conn) ShmctlRmid(id uint32) *Pending[None] { return begin(c, "shmctl", 0x4b, nothing, id) }

// AttachedRead reads bytes within an attached segment, 8192 at most, else EINVAL.
func (c *Conn) AttachedRead(attachment uint32, offset uint64, length uint32) *Pending[[]byte] {
	return begin(c, "attached read", 0x4c, all, attachment, offset, length)
}

// AttachedWrite writes bytes within an attached segment, 8192 at most, else EINVAL.
func (c *Conn) AttachedWrite(attachment uint32, offset uint64, data []byte) *Pending[None] {
	return begin(c, "attached write", 0x4d, nothing, attachment, offset, data)
}
