package ipcd;

import java.nio.ByteBuffer;
import java.nio.charset.StandardCharsets;
import java.time.Duration;
import java.time.Instant;
import java.util.List;
import java.util.OptionalInt;
import java.util.function.Function;

/**
 * The calls of a connection: each sends its request at once. A number of 32 unsigned bits is an int of the same bits,
 * so the user 4294967295 is -1; one of 64 is a long. A name is text of UTF-8, or bytes as they are.
 */
public abstract class Calls {
    public static final int IPC_PRIVATE = 0;
    public static final int IPC_CREAT = 0x200;
    public static final int IPC_EXCL = 0x400;
    public static final int IPC_NOWAIT = 0x800;
    public static final int MSG_NOERROR = 0x1000;
    public static final int MSG_EXCEPT = 0x2000;
    public static final int SEM_UNDO = 0x1000;
    public static final int SHM_RDONLY = 0x1000;
    /** In the mode of a removed segment that is attached. */
    public static final int SHM_DEST = 0x200;
    public static final int O_RDONLY = 0;
    public static final int O_WRONLY = 1;
    public static final int O_RDWR = 2;
    public static final int O_CREAT = 0x40;
    public static final int O_EXCL = 0x80;
    public static final int O_TRUNC = 0x200;
    public static final int O_NONBLOCK = 0x800;
    /** The kinds of mqNotify: no registration, one without a frame, and one with a frame. */
    public static final int NOTIFY_NOT = 0;
    public static final int NOTIFY_NULL = 1;
    public static final int NOTIFY_FRAME = 2;

    private static final long NO_TIME = -1;

    /** An operation of semop(2): op is added to semaphore num, or waits for 0. Flags are IPC_NOWAIT and SEM_UNDO. */
    public record Op(int num, int op, int flags) {
        public Op(int num, int op) {
            this(num, op, 0);
        }
    }

    /** What msgrcv(2) answers. */
    public record Message(long type, byte[] text) {
    }

    /** What mq_receive(3) answers. */
    public record PosixMessage(int priority, byte[] text) {
    }

    /** Who owns and who created a System V object, and its mode: the user, group and others in nine bits. */
    public record Owner(int uid, int gid, int cuid, int cgid, int mode) {
    }

    /** The record of a queue. Times are milliseconds since 1970, and 0 is never. */
    public record QueueStat(int key, Owner owner, long stime, long rtime, long ctime, int lspid, int lrpid, int qbytes,
            int qnum, int cbytes) {
    }

    /** The record of a semaphore set. Times are milliseconds since 1970, and 0 is never. */
    public record SetStat(int key, Owner owner, long otime, long ctime, int nsems) {
    }

    /** The record of a System V segment. Times are milliseconds since 1970, and 0 is never. */
    public record SegmentStat(int key, Owner owner, long atime, long dtime, long ctime, int cpid, int lpid, int nattch,
            long segsz) {
    }

    /** The record of a segment of shm_open(3). */
    public record ShmStat(long length, int uid, int gid, int mode) {
    }

    /** What mq_getattr(3) answers. Flags are 0 or O_NONBLOCK. */
    public record Attr(int flags, int maxmsg, int msgsize, int curmsgs) {
    }

    /** The greatest messages and bytes of a message of a new POSIX queue. */
    public record Limits(int maxmsg, int msgsize) {
    }

    // Whoever reads the reply to hello writes it, and other threads may read it.
    private volatile OptionalInt version = OptionalInt.empty();

    abstract <T> Reply<T> call(String call, int opcode, Function<ByteBuffer, T> read, Object... fields);

    private static Void nothing(ByteBuffer body) {
        return null;
    }

    private static byte[] rest(ByteBuffer body) {
        byte[] bytes = new byte[body.remaining()];
        body.get(bytes);
        return bytes;
    }

    private static int[] values(ByteBuffer body) {
        int[] found = new int[(body.remaining() + 1) / 2];
        for (int i = 0; i < found.length; i++) {
            found[i] = body.getShort() & 0xffff;
        }
        return found;
    }

    private static Owner owner(ByteBuffer it) {
        return new Owner(it.getInt(), it.getInt(), it.getInt(), it.getInt(), it.getInt());
    }

    private static Attr attr(ByteBuffer it) {
        return new Attr(it.getInt(), it.getInt(), it.getInt(), it.getInt());
    }

    private static byte[] utf8(String name) {
        return name.getBytes(StandardCharsets.UTF_8);
    }

    /** Milliseconds, rounded up, so that no call ends before its time. */
    private static long milliseconds(Duration length) {
        return length.plusNanos(999_999).toMillis();
    }

    private static long timeout(Duration length) {
        return length == null ? NO_TIME : milliseconds(length);
    }

    private static long deadline(Instant moment) {
        return moment == null ? NO_TIME : milliseconds(Duration.between(Instant.EPOCH, moment));
    }

    /**
     * Makes the connection a process of this user and group: its pid. ENFILE: there are as many processes as the limit
     * allows; one that has just ended may still be there, so send it again.
     */
    public Reply<Integer> hello(int uid, int gid) {
        return call("hello", 0x01, this::greeting, uid, gid);
    }

    /**
     * The version of the server's device, 3 or later, after the {@code get} of hello. Empty: the server has told none,
     * as on devices of version 1 and 2.
     */
    public OptionalInt version() {
        return version;
    }

    /** The pid. The version may follow, and what a later server tells after it. */
    private int greeting(ByteBuffer body) {
        int pid = body.getInt();
        if (body.remaining() >= 4) {
            version = OptionalInt.of(body.getInt());
        }
        body.position(body.limit());
        return pid;
    }

    /** Ends the call that waits, if one does: that call is EINTR, unless its reply came first. */
    public Reply<Void> interrupt() {
        return call("interrupt", 0x02, Calls::nothing);
    }

    /** Closes a descriptor of a POSIX queue, a named semaphore or a segment: mq_close(3), sem_close(3), close(2). */
    public Reply<Void> closeFd(int fd) {
        return call("close", 0x03, Calls::nothing, fd);
    }

    /** msgget(2). */
    public Reply<Integer> msgget(int key, int flags) {
        return call("msgget", 0x0a, ByteBuffer::getInt, key, flags);
    }

    /** msgop(2). Without IPC_NOWAIT it waits while the queue is full. The type is above 0. */
    public Reply<Void> msgsnd(int id, long type, byte[] text, int flags) {
        return call("msgsnd", 0x0b, Calls::nothing, id, flags, type, text);
    }

    /**
     * msgop(2). Without IPC_NOWAIT it waits for a message that the type allows: 0 any, above 0 of this type, below 0
     * the least type up to its absolute value. A longer text than the size is E2BIG, or cut with MSG_NOERROR.
     */
    public Reply<Message> msgrcv(int id, int size, long type, int flags) {
        return call("msgrcv", 0x0c, it -> new Message(it.getLong(), rest(it)), id, flags, size, type);
    }

    /** IPC_STAT of msgctl(2). */
    public Reply<QueueStat> msgctlStat(int id) {
        return call("msgctl", 0x0d, it -> new QueueStat(it.getInt(), owner(it), it.getLong(), it.getLong(),
                it.getLong(), it.getInt(), it.getInt(), it.getInt(), it.getInt(), it.getInt()), id);
    }

    /** IPC_SET of msgctl(2). */
    public Reply<Void> msgctlSet(int id, int uid, int gid, int mode, int qbytes) {
        return call("msgctl", 0x0e, Calls::nothing, id, uid, gid, mode, qbytes);
    }

    /** IPC_RMID of msgctl(2). Calls that wait for the queue are EIDRM. */
    public Reply<Void> msgctlRmid(int id) {
        return call("msgctl", 0x0f, Calls::nothing, id);
    }

    /** semget(2). */
    public Reply<Integer> semget(int key, int nsems, int flags) {
        return call("semget", 0x14, ByteBuffer::getInt, key, nsems, flags);
    }

    /** semop(2), semtimedop(2). It does the list as a whole, and waits until it can, this long at most: EAGAIN. */
    public Reply<Void> semop(int id, List<Op> operations, Duration length) {
        ByteBuffer list = ByteBuffer.allocate(6 * operations.size());
        operations.forEach(it -> list.putShort((short) it.num).putShort((short) it.op).putShort((short) it.flags));
        return call("semop", 0x15, Calls::nothing, id, timeout(length), list.array());
    }

    /** GETVAL of semctl(2), a value from 0 to 32767. */
    public Reply<Integer> semctlGetval(int id, int num) {
        return call("semctl", 0x16, ByteBuffer::getInt, id, num);
    }

    /** GETPID of semctl(2), the process that set it last, or 0. */
    public Reply<Integer> semctlGetpid(int id, int num) {
        return call("semctl", 0x17, ByteBuffer::getInt, id, num);
    }

    /** GETNCNT of semctl(2), how many calls wait for a greater value. */
    public Reply<Integer> semctlGetncnt(int id, int num) {
        return call("semctl", 0x18, ByteBuffer::getInt, id, num);
    }

    /** GETZCNT of semctl(2), how many calls wait for 0. */
    public Reply<Integer> semctlGetzcnt(int id, int num) {
        return call("semctl", 0x19, ByteBuffer::getInt, id, num);
    }

    /** SETVAL of semctl(2), from 0 to 32767, else ERANGE. */
    public Reply<Void> semctlSetval(int id, int num, int value) {
        return call("semctl", 0x1a, Calls::nothing, id, num, value);
    }

    /** GETALL of semctl(2). */
    public Reply<int[]> semctlGetall(int id) {
        return call("semctl", 0x1b, Calls::values, id);
    }

    /** SETALL of semctl(2), as many values as the set has semaphores, each from 0 to 32767. */
    public Reply<Void> semctlSetall(int id, int... values) {
        ByteBuffer list = ByteBuffer.allocate(2 * values.length);
        for (int it : values) {
            list.putShort((short) it);
        }
        return call("semctl", 0x1c, Calls::nothing, id, list.array());
    }

    /** IPC_STAT of semctl(2). */
    public Reply<SetStat> semctlStat(int id) {
        return call("semctl", 0x1d,
                it -> new SetStat(it.getInt(), owner(it), it.getLong(), it.getLong(), it.getInt()), id);
    }

    /** IPC_SET of semctl(2). */
    public Reply<Void> semctlSet(int id, int uid, int gid, int mode) {
        return call("semctl", 0x1e, Calls::nothing, id, uid, gid, mode);
    }

    /** IPC_RMID of semctl(2). */
    public Reply<Void> semctlRmid(int id) {
        return call("semctl", 0x1f, Calls::nothing, id);
    }

    /** mq_open(3), a descriptor from 0. Without limits (null) a new queue has the greatest of the server. */
    public Reply<Integer> mqOpen(String name, int flags, int mode, Limits limits) {
        return mqOpen(utf8(name), flags, mode, limits);
    }

    public Reply<Integer> mqOpen(byte[] name, int flags, int mode, Limits limits) {
        byte has = (byte) (limits == null ? 0 : 1);
        Limits given = limits == null ? new Limits(0, 0) : limits;
        return call("mq_open", 0x28, ByteBuffer::getInt, flags, mode, has, given.maxmsg, given.msgsize, name);
    }

    /** mq_unlink(3). */
    public Reply<Void> mqUnlink(String name) {
        return mqUnlink(utf8(name));
    }

    public Reply<Void> mqUnlink(byte[] name) {
        return call("mq_unlink", 0x29, Calls::nothing, (Object) name);
    }

    /**
     * mq_timedsend(3). It waits while the queue is full, until the deadline: ETIMEDOUT; null is none. Priorities are 0
     * to 32767.
     */
    public Reply<Void> mqSend(int fd, byte[] text, int priority, Instant deadline) {
        return call("mq_send", 0x2a, Calls::nothing, fd, deadline(deadline), priority, text);
    }

    /** mq_timedreceive(3), the oldest of the greatest priority. The size is at least the queue's msgsize. */
    public Reply<PosixMessage> mqReceive(int fd, int size, Instant deadline) {
        return call("mq_receive", 0x2b, it -> new PosixMessage(it.getInt(), rest(it)), fd, deadline(deadline), size);
    }

    /** mq_notify(3). With NOTIFY_FRAME the next message to the empty queue is a notification with this cookie. */
    public Reply<Void> mqNotify(int fd, int kind, int cookie) {
        return call("mq_notify", 0x2c, Calls::nothing, fd, kind, cookie);
    }

    /** mq_getattr(3). */
    public Reply<Attr> mqGetattr(int fd) {
        return call("mq_getattr", 0x2d, Calls::attr, fd);
    }

    /** mq_setattr(3), 0 or O_NONBLOCK. It answers the attributes as they were. */
    public Reply<Attr> mqSetattr(int fd, int flags) {
        return call("mq_setattr", 0x2e, Calls::attr, fd, flags);
    }

    /** sem_open(3), a descriptor. The value is that of a new one. */
    public Reply<Integer> semOpen(String name, int flags, int mode, int value) {
        return semOpen(utf8(name), flags, mode, value);
    }

    public Reply<Integer> semOpen(byte[] name, int flags, int mode, int value) {
        return call("sem_open", 0x32, ByteBuffer::getInt, flags, mode, value, name);
    }

    /** sem_unlink(3). */
    public Reply<Void> semUnlink(String name) {
        return semUnlink(utf8(name));
    }

    public Reply<Void> semUnlink(byte[] name) {
        return call("sem_unlink", 0x33, Calls::nothing, (Object) name);
    }

    /** sem_post(3). */
    public Reply<Void> semPost(int fd) {
        return call("sem_post", 0x34, Calls::nothing, fd);
    }

    /** sem_timedwait(3). It waits while the value is 0, until the deadline: ETIMEDOUT; null is none. */
    public Reply<Void> semWait(int fd, Instant deadline) {
        return call("sem_wait", 0x35, Calls::nothing, fd, deadline(deadline));
    }

    /** sem_trywait(3), EAGAIN at 0. */
    public Reply<Void> semTrywait(int fd) {
        return call("sem_trywait", 0x36, Calls::nothing, fd);
    }

    /** sem_getvalue(3). */
    public Reply<Integer> semGetvalue(int fd) {
        return call("sem_getvalue", 0x37, ByteBuffer::getInt, fd);
    }

    /** shm_open(3), a descriptor. */
    public Reply<Integer> shmOpen(String name, int flags, int mode) {
        return shmOpen(utf8(name), flags, mode);
    }

    public Reply<Integer> shmOpen(byte[] name, int flags, int mode) {
        return call("shm_open", 0x3c, ByteBuffer::getInt, flags, mode, name);
    }

    /** shm_unlink(3). */
    public Reply<Void> shmUnlink(String name) {
        return shmUnlink(utf8(name));
    }

    public Reply<Void> shmUnlink(byte[] name) {
        return call("shm_unlink", 0x3d, Calls::nothing, (Object) name);
    }

    /** ftruncate(2). */
    public Reply<Void> ftruncate(int fd, long length) {
        return call("ftruncate", 0x3e, Calls::nothing, fd, length);
    }

    /** Reads bytes within a segment as pread(2), 8192 at most, else EINVAL. */
    public Reply<byte[]> shmRead(int fd, long offset, int length) {
        return call("read", 0x3f, Calls::rest, fd, offset, length);
    }

    /** Writes bytes within a segment as pwrite(2), 8192 at most, else EINVAL. */
    public Reply<Void> shmWrite(int fd, long offset, byte[] bytes) {
        return call("write", 0x40, Calls::nothing, fd, offset, bytes);
    }

    /** fstat(2) of a segment. */
    public Reply<ShmStat> shmStat(int fd) {
        return call("fstat", 0x41, it -> new ShmStat(it.getLong(), it.getInt(), it.getInt(), it.getInt()), fd);
    }

    /** shmget(2). */
    public Reply<Integer> shmget(int key, long size, int flags) {
        return call("shmget", 0x46, ByteBuffer::getInt, key, size, flags);
    }

    /** shmop(2). It answers an attachment, by which the bytes are read and written, in place of an address. */
    public Reply<Integer> shmat(int id, int flags) {
        return call("shmat", 0x47, ByteBuffer::getInt, id, flags);
    }

    /** shmop(2). */
    public Reply<Void> shmdt(int attachment) {
        return call("shmdt", 0x48, Calls::nothing, attachment);
    }

    /** IPC_STAT of shmctl(2). The mode has SHM_DEST, and the key is 0, if it was removed and is attached. */
    public Reply<SegmentStat> shmctlStat(int id) {
        return call("shmctl", 0x49, it -> new SegmentStat(it.getInt(), owner(it), it.getLong(), it.getLong(),
                it.getLong(), it.getInt(), it.getInt(), it.getInt(), it.getLong()), id);
    }

    /** IPC_SET of shmctl(2). */
    public Reply<Void> shmctlSet(int id, int uid, int gid, int mode) {
        return call("shmctl", 0x4a, Calls::nothing, id, uid, gid, mode);
    }

    /** IPC_RMID of shmctl(2). */
    public Reply<Void> shmctlRmid(int id) {
        return call("shmctl", 0x4b, Calls::nothing, id);
    }

    /** Reads bytes within an attached segment, 8192 at most, else EINVAL. */
    public Reply<byte[]> attachedRead(int attachment, long offset, int length) {
        return call("attached read", 0x4c, Calls::rest, attachment, offset, length);
    }

    /** Writes bytes within an attached segment, 8192 at most, else EINVAL. */
    public Reply<Void> attachedWrite(int attachment, long offset, byte[] bytes) {
        return call("attached write", 0x4d, Calls::nothing, attachment, offset, bytes);
    }
}
