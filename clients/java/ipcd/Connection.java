package ipcd;

import java.io.EOFException;
import java.io.IOException;
import java.net.UnixDomainSocketAddress;
import java.nio.ByteBuffer;
import java.nio.channels.SocketChannel;
import java.nio.file.Path;
import java.time.Duration;
import java.util.ArrayDeque;
import java.util.HashMap;
import java.util.Map;
import java.util.Queue;
import java.util.concurrent.BlockingQueue;
import java.util.concurrent.LinkedBlockingQueue;
import java.util.function.Function;

/**
 * A connection to a server, which is one process there after {@code hello}. Several threads may use it. The server has
 * one waiting call of a process at a time: further calls are EALREADY meanwhile, so who waits has a connection for it.
 */
public final class Connection extends Calls implements AutoCloseable {
    /** How long the reply to an interrupted call may take. */
    public static final Duration PATIENCE = Duration.ofSeconds(30);

    static final String STRANGE = "the server has sent what is no reply";
    private static final int LONGEST_FRAME = 65792;
    // What a request that no frame can carry is refused, as its manual page has it.
    private static final Map<Integer, Errno> TOO_LONG = Map.of(0x0b, Errno.EINVAL, 0x15, Errno.E2BIG, 0x1c,
            Errno.EINVAL, 0x2a, Errno.EMSGSIZE, 0x40, Errno.EINVAL, 0x4d, Errno.EINVAL);

    /** What mq_notify(3) asked for: the descriptor that registered, and the cookie. */
    public record Notification(int fd, int cookie) {
    }

    private final SocketChannel socket;
    // A thread that is interrupted within a write would close the socket, so a thread of this connection writes.
    private final BlockingQueue<ByteBuffer> requests = new LinkedBlockingQueue<>();
    private final Map<Integer, Reply<?>> asked = new HashMap<>();
    private final Queue<Notification> notified = new ArrayDeque<>();
    private int serial;
    private EndedException ended;

    private Connection(SocketChannel socket) {
        this.socket = socket;
        begin(this::write, "ipcd requests");
        begin(this::read, "ipcd replies");
    }

    /** Connects to the socket of a server. {@code hello} comes next. */
    public static Connection connect(Path path) throws IOException {
        return new Connection(SocketChannel.open(UnixDomainSocketAddress.of(path)));
    }

    private static void begin(Runnable work, String name) {
        Thread thread = new Thread(work, name);
        thread.setDaemon(true);
        thread.start();
    }

    /** Ends the process: its waiting call is gone, its adjustments are added, its descriptors are closed. */
    @Override
    public void close() {
        end("it is closed", null, null);
    }

    /** The next notification, or null within this time. */
    public synchronized Notification notification(Duration within) throws EndedException, InterruptedException {
        long end = System.nanoTime() + within.toNanos();
        while (notified.isEmpty()) {
            if (ended != null) {
                throw new EndedException(ended.getMessage(), ended.fault, ended);
            }
            long left = (end - System.nanoTime() + 999_999) / 1_000_000;
            if (left <= 0) {
                return null;
            }
            wait(left);
        }
        return notified.remove();
    }

    @Override
    <T> Reply<T> call(String call, int opcode, Function<ByteBuffer, T> read, Object... fields) {
        Reply<T> reply = new Reply<>(this, call, read);
        int size = 9;
        for (Object field : fields) {
            size += sizeOf(field);
        }
        if (size - 4 > LONGEST_FRAME) {
            Errno errno = TOO_LONG.getOrDefault(opcode, Errno.ENAMETOOLONG);
            reply.body.completeExceptionally(new RefusedException(call, errno));
            return reply;
        }
        ByteBuffer frame = ByteBuffer.allocate(size);
        synchronized (this) {
            if (ended != null) {
                reply.body.completeExceptionally(ended);
                return reply;
            }
            serial = serial == -1 ? 1 : serial + 1;
            asked.put(serial, reply);
            frame.putInt(size - 4).putInt(serial).put((byte) opcode);
            for (Object field : fields) {
                put(frame, field);
            }
            requests.add(frame.flip());
        }
        return reply;
    }

    private static int sizeOf(Object field) {
        if (field instanceof byte[] bytes) {
            return bytes.length;
        }
        return field instanceof Byte ? 1 : field instanceof Short ? 2 : field instanceof Integer ? 4 : 8;
    }

    private static void put(ByteBuffer frame, Object field) {
        if (field instanceof byte[] bytes) {
            frame.put(bytes);
        } else if (field instanceof Byte it) {
            frame.put(it);
        } else if (field instanceof Short it) {
            frame.putShort(it);
        } else if (field instanceof Integer it) {
            frame.putInt(it);
        } else {
            frame.putLong((Long) field);
        }
    }

    private void write() {
        try {
            for (;;) {
                ByteBuffer frame = requests.take();
                if (!frame.hasRemaining()) {
                    return;
                }
                while (frame.hasRemaining()) {
                    socket.write(frame);
                }
            }
        } catch (IOException | InterruptedException failed) {
            // The server has ended the connection: its last frame is still to be read, and `read` ends it here.
        }
    }

    private void read() {
        try {
            for (;;) {
                int size = whole(4).getInt();
                if (size < 6 || size > LONGEST_FRAME) {
                    end(STRANGE, null, null);
                    return;
                }
                ByteBuffer frame = whole(size);
                if (!take(frame.getInt(), frame.getShort() & 0xffff, frame.slice())) {
                    return;
                }
            }
        } catch (EOFException end) {
            end("the server has ended it", null, null);
        } catch (IOException failed) {
            end(String.valueOf(failed.getMessage()), null, failed);
        }
    }

    private ByteBuffer whole(int size) throws IOException {
        ByteBuffer bytes = ByteBuffer.allocate(size);
        while (bytes.hasRemaining()) {
            if (socket.read(bytes) < 0) {
                throw new EOFException();
            }
        }
        return bytes.flip();
    }

    /** Hands a frame to whoever waits for it: false if it is the last. */
    private boolean take(int of, int number, ByteBuffer body) {
        Errno errno = Errno.of(number);
        if (errno == Errno.EPROTO || of == 0 && number != 0) {
            return end("by its last frame, " + errno, errno, null);
        }
        if (of == 0) {
            return body.remaining() == 8 ? notified(body.getInt(), body.getInt()) : end(STRANGE, null, null);
        }
        Reply<?> reply;
        synchronized (this) {
            reply = asked.remove(of);
        }
        if (reply == null || number != 0 && (errno == null || body.hasRemaining())) {
            if (reply != null) {
                reply.body.completeExceptionally(new EndedException(STRANGE, null, null));
            }
            return end(STRANGE, null, null);
        }
        if (number == 0) {
            reply.body.complete(body);
        } else {
            reply.body.completeExceptionally(new RefusedException(reply.call, errno));
        }
        return true;
    }

    private synchronized boolean notified(int fd, int cookie) {
        notified.add(new Notification(fd, cookie));
        notifyAll();
        return true;
    }

    /** The connection ends, and so does each call that has no reply yet. */
    boolean end(String how, Errno fault, Throwable cause) {
        Map<Integer, Reply<?>> left;
        synchronized (this) {
            if (ended != null) {
                return false;
            }
            ended = new EndedException(how, fault, cause);
            left = new HashMap<>(asked);
            asked.clear();
            notifyAll();
        }
        requests.clear();
        requests.add(ByteBuffer.allocate(0));
        try {
            socket.close();
        } catch (IOException failed) {
            // It is closed all the same.
        }
        left.values().forEach(it -> it.body.completeExceptionally(ended));
        return false;
    }
}
