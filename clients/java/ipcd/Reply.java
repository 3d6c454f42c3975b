package ipcd;

import java.io.IOException;
import java.nio.BufferUnderflowException;
import java.nio.ByteBuffer;
import java.time.Duration;
import java.util.concurrent.CompletableFuture;
import java.util.concurrent.ExecutionException;
import java.util.concurrent.TimeUnit;
import java.util.concurrent.TimeoutException;
import java.util.function.Function;

/**
 * The reply to a request that was sent. Several may be sent before the first {@code get}: their replies come in their
 * order, but for that of a call that waits.
 */
public final class Reply<T> {
    private final Connection connection;
    private final Function<ByteBuffer, T> read;
    final String call;
    final CompletableFuture<ByteBuffer> body = new CompletableFuture<>();

    Reply(Connection connection, String call, Function<ByteBuffer, T> read) {
        this.connection = connection;
        this.call = call;
        this.read = read;
    }

    /**
     * Waits for the reply. If the thread is interrupted, so is the call that waits: that is an InterruptedException,
     * unless the reply came first, which is the result then, and the thread stays interrupted.
     *
     * @throws RefusedException the call is refused
     * @throws EndedException the connection has ended
     */
    public T get() throws IOException, InterruptedException {
        try {
            return decoded(body.get());
        } catch (ExecutionException failed) {
            throw cause(failed);
        } catch (InterruptedException interrupted) {
            try {
                T value = settled();
                Thread.currentThread().interrupt();
                return value;
            } catch (RefusedException refused) {
                if (refused.errno == Errno.EINTR) {
                    throw interrupted;
                }
                throw refused;
            }
        }
    }

    /** The same, for so long: then it interrupts the call that waits, which is EINTR, unless its reply came first. */
    public T get(Duration time) throws IOException, InterruptedException {
        try {
            return decoded(body.get(time.toNanos(), TimeUnit.NANOSECONDS));
        } catch (ExecutionException failed) {
            throw cause(failed);
        } catch (TimeoutException late) {
            return settled();
        }
    }

    /** Interrupts the call, whose reply comes at once. */
    private T settled() throws IOException {
        connection.interrupt();
        boolean isInterrupted = false;
        long end = System.nanoTime() + Connection.PATIENCE.toNanos();
        try {
            for (;;) {
                try {
                    return decoded(body.get(end - System.nanoTime(), TimeUnit.NANOSECONDS));
                } catch (InterruptedException again) {
                    isInterrupted = true;
                } catch (ExecutionException failed) {
                    throw cause(failed);
                } catch (TimeoutException late) {
                    connection.end("the server does not answer", null, late);
                }
            }
        } finally {
            if (isInterrupted) {
                Thread.currentThread().interrupt();
            }
        }
    }

    private T decoded(ByteBuffer bytes) throws EndedException {
        ByteBuffer left = bytes.duplicate();
        try {
            T value = read.apply(left);
            if (!left.hasRemaining()) {
                return value;
            }
        } catch (BufferUnderflowException early) {
            // The body ends before its fields do.
        }
        connection.end(Connection.STRANGE, null, null);
        throw new EndedException(Connection.STRANGE, null, null);
    }

    /** What was refused, as an exception of this place. */
    private static IOException cause(ExecutionException failed) {
        Throwable cause = failed.getCause();
        if (cause instanceof RefusedException refused) {
            return new RefusedException(refused.call, refused.errno);
        }
        EndedException ended = (EndedException) cause;
        return new EndedException(ended.getMessage(), ended.fault, ended);
    }
}
