package ipcd;

import java.io.IOException;

/** A refused call: its name, and the error of its manual page. */
public final class RefusedException extends IOException {
    private static final long serialVersionUID = 1;

    public final String call;
    public final Errno errno;

    RefusedException(String call, Errno errno) {
        super(call + ": " + errno);
        this.call = call;
        this.errno = errno;
    }
}
