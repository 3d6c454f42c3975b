package ipcd;

import java.io.IOException;

/** The end of a connection. A request without a reply was maybe done, and maybe not. */
public final class EndedException extends IOException {
    private static final long serialVersionUID = 1;

    /** EPROTO or EIO, if that was the server's last frame, else null. */
    public final Errno fault;

    EndedException(String how, Errno fault, Throwable cause) {
        super("the connection has ended: " + how, cause);
        this.fault = fault;
    }
}
