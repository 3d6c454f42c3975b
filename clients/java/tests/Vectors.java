import ipcd.Calls;
import ipcd.Connection;
import ipcd.EndedException;
import ipcd.Errno;
import ipcd.RefusedException;
import ipcd.Reply;
import java.io.ByteArrayOutputStream;
import java.io.IOException;
import java.net.UnixDomainSocketAddress;
import java.net.StandardProtocolFamily;
import java.nio.ByteBuffer;
import java.nio.channels.ServerSocketChannel;
import java.nio.channels.SocketChannel;
import java.nio.charset.StandardCharsets;
import java.nio.file.Files;
import java.nio.file.Path;
import java.time.Duration;
import java.time.Instant;
import java.util.ArrayList;
import java.util.Arrays;
import java.util.HexFormat;
import java.util.List;
import java.util.Map;
import java.util.concurrent.CompletableFuture;
import java.util.function.Function;

/**
 * The vectors of the protocol: each method sends the bytes of its request, and reads its reply. A false server at a
 * socket compares and answers. The argument is the file of vectors.
 */
final class Vectors {
    private static final HexFormat HEX = HexFormat.of();
    private static final Duration TIME = Duration.ofSeconds(20);

    private static void check(boolean holds, String text) {
        if (!holds) {
            throw new AssertionError(text);
        }
    }

    /** The text of a field in a row, which stands on a line of its own and has no quotes within. */
    private static String field(String line, String name) {
        String begin = '"' + name + "\": \"";
        int at = line.indexOf(begin) + begin.length();
        check(at >= begin.length(), "no field " + name + " in " + line);
        return line.substring(at, line.indexOf('"', at));
    }

    private static long number(String text) {
        long total = 0;
        for (String part : text.split("\\|")) {
            total |= one(part);
        }
        return total;
    }

    private static long one(String part) {
        if (Character.isUpperCase(part.charAt(0))) {
            try {
                return Calls.class.getField(part).getInt(null);
            } catch (ReflectiveOperationException none) {
                throw new AssertionError("no constant " + part);
            }
        }
        if (part.length() > 1 && part.charAt(0) == '0') {
            return Long.parseLong(part, 8);
        }
        return part.startsWith("-") ? Long.parseLong(part) : Long.parseUnsignedLong(part);
    }

    /** A text with `%HH` for some bytes. */
    private static byte[] plain(String text) {
        ByteArrayOutputStream found = new ByteArrayOutputStream();
        for (int i = 0; i < text.length(); i++) {
            if (text.charAt(i) == '%') {
                found.write(Integer.parseInt(text.substring(i + 1, i + 3), 16));
                i += 2;
            } else {
                found.write(text.charAt(i));
            }
        }
        return found.toByteArray();
    }

    /** The words of a request. */
    private record Words(String text) {
        String get(String name) {
            for (String word : text.split(" ")) {
                if (word.startsWith(name + "=")) {
                    return word.substring(name.length() + 1);
                }
            }
            throw new AssertionError("no field " + name + " in " + text);
        }

        long l(String name) {
            return number(get(name));
        }

        int n(String name) {
            return (int) l(name);
        }

        byte[] bytes(String name) {
            return plain(get(name));
        }

        List<String> list(String name) {
            return get(name).isEmpty() ? List.of() : List.of(get(name).split(","));
        }

        Duration timeout() {
            return get("timeout").equals("none") ? null : Duration.ofMillis(l("timeout"));
        }

        Instant deadline() {
            return get("deadline").equals("none") ? null : Instant.ofEpochMilli(l("deadline"));
        }
    }

    /** A reply in words with numbers in decimal and texts in hexadecimal digits. */
    private static String said(String reply) {
        List<String> found = new ArrayList<>();
        for (String word : reply.split(" ")) {
            int at = word.indexOf('=');
            String name = at < 0 ? word : word.substring(0, at);
            String value = word.substring(at + 1);
            if (at < 0) {
                found.add(word);
            } else if (name.equals("text") || name.equals("bytes")) {
                found.add(name + "=" + HEX.formatHex(plain(value)));
            } else if (name.equals("values")) {
                long[] values = Arrays.stream(value.split(",")).mapToLong(Vectors::number).toArray();
                found.add(name + "=" + Arrays.toString(values));
            } else {
                found.add(name + "=" + number(value));
            }
        }
        return String.join(" ", found);
    }

    private static <T> String get(Reply<T> reply, Function<T, String> shown) throws IOException, InterruptedException {
        return shown.apply(reply.get(TIME));
    }

    private static String ok(Reply<Void> reply) throws IOException, InterruptedException {
        return get(reply, it -> "ok");
    }

    private static String one(String name, Reply<Integer> reply) throws IOException, InterruptedException {
        return get(reply, it -> name + "=" + Integer.toUnsignedLong(it));
    }

    private static String raw(Reply<byte[]> reply) throws IOException, InterruptedException {
        return get(reply, it -> "bytes=" + HEX.formatHex(it));
    }

    private static String numbers(String names, long... values) {
        String[] each = names.split(" ");
        for (int i = 0; i < each.length; i++) {
            each[i] += "=" + values[i];
        }
        return String.join(" ", each);
    }

    private static long u(int number) {
        return Integer.toUnsignedLong(number);
    }

    private static String attr(Reply<Calls.Attr> reply) throws IOException, InterruptedException {
        return get(reply, it -> numbers("flags maxmsg msgsize curmsgs", u(it.flags()), u(it.maxmsg()), u(it.msgsize()),
                u(it.curmsgs())));
    }

    private static String owned(int key, Calls.Owner it) {
        return numbers("key uid gid cuid cgid mode", key, u(it.uid()), u(it.gid()), u(it.cuid()), u(it.cgid()),
                it.mode());
    }

    private static String queue(Calls.QueueStat it) {
        return owned(it.key(), it.owner()) + " " + numbers("stime rtime ctime lspid lrpid qbytes qnum cbytes",
                it.stime(), it.rtime(), it.ctime(), it.lspid(), it.lrpid(), it.qbytes(), it.qnum(), it.cbytes());
    }

    private static String segment(Calls.SegmentStat it) {
        return owned(it.key(), it.owner()) + " " + numbers("atime dtime ctime cpid lpid nattch segsz", it.atime(),
                it.dtime(), it.ctime(), it.cpid(), it.lpid(), it.nattch(), it.segsz());
    }

    private static String call(Connection c, String name, Words w) throws IOException, InterruptedException {
        return switch (name) {
            case "hello" -> greeting(c, c.hello(w.n("uid"), w.n("gid")));
            case "interrupt" -> ok(c.interrupt());
            case "close" -> ok(c.closeFd(w.n("fd")));
            case "msgget" -> one("identifier", c.msgget(w.n("key"), w.n("flags")));
            case "msgsnd" -> ok(c.msgsnd(w.n("id"), w.l("type"), w.bytes("text"), w.n("flags")));
            case "msgrcv" -> get(c.msgrcv(w.n("id"), w.n("size"), w.l("type"), w.n("flags")),
                    it -> "type=" + it.type() + " text=" + HEX.formatHex(it.text()));
            case "msgctl_stat" -> get(c.msgctlStat(w.n("id")), Vectors::queue);
            case "msgctl_set" -> ok(c.msgctlSet(w.n("id"), w.n("uid"), w.n("gid"), w.n("mode"), w.n("qbytes")));
            case "msgctl_rmid" -> ok(c.msgctlRmid(w.n("id")));
            case "semget" -> one("identifier", c.semget(w.n("key"), w.n("nsems"), w.n("flags")));
            case "semop" -> ok(c.semop(w.n("id"), operations(w), w.timeout()));
            case "semctl_getval" -> one("value", c.semctlGetval(w.n("id"), w.n("num")));
            case "semctl_getpid" -> one("pid", c.semctlGetpid(w.n("id"), w.n("num")));
            case "semctl_getncnt" -> one("count", c.semctlGetncnt(w.n("id"), w.n("num")));
            case "semctl_getzcnt" -> one("count", c.semctlGetzcnt(w.n("id"), w.n("num")));
            case "semctl_setval" -> ok(c.semctlSetval(w.n("id"), w.n("num"), w.n("value")));
            case "semctl_getall" -> get(c.semctlGetall(w.n("id")), it -> "values=" + Arrays.toString(it));
            case "semctl_setall" -> ok(c.semctlSetall(w.n("id"),
                    w.list("values").stream().mapToInt(it -> (int) number(it)).toArray()));
            case "semctl_stat" -> get(c.semctlStat(w.n("id")), it -> owned(it.key(), it.owner()) + " "
                    + numbers("otime ctime nsems", it.otime(), it.ctime(), it.nsems()));
            case "semctl_set" -> ok(c.semctlSet(w.n("id"), w.n("uid"), w.n("gid"), w.n("mode")));
            case "semctl_rmid" -> ok(c.semctlRmid(w.n("id")));
            case "mq_open" -> {
                Calls.Limits limits = new Calls.Limits(w.n("maxmsg"), w.n("msgsize"));
                limits = w.n("attr") == 0 ? null : limits;
                yield one("fd", c.mqOpen(w.bytes("name"), w.n("flags"), w.n("mode"), limits));
            }
            case "mq_unlink" -> ok(c.mqUnlink(w.bytes("name")));
            case "mq_send" -> ok(c.mqSend(w.n("fd"), w.bytes("text"), w.n("priority"), w.deadline()));
            case "mq_receive" -> get(c.mqReceive(w.n("fd"), w.n("size"), w.deadline()),
                    it -> "priority=" + it.priority() + " text=" + HEX.formatHex(it.text()));
            case "mq_notify" -> ok(c.mqNotify(w.n("fd"), w.n("kind"), w.n("cookie")));
            case "mq_getattr" -> attr(c.mqGetattr(w.n("fd")));
            case "mq_setattr" -> attr(c.mqSetattr(w.n("fd"), w.n("flags")));
            case "sem_open" -> one("fd", c.semOpen(w.bytes("name"), w.n("flags"), w.n("mode"), w.n("value")));
            case "sem_unlink" -> ok(c.semUnlink(w.bytes("name")));
            case "sem_post" -> ok(c.semPost(w.n("fd")));
            case "sem_wait" -> ok(c.semWait(w.n("fd"), w.deadline()));
            case "sem_trywait" -> ok(c.semTrywait(w.n("fd")));
            case "sem_getvalue" -> one("value", c.semGetvalue(w.n("fd")));
            case "shm_open" -> one("fd", c.shmOpen(w.bytes("name"), w.n("flags"), w.n("mode")));
            case "shm_unlink" -> ok(c.shmUnlink(w.bytes("name")));
            case "ftruncate" -> ok(c.ftruncate(w.n("fd"), w.l("length")));
            case "shm_read" -> raw(c.shmRead(w.n("fd"), w.l("offset"), w.n("length")));
            case "shm_write" -> ok(c.shmWrite(w.n("fd"), w.l("offset"), w.bytes("bytes")));
            case "shm_stat" -> get(c.shmStat(w.n("fd")), it -> numbers("length uid gid mode", it.length(), it.uid(),
                    it.gid(), it.mode()));
            case "shmget" -> one("identifier", c.shmget(w.n("key"), w.l("size"), w.n("flags")));
            case "shmat" -> one("attachment", c.shmat(w.n("id"), w.n("flags")));
            case "shmdt" -> ok(c.shmdt(w.n("attachment")));
            case "shmctl_stat" -> get(c.shmctlStat(w.n("id")), Vectors::segment);
            case "shmctl_set" -> ok(c.shmctlSet(w.n("id"), w.n("uid"), w.n("gid"), w.n("mode")));
            case "shmctl_rmid" -> ok(c.shmctlRmid(w.n("id")));
            case "attached_read" -> raw(c.attachedRead(w.n("attachment"), w.l("offset"), w.n("length")));
            case "attached_write" -> ok(c.attachedWrite(w.n("attachment"), w.l("offset"), w.bytes("bytes")));
            default -> throw new AssertionError("no such call: " + name);
        };
    }

    private static String greeting(Connection c, Reply<Integer> reply) throws IOException, InterruptedException {
        String pid = one("pid", reply);
        return c.version().isEmpty() ? pid : pid + " version=" + c.version().getAsInt();
    }

    private static List<Calls.Op> operations(Words w) {
        List<Calls.Op> found = new ArrayList<>();
        for (String it : w.list("operations")) {
            String[] part = it.split(":");
            found.add(new Calls.Op((int) number(part[0]), (int) number(part[1]), (int) number(part[2])));
        }
        return found;
    }

    private static ByteBuffer whole(SocketChannel socket, int size) throws IOException {
        ByteBuffer found = ByteBuffer.allocate(size);
        while (found.hasRemaining()) {
            check(socket.read(found) >= 0, "the client ends in a request");
        }
        return found.flip();
    }

    /** Reads one request, compares all of it but its serial, and writes a reply with that serial. */
    private static void answer(SocketChannel socket, byte[] wanted, byte[] reply) throws IOException {
        ByteBuffer length = whole(socket, 4);
        byte[] rest = whole(socket, length.getInt(0)).array();
        if (wanted != null) {
            byte[] found = wanted.clone();
            System.arraycopy(length.array(), 0, found, 0, 4);
            check(rest.length == wanted.length - 4, "it sends " + HEX.formatHex(rest));
            System.arraycopy(rest, 4, found, 8, rest.length - 4);
            String sent = HEX.formatHex(found);
            check(Arrays.equals(found, wanted), "it sends " + sent + ", and not " + HEX.formatHex(wanted));
        }
        if (ByteBuffer.wrap(reply).getInt(4) != 0) {
            System.arraycopy(rest, 0, reply, 4, 4);
        }
        ByteBuffer left = ByteBuffer.wrap(reply);
        while (left.hasRemaining()) {
            socket.write(left);
        }
    }

    private static void tryRow(String line, Connection c, SocketChannel server) throws Exception {
        String request = field(line, "request");
        String reply = field(line, "reply");
        byte[] replies = HEX.parseHex(field(line, "reply_bytes"));
        if (request.isEmpty()) {
            server.write(ByteBuffer.wrap(replies));
            Connection.Notification told = c.notification(TIME);
            check(told != null, "no notification");
            String found = "notification " + numbers("fd cookie", u(told.fd()), u(told.cookie()));
            check(found.equals(said(reply)), found);
            return;
        }
        // No client sends what is no request: another one is answered so.
        boolean isFrame = request.startsWith("frame ");
        String name = isFrame ? "interrupt" : request.split(" ")[0];
        byte[] wanted = isFrame ? null : HEX.parseHex(field(line, "bytes"));
        CompletableFuture<Void> served = CompletableFuture.runAsync(() -> {
            try {
                answer(server, wanted, replies);
            } catch (IOException failed) {
                throw new AssertionError(failed);
            } catch (AssertionError wrong) {
                c.close();
                throw wrong;
            }
        });
        String found;
        try {
            found = call(c, name, new Words(request));
        } catch (RefusedException refused) {
            check(refused.errno.number == ByteBuffer.wrap(replies).getShort(8), "another number: " + refused);
            found = refused.errno.name();
        } catch (EndedException ended) {
            served.get();
            check(List.of("EPROTO", "EIO").contains(reply), "" + ended);
            found = String.valueOf(ended.fault);
        }
        served.get();
        check(found.equals(said(reply)), "it reads " + found + ", and not " + said(reply));
    }

    // What no server sends: the client ends the connection. Each is the answer to a msgget of serial 1.
    private static final List<String> STRANGE = List.of("0000000a0000000200000000000001", "000000090000000100000000ff",
            "0000000b00000001000000000001ff", "0000000a0000000100110000000b", "00000005000000010000",
            "00010101000000010000", "000000070000000000000000");

    private static void tryStrange(String digits, Connection c, SocketChannel server) throws Exception {
        Reply<Integer> reply = c.msgget(1, 0);
        whole(server, 17);
        server.write(ByteBuffer.wrap(HEX.parseHex(digits)));
        try {
            reply.get(TIME);
            throw new AssertionError(digits + " is a reply");
        } catch (EndedException ended) {
            check(ended.getMessage().contains("the server has sent what is no reply"), digits + ": " + ended);
        }
        try {
            c.interrupt().get(TIME);
            throw new AssertionError(digits + ": a call after the end");
        } catch (EndedException ended) {
            check(ended.fault == null, "" + ended);
        }
    }

    // The bodies of replies to HELLO, and what each says; one without a pid is none. Nobody knows yet what
    // comes after the version.
    private static final Map<String, String> GREETINGS = Map.of("", "", "000007", "", "00000007", "pid=7",
            "0000000700", "pid=7", "00000007000000", "pid=7", "0000000700000003", "pid=7 version=3",
            "00000007000000040a0b0c0d0e", "pid=7 version=4");

    private static void tryGreeting(String digits, Connection c, SocketChannel server) throws Exception {
        Reply<Integer> reply = c.hello(1000, 100);
        whole(server, 17);
        byte[] body = HEX.parseHex(digits);
        ByteBuffer frame = ByteBuffer.allocate(10 + body.length);
        server.write(frame.putInt(6 + body.length).putInt(1).putShort((short) 0).put(body).flip());
        String found;
        try {
            found = greeting(c, reply);
        } catch (EndedException ended) {
            check(ended.getMessage().contains("the server has sent what is no reply"), digits + ": " + ended);
            found = "";
        }
        check(found.equals(GREETINGS.get(digits)), digits + " is " + found);
    }

    public static void main(String[] arguments) throws Exception {
        List<String> rows = new ArrayList<>(Files.readAllLines(Path.of(arguments[0]), StandardCharsets.US_ASCII));
        rows.removeIf(it -> !it.startsWith("{"));
        check(rows.size() >= 150, rows.size() + " rows are few");
        Path folder = Files.createTempDirectory("ipcd-java-");
        Path socket = folder.resolve("socket");
        try (ServerSocketChannel listening = ServerSocketChannel.open(StandardProtocolFamily.UNIX)) {
            listening.bind(UnixDomainSocketAddress.of(socket));
            for (String line : rows) {
                try (Connection c = Connection.connect(socket); SocketChannel server = listening.accept()) {
                    tryRow(line, c, server);
                } catch (Throwable wrong) {
                    throw new AssertionError(line, wrong);
                }
            }
            for (String digits : GREETINGS.keySet()) {
                try (Connection c = Connection.connect(socket); SocketChannel server = listening.accept()) {
                    tryGreeting(digits, c, server);
                }
            }
            for (String digits : STRANGE) {
                try (Connection c = Connection.connect(socket); SocketChannel server = listening.accept()) {
                    tryStrange(digits, c, server);
                }
            }
        } finally {
            Files.deleteIfExists(socket);
            Files.delete(folder);
        }
        System.out.println("clients in Java: " + rows.size() + " vectors");
    }

    private Vectors() {
    }
}
