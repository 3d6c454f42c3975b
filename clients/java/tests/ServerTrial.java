import ipcd.Calls.Limits;
import ipcd.Calls.Message;
import ipcd.Calls.Op;
import ipcd.Connection;
import ipcd.EndedException;
import ipcd.Errno;
import ipcd.RefusedException;
import ipcd.Reply;
import java.io.BufferedReader;
import java.io.IOException;
import java.nio.charset.StandardCharsets;
import java.nio.file.Files;
import java.nio.file.Path;
import java.time.Duration;
import java.time.Instant;
import java.util.ArrayList;
import java.util.Arrays;
import java.util.Comparator;
import java.util.List;
import java.util.OptionalInt;
import java.util.concurrent.CompletableFuture;
import java.util.stream.Stream;

/**
 * Calls on a server: each family, a wait that is woken, deadlines, an interrupt, requests sent ahead, and kills of the
 * server. The argument is the program.
 */
final class ServerTrial {
    private static final Duration MINUTE = Duration.ofSeconds(60);
    private static final int MODE = 0600;

    private static void check(boolean holds, String text) {
        if (!holds) {
            throw new AssertionError(text);
        }
    }

    private interface Trial {
        void on(Server server) throws Exception;
    }

    /** A server of a small device, in a folder of its own. It is of version 2, if format gets no other words. */
    private static final class Server {
        final String program;
        final Path folder;
        Process process;

        Server(String program, String... words) throws Exception {
            this.program = program;
            folder = Files.createTempDirectory("ipcd-java-");
            List<String> line = new ArrayList<>(List.of("format", "--small", "device"));
            line.addAll(List.of(words));
            Process format = run(line.toArray(String[]::new));
            check(format.waitFor() == 0, "no device");
            serve();
        }

        Process run(String... words) throws IOException {
            List<String> line = new ArrayList<>(List.of(program));
            line.addAll(List.of(words));
            return new ProcessBuilder(line).directory(folder.toFile()).redirectErrorStream(true).start();
        }

        void serve() throws IOException {
            process = run("serve", "device", "socket");
            String line = new BufferedReader(process.inputReader()).readLine();
            check(line != null && line.startsWith("serving "), line);
        }

        Connection connect() throws Exception {
            Connection c = Connection.connect(folder.resolve("socket"));
            c.hello(1000, 100).get();
            return c;
        }

        void kill() throws Exception {
            process.destroyForcibly().waitFor();
            Files.delete(folder.resolve("socket"));
        }
    }

    private static void served(String program, String name, Trial trial, String... words) throws Exception {
        Server server = new Server(program, words);
        try {
            trial.on(server);
            System.out.println("clients in Java: " + name);
        } finally {
            server.process.destroyForcibly().waitFor();
            try (Stream<Path> files = Files.walk(server.folder)) {
                for (Path it : files.sorted(Comparator.reverseOrder()).toList()) {
                    Files.delete(it);
                }
            }
        }
    }

    private static void refused(Reply<?> reply, Errno wanted) throws Exception {
        try {
            reply.get(MINUTE);
        } catch (RefusedException refused) {
            check(refused.errno == wanted, refused + ", and not " + wanted);
            return;
        }
        throw new AssertionError("it is done, and not " + wanted);
    }

    /** A call of this connection waits: the next one is EALREADY. */
    private static void waits(Connection c) throws Exception {
        refused(c.msgctlStat(1), Errno.EALREADY);
    }

    private static byte[] bytes(String text) {
        return text.getBytes(StandardCharsets.ISO_8859_1);
    }

    private static void equal(byte[] found, String wanted) {
        check(Arrays.equals(found, bytes(wanted)), Arrays.toString(found) + ", and not " + wanted);
    }

    private static void eachFamily(Server server) throws Exception {
        Connection c = server.connect();
        check(c.version().isEmpty(), "" + c.version());
        int queue = c.msgget(1234, Connection.IPC_CREAT | MODE).get();
        c.msgsnd(queue, 5, bytes("hi"), 0).get();
        Message message = c.msgrcv(queue, 64, 0, 0).get();
        check(message.type() == 5, "type " + message.type());
        equal(message.text(), "hi");
        refused(c.msgrcv(queue, 64, 0, Connection.IPC_NOWAIT), Errno.ENOMSG);
        int set = c.semget(5, 2, Connection.IPC_CREAT | MODE).get();
        c.semctlSetall(set, 1, 5).get();
        c.semop(set, List.of(new Op(0, -1, Connection.SEM_UNDO), new Op(1, -2)), null).get();
        check(Arrays.equals(c.semctlGetall(set).get(), new int[] {0, 3}), "other values");
        int jobs = c.mqOpen("/jobs", Connection.O_CREAT | Connection.O_RDWR, MODE, new Limits(2, 64)).get();
        c.mqNotify(jobs, Connection.NOTIFY_FRAME, 7).get();
        c.mqSend(jobs, bytes("sweep"), 9, null).get();
        check(new Connection.Notification(jobs, 7).equals(c.notification(MINUTE)), "another notification");
        check(c.notification(Duration.ofMillis(1)) == null, "a second notification");
        equal(c.mqReceive(jobs, 64, null).get().text(), "sweep");
        int ready = c.semOpen("/ready", Connection.O_CREAT, MODE, 0).get();
        c.semPost(ready).get();
        c.semWait(ready, null).get();
        check(c.semGetvalue(ready).get() == 0, "another value");
        int table = c.shmOpen("/table", Connection.O_CREAT | Connection.O_RDWR, MODE).get();
        c.ftruncate(table, 64).get();
        c.shmWrite(table, 8, bytes("row")).get();
        equal(c.shmRead(table, 7, 4).get(), "\0row");
        int shared = c.shmat(c.shmget(9, 64, Connection.IPC_CREAT | MODE).get(), 0).get();
        c.attachedWrite(shared, 8, bytes("old")).get();
        equal(c.attachedRead(shared, 8, 3).get(), "old");
        c.shmdt(shared).get();
        refused(c.shmStat(9), Errno.EBADF);
        // The longest request that a server reads, and one that would end the connection.
        refused(c.msgsnd(queue, 1, new byte[65792 - 21], 0), Errno.EINVAL);
        refused(c.msgsnd(queue, 1, new byte[65793 - 21], 0), Errno.EINVAL);
        c.close();
    }

    /** The server tells its version, and the calls are as ever. */
    private static void version3(Server server) throws Exception {
        Connection c = Connection.connect(server.folder.resolve("socket"));
        check(c.version().isEmpty(), "" + c.version());
        check(c.hello(1000, 100).get() == 1, "another pid");
        check(c.version().equals(OptionalInt.of(3)), "" + c.version());
        int queue = c.msgget(1234, Connection.IPC_CREAT | MODE).get();
        c.msgsnd(queue, 5, bytes("hi"), 0).get();
        equal(c.msgrcv(queue, 64, 0, 0).get().text(), "hi");
        c.close();
    }

    private static void waitsAndDeadlines(Server server) throws Exception {
        Connection c = server.connect();
        Connection other = server.connect();
        int queue = c.msgget(1, Connection.IPC_CREAT | MODE).get();
        Reply<Message> waiting = c.msgrcv(queue, 64, 3, 0);
        waits(c);
        other.msgsnd(queue, 3, bytes("go"), 0).get();
        equal(waiting.get(MINUTE).text(), "go");

        // A wait that is over interrupts its call. What came first is the result all the same.
        long begin = System.nanoTime();
        try {
            c.msgrcv(queue, 64, 0, 0).get(Duration.ofMillis(200));
            throw new AssertionError("a message");
        } catch (RefusedException refused) {
            check(refused.errno == Errno.EINTR && System.nanoTime() - begin >= 200_000_000L, "" + refused);
        }
        waiting = c.msgrcv(queue, 64, 0, 0);
        waits(c);
        other.msgsnd(queue, 4, bytes("first"), 0).get();
        equal(waiting.get(Duration.ZERO).text(), "first");
        waiting = c.msgrcv(queue, 64, 0, 0);
        waits(c);
        c.interrupt().get();
        refused(waiting, Errno.EINTR);
        interruptedThread(c, queue);

        // The server itself ends a call at its deadline, and a list of operations after its timeout.
        int jobs = c.mqOpen("/jobs", Connection.O_CREAT | Connection.O_RDWR, MODE, null).get();
        begin = System.nanoTime();
        refused(c.mqReceive(jobs, 64, Instant.now().plusMillis(200)), Errno.ETIMEDOUT);
        int set = c.semget(1, 1, Connection.IPC_CREAT | MODE).get();
        refused(c.semop(set, List.of(new Op(0, -1)), Duration.ofMillis(200)), Errno.EAGAIN);
        check(System.nanoTime() - begin >= 390_000_000L, "two waits of 200 ms are over early");
        waiting = c.msgrcv(queue, 64, 0, 0);
        waits(c);
        other.msgctlRmid(queue).get();
        refused(waiting, Errno.EIDRM);
        c.close();
        other.close();
    }

    /** A thread that is interrupted ends its call, and the connection stays. */
    private static void interruptedThread(Connection c, int queue) throws Exception {
        CompletableFuture<Object> came = new CompletableFuture<>();
        Thread thread = new Thread(() -> {
            try {
                came.complete(c.msgrcv(queue, 64, 0, 0).get());
            } catch (IOException | InterruptedException ended) {
                came.complete(ended);
            }
        });
        thread.start();
        Instant end = Instant.now().plus(MINUTE);
        for (boolean isWaiting = false; !isWaiting;) {
            check(Instant.now().isBefore(end), "nothing waits");
            try {
                c.msgctlStat(1).get();
            } catch (RefusedException refused) {
                isWaiting = refused.errno == Errno.EALREADY;
            }
        }
        thread.interrupt();
        check(came.get() instanceof InterruptedException, "" + came.get());
        c.msgctlStat(queue).get();
    }

    /** After each kill all that was answered is there, in its order, and at most what was sent. */
    private static void kills(Server server) throws Exception {
        int round = 0;
        for (int kill : new int[] {1, 7, 30, 60, 99}) {
            round++;
            Connection c = server.connect();
            int queue = c.msgget(round, Connection.IPC_CREAT | MODE).get();
            List<Reply<Void>> sent = new ArrayList<>();
            for (int type = 1; type <= 100; type++) {
                sent.add(c.msgsnd(queue, type, new byte[0], Connection.IPC_NOWAIT));
            }
            for (Reply<Void> it : sent.subList(0, kill)) {
                it.get();
            }
            server.kill();
            int answered = kill;
            for (Reply<Void> it : sent.subList(kill, sent.size())) {
                try {
                    it.get();
                    answered++;
                } catch (EndedException ended) {
                    check(ended.fault == null, "" + ended);
                }
            }
            server.serve();
            c = server.connect();
            queue = c.msgget(round, 0).get();
            int found = 0;
            try {
                for (;;) {
                    Message message = c.msgrcv(queue, 64, 0, Connection.IPC_NOWAIT).get();
                    found++;
                    check(message.type() == found, "message " + found + " has type " + message.type());
                }
            } catch (RefusedException refused) {
                check(refused.errno == Errno.ENOMSG, "" + refused);
            }
            check(answered <= found && found <= sent.size(), answered + " were answered, and " + found + " are there");
            c.msgctlRmid(queue).get();
            c.close();
        }
    }

    public static void main(String[] arguments) throws Exception {
        served(arguments[0], "each family", ServerTrial::eachFamily);
        served(arguments[0], "a device of version 3", ServerTrial::version3, "--journal", "257");
        served(arguments[0], "waits and deadlines", ServerTrial::waitsAndDeadlines);
        served(arguments[0], "kills", ServerTrial::kills);
    }

    private ServerTrial() {
    }
}
