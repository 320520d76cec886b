import java.io.IOException;
import java.io.UncheckedIOException;
import java.math.BigInteger;
import java.net.InetAddress;
import java.net.InetSocketAddress;
import java.net.ServerSocket;
import java.nio.charset.StandardCharsets;
import java.nio.file.Files;
import java.nio.file.Paths;
import java.util.Collections;
import java.util.HashMap;
import java.util.Map;
import java.util.concurrent.CompletableFuture;
import java.util.concurrent.ExecutionException;
import mungo.lib.Lines;
import mungo.lib.Session;
import mungo.lib.Wire;

/** A larger program: plays roles by turns and side by side, and goes on whatever they come to. */
public final class Plays {
    private static final Map<String, Wire> NONE = Collections.emptyMap();
    private static final Map<String, InetSocketAddress> NOWHERE = Collections.emptyMap();

    private Plays() {}

    private static Map<String, InetSocketAddress> addresses(String... entries) {
        Map<String, InetSocketAddress> addresses = new HashMap<>();
        for (String entry : entries) {
            String[] parts = entry.split("[=:]");
            addresses.put(parts[0], new InetSocketAddress("127.0.0.1", Integer.parseInt(parts[1])));
        }
        return addresses;
    }

    /** Both roles of a conversation, each in a thread, again and again at one address. */
    private static void both() throws Exception {
        int done = 0;
        Map<String, InetSocketAddress> addresses = addresses("C=" + Integer.getInteger("port"), "S=1");
        for (int k = 0; k < 25; k++) {
            int number = k;
            String[] other = new String[1];
            Thread thread = new Thread(() -> other[0] = Session.play("S", NONE, addresses, () -> {
                Session.sendInt("C", "hi", number);
                Session.take("C", "ho");
            }));
            thread.start();
            String one = Session.play("C", NONE, addresses, () -> {
                if (Session.takeInt("S", "hi") != number) {
                    throw new IllegalStateException("another number");
                }
                Session.send("S", "ho");
            });
            thread.join();
            done += "done".equals(one) && "done".equals(other[0]) ? 1 : 0;
        }
        System.out.println("both: done " + done + " times");
        for (int tries = 0; tries < 3000 && Thread.activeCount() > 1; tries++) {
            Thread.sleep(100);
        }
        System.out.println("both, " + (Thread.activeCount() == 1 ? "no" : Thread.activeCount()) + " threads are left");
    }

    /** Whether a thread waits within a method of this name. */
    private static boolean waitsIn(Thread thread, String method) {
        for (StackTraceElement place : thread.getStackTrace()) {
            if (place.getMethodName().equals(method)) {
                return thread.getState() == Thread.State.TIMED_WAITING;
            }
        }
        return false;
    }

    /** A role that waits for a message in a thread which is interrupted. */
    private static void interrupted() throws Exception {
        try (ServerSocket door = new ServerSocket(0, 1, InetAddress.getLoopbackAddress())) {
            Map<String, InetSocketAddress> addresses = addresses("A=" + door.getLocalPort());
            String[] ending = new String[1];
            Thread thread = new Thread(
                    () -> ending[0] = Session.play("S", NONE, addresses, () -> Session.take("A", "hi")));
            thread.start();
            door.accept();
            while (!waitsIn(thread, "receive")) {
                Thread.sleep(10);
            }
            thread.interrupt();
            thread.join();
            System.out.println("interrupted: " + ending[0]);
        }
    }

    /** A role that waits for a peer in a thread which is interrupted. */
    private static void interruptedBefore() throws Exception {
        Map<String, InetSocketAddress> addresses = addresses("C=" + Integer.getInteger("port"), "S=1");
        String[] ending = new String[1];
        Thread thread = new Thread(() -> ending[0] = Session.play("C", NONE, addresses, () -> Session.take("S", "hi")));
        thread.start();
        while (!waitsIn(thread, "open")) {
            Thread.sleep(10);
        }
        thread.interrupt();
        thread.join();
        System.out.println("interrupted before the peer is there: " + ending[0]);
    }

    /** What is thrown where the calls of a role are made in another thread than its own, and that the role goes on. */
    private static void elsewhere() throws Exception {
        String ending = Session.play("C", Collections.singletonMap("S", new Answers()), NOWHERE, () -> {
            try {
                CompletableFuture.runAsync(() -> Session.sendInt("S", "hi", 1)).get();
            } catch (InterruptedException | ExecutionException wrong) {
                System.out.println("elsewhere: " + wrong.getCause().getClass().getName());
            }
            Session.sendInt("S", "hi", 2);
            System.out.println("here: " + Session.takeInt("S", "hi"));
        });
        System.out.println("elsewhere: " + ending);
        try {
            Session.send("S", "hi");
        } catch (IllegalStateException none) {
            System.out.println("behind a play: " + none.getMessage());
        }
    }

    /** What ends a role where something is divided by zero, in a class that is checked and in others. */
    private static void zero() {
        System.out.println(Session.play("C", NONE, NOWHERE, () -> Quotient.of(1, NOWHERE.size())));
        thrown("a division of one's own", () -> System.out.println(1 / NOWHERE.size()));
        thrown("a division of Java's", () -> BigInteger.ONE.divide(BigInteger.ZERO));
        thrown("an overflow", () -> Math.addExact(Integer.MAX_VALUE, 1));
    }

    private static void thrown(String what, Runnable work) {
        try {
            System.out.println(what + ": " + Session.play("C", NONE, NOWHERE, work));
        } catch (ArithmeticException mine) {
            System.out.println(what + " is thrown on: " + mine.getMessage());
        }
    }

    /** A wire that makes its connection anew for a message, when nobody listens any more. */
    private static void anew() throws Exception {
        String text = "limit 1\n\nhi() anew\n> HI\n\nho()\n< HO\n";
        try (ServerSocket door = new ServerSocket(0, 1, InetAddress.getLoopbackAddress())) {
            Map<String, Wire> wires = Collections.singletonMap("S", new Lines("w", text));
            System.out.println("anew: " + Session.play("C", wires, addresses("S=" + door.getLocalPort()), () -> {
                Session.send("S", "hi");
                closed(door);
                Session.send("S", "hi");
            }));
        }
    }

    private static void closed(ServerSocket door) {
        try {
            door.accept().close();
            door.close();
        } catch (IOException fault) {
            throw new UncheckedIOException(fault);
        }
    }

    /** A peer that says back what it is told. */
    private static final class Answers implements Wire {
        private Message last;

        @Override
        public void open(InetSocketAddress address, long deadline) {}

        @Override
        public void send(String label, Object value) {
            last = new Message(label, value, null);
        }

        @Override
        public Message receive() {
            return last;
        }

        @Override
        public void close() {}
    }

    private static int deep(int n) {
        return 1 + deep(n + 1);
    }

    /** A role that is sent more than there is memory for, up to when its peer has said that it has gone, in a file. */
    private static void dies(String port, String file) throws Exception {
        System.out.println(
                Session.play("C", NONE, addresses("C=" + port, "S=1"), () -> Session.takeString("S", "hi")));
        while (!new String(Files.readAllBytes(Paths.get(file)), StandardCharsets.UTF_8).endsWith("gone\n")) {
            Thread.sleep(50);
        }
        System.out.println("the peer has gone");
    }

    public static void main(String[] words) throws Exception {
        if (words.length == 2) {
            dies(words[0], words[1]);
            return;
        }
        both();
        interrupted();
        interruptedBefore();
        elsewhere();
        anew();
        try {
            Session.play("C", NONE, addresses(), () -> {
                throw new IllegalStateException("mine");
            });
        } catch (IllegalStateException mine) {
            System.out.println("thrown on: IllegalStateException: " + mine.getMessage());
        }
        System.out.println("nobody: " + Session.play("C", NONE, addresses(), () -> Session.send("S", "hi")));
        zero();
        System.out.println(Session.play("C", NONE, addresses(), () -> deep(0)));
        System.out.println("swallowed: " + Session.play("C", NONE, addresses(), () -> {
            try {
                Session.send("T", "hi");
            } catch (Error swallowed) {
                System.err.println("swallowed");
            }
        }));
        try (ServerSocket door = new ServerSocket(0, 1, InetAddress.getLoopbackAddress())) {
            Map<String, InetSocketAddress> taken = addresses("C=" + door.getLocalPort(), "S=1");
            System.out.println(Session.play("C", NONE, taken, () -> Session.take("S", "hi")));
        }
        try {
            Session.play("a b", NONE, addresses(), () -> {});
        } catch (IllegalArgumentException wrong) {
            System.out.println("wrong name: " + wrong.getMessage());
        }
        System.out.println("goes on");
    }
}
