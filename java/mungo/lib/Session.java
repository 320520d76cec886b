package mungo.lib;

import java.io.IOException;
import java.io.PrintStream;
import java.lang.reflect.InvocationTargetException;
import java.lang.reflect.Method;
import java.lang.reflect.Modifier;
import java.net.InetSocketAddress;
import java.util.ArrayList;
import java.util.HashMap;
import java.util.LinkedHashMap;
import java.util.List;
import java.util.Map;

/**
 * The messages between roles, for programs that run on a Java virtual machine. Nothing here is proved.
 *
 * <p>A role in a process of its own, `java CMain`: the property mungo.role or the variable MUNGO_ROLE names the role,
 * and mungo.roles or MUNGO_ROLES the addresses of all, as "C=127.0.0.1:4001,S=127.0.0.1:4002". Of two roles the one
 * whose name comes first in the order of names listens, and the other connects. A role waits for a peer for so many
 * seconds as mungo.patience says (30), and for a message as mungo.limit says (3,600). Where mungo.secret is set, peers
 * have to prove that they know it, but messages are neither signed nor hidden: that is for one machine. Where mungo.tls is
 * set, all goes by TLS, and both sides know each other by certificates.
 *
 * <p>A peer that is no role of mungo, as a mail server, has a {@link Wire}: mungo.wire says which, as
 * "S=lines:smtp.wire"; or roles meet at a broker, as "S=amqp://localhost#Adder/C/S".
 *
 * <p>Several roles in one process, `java mungo.lib.Session C=CMain S=SMain`: each runs in a thread, the messages stand
 * in memory, each printed line begins with its role, and at the end a line for each role says how it ended. In a larger
 * program `Session.play` plays a role, and the program goes on.
 *
 * <p>An ending other than `done` is told on standard error in the words of `mungo run`, but for the count of
 * instructions, and ends the process with the number of `mungo run`: 6 `zero divisor`, 7 `mismatch PEER FOUND` or `no
 * peer NAME`, 8 `waits PEER`; besides 7 `unfit PEER LABEL`, where a message can't be sent. Lines before it may say why.
 */
public final class Session {
    /** The role that the thread plays. */
    private static final ThreadLocal<Role> MINE = new ThreadLocal<>();

    /** The role of this process, where its `main` was called by the virtual machine itself. */
    private static Role alone;

    /** Whether roles are played here by threads of their own, so that a thread without one plays none. */
    private static volatile boolean played;

    private Session() {}

    // The calls of generated classes.

    public static void send(String peer, String label) {
        mine().send(peer, label, null);
    }

    public static void sendInt(String peer, String label, int value) {
        mine().send(peer, label, value);
    }

    public static void sendBoolean(String peer, String label, boolean value) {
        mine().send(peer, label, value);
    }

    public static void sendString(String peer, String label, String value) {
        mine().send(peer, label, value);
    }

    public static String look(String peer) {
        return mine().next(peer).label;
    }

    public static void take(String peer, String label) {
        mine().take(peer, label, Void.class);
    }

    public static int takeInt(String peer, String label) {
        return (Integer) mine().take(peer, label, Integer.class);
    }

    public static boolean takeBoolean(String peer, String label) {
        return (Boolean) mine().take(peer, label, Boolean.class);
    }

    public static String takeString(String peer, String label) {
        return (String) mine().take(peer, label, String.class);
    }

    public static void refuse(String peer, String found) {
        throw mine().refuses(peer, found);
    }

    // A role in a larger program.

    /**
     * Plays a role in this thread, over connections of its own, as often as wanted and beside other roles: the work
     * makes an object of the role's class and finishes it. A peer with a wire is reached by it, at its address; any
     * other peer that has an address is a role of mungo, and where it is this role that listens, its own address is
     * there too.
     *
     * <p>Answers `done`, or the ending as it is told on standard error otherwise, `memory` too, and `zero divisor` where a
     * class divided that is written as checked ones are; `fault` where the role can't listen. What else the work throws
     * is thrown on. The process goes on in each case. In another thread than this one the calls of a role's class throw
     * IllegalStateException, also where the work has begun it.
     *
     * @throws IllegalArgumentException where a name is none of a role, or a setting is wrong
     */
    public static String play(String name, Map<String, Wire> wires, Map<String, InetSocketAddress> addresses,
            Runnable work) {
        Settings settings = new Settings();
        Role role = new Role(Settings.role("Session.play", name), settings.patience, false);
        Meeting meeting = meeting(role, settings, wires, addresses);
        try {
            meeting.begin();
            plays(role, work);
        } catch (IOException fault) {
            System.err.println(name + ": " + fault.getMessage());
            return "fault";
        } finally {
            meeting.close();
            role.close();
        }
        return role.ending();
    }

    /** Plays a role in this thread up to its end. What ends no role by its own is thrown on. */
    private static void plays(Role role, Runnable work) {
        Role before = MINE.get();
        played = true;
        MINE.set(role);
        try {
            work.run();
            role.returns();
        } catch (RuntimeException | Error fault) {
            if (!Role.isEnding(fault)) {
                throw fault;
            }
            role.fails(fault);
        } finally {
            if (before == null) {
                MINE.remove();
            } else {
                MINE.set(before);
            }
        }
    }

    /**
     * Serves a role for whoever comes: as many sessions at once as mungo.sessions says (100), each in a thread of its own
     * by the rules of `play`. Comes back at once; `close()` of the answer lets those end that run.
     *
     * @throws IOException where no session can come, as the address is taken
     * @throws IllegalArgumentException where the name is none of a role, or a setting is wrong
     */
    public static Service serve(String name, Wires wires, Runnable work) throws IOException {
        Settings settings = new Settings();
        String role = Settings.role("Session.serve", name);
        Service service = new Service(role, settings.sessions, settings.limit, wires, (number, session) -> {
            Role played = new Role(role, settings.patience, false);
            session.forEach((peer, wire) -> played.join(peer, wire, null));
            try {
                plays(played, work);
            } finally {
                played.close();
            }
            return played.ending();
        });
        played = true;
        wires.open(role, settings.sessions);
        service.begin();
        return service;
    }

    /** Gives a role its peers: those with wires, and at the other addresses roles of mungo in other processes. */
    private static Meeting meeting(Role role, Settings settings, Map<String, Wire> wires,
            Map<String, InetSocketAddress> addresses) {
        Map<String, Frames> far = new HashMap<>();
        wires.forEach((peer, wire) -> role.join(Settings.role("Session.play", peer), wire, addresses.get(peer)));
        addresses.forEach((peer, address) -> {
            if (!wires.containsKey(peer) && !peer.equals(role.name)) {
                Frames line = new Frames(settings.limit);
                role.join(Settings.role("Session.play", peer), line, address);
                far.put(peer, line);
            }
        });
        if (settings.secret != null && settings.tls == null && !far.isEmpty()) {
            Secrets.warn(addresses.values());
        }
        return new Meeting(role.name, far, addresses, settings);
    }

    // A role that is the process.

    /** The role of this thread: that of the words or of `play`, or else that of the settings. */
    private static Role mine() {
        Role role = MINE.get();
        if (role == null) {
            if (played) {
                throw new IllegalStateException("the thread " + Texts.name(Thread.currentThread().getName())
                        + " plays no role: a role is played by the thread that has called Session.play");
            }
            role = alone();
            MINE.set(role);
        }
        return role;
    }

    private static synchronized Role alone() {
        if (alone == null) {
            try {
                Settings settings = new Settings();
                Role role = new Role(Settings.role(), settings.patience, true);
                Map<String, InetSocketAddress> addresses = Settings.addresses();
                meeting(role, settings, Settings.wires(role.name, addresses), addresses).begin();
                // What is sealed, or goes through a broker, has an end that is told.
                Runtime.getRuntime().addShutdownHook(new Thread(role::close));
                Thread.setDefaultUncaughtExceptionHandler((thread, fault) -> role.fails(fault));
                alone = role;
            } catch (Settings.Wrong | IOException wrong) {
                stop(wrong.getMessage(), 70);
            }
        }
        return alone;
    }

    /** Ends the process with a line. */
    private static void stop(String line, int status) {
        System.err.println("mungo: " + line);
        System.exit(status);
    }

    // Roles by words.

    /** Prints lines with the name of the thread's role before them. */
    private static final class Named extends PrintStream {
        Named(PrintStream out) throws IOException {
            super(out, true, "UTF-8");
        }

        @Override
        public void println(String text) {
            Role role = MINE.get();
            super.println(role == null ? text : role.name + ": " + text);
        }

        @Override
        public void println(int number) {
            println(String.valueOf(number));
        }

        @Override
        public void println(boolean truth) {
            println(String.valueOf(truth));
        }
    }

    /** Runs the roles of the words R=C, each by the `main` of its class C: one over sockets, several in memory. */
    public static void main(String[] words) throws Exception {
        Map<String, String> classes = new LinkedHashMap<>();
        for (String word : words) {
            int equals = word.indexOf('=');
            if (equals < 1 || classes.put(word.substring(0, equals), word.substring(equals + 1)) != null) {
                System.err.println("usage: java mungo.lib.Session ROLE=CLASS ..");
                System.exit(2);
            }
        }
        Map<String, Method> mains = new LinkedHashMap<>();
        classes.forEach((name, type) -> mains.put(name, mainOf(type)));
        played = true;
        System.setOut(new Named(System.out));
        List<Role> roles = new ArrayList<>();
        try {
            roles.addAll(run(mains));
        } catch (Settings.Wrong | IOException wrong) {
            stop(wrong.getMessage(), 70);
        }
        System.out.flush();
        roles.forEach(role -> System.err.println(role.name + ": " + role.ending()));
        System.exit(statusOf(roles));
    }

    /** Runs each role in a thread of its own, up to the last one's end. */
    private static List<Role> run(Map<String, Method> mains) throws IOException, InterruptedException {
        Settings settings = new Settings();
        Map<String, InetSocketAddress> addresses = Settings.addresses();
        Floor floor = new Floor(mains.keySet());
        List<Role> roles = new ArrayList<>();
        List<Thread> threads = new ArrayList<>();
        for (Map.Entry<String, Method> main : mains.entrySet()) {
            Role role = new Role(Settings.role("the words have", main.getKey()), settings.patience, false);
            Map<String, InetSocketAddress> others = new LinkedHashMap<>(addresses);
            Map<String, Wire> wires = Settings.wires(role.name, addresses);
            wires.keySet().removeAll(mains.keySet());
            if (mains.size() > 1) {
                // The other roles are in this process, and peers outside it have wires.
                others.keySet().retainAll(wires.keySet());
            }
            meeting(role, settings, wires, others).begin();
            floor.linesOf(role.name).forEach((peer, line) -> role.join(peer, line, null));
            roles.add(role);
            threads.add(new Thread(null, () -> plays(role, main.getValue(), floor), role.name, 1L << 26));
        }
        threads.forEach(Thread::start);
        for (Thread thread : threads) {
            thread.join();
        }
        return roles;
    }

    private static void plays(Role role, Method main, Floor floor) {
        MINE.set(role);
        try {
            main.invoke(null, (Object) new String[0]);
            role.returns();
        } catch (InvocationTargetException fault) {
            role.fails(fault.getCause());
        } catch (Exception | Error fault) {
            role.fails(fault);
        } finally {
            role.close();
            floor.ended(role.name);
        }
    }

    private static Method mainOf(String name) {
        try {
            Method main = Class.forName(name).getDeclaredMethod("main", String[].class);
            main.setAccessible(true);
            if (Modifier.isStatic(main.getModifiers())) {
                return main;
            }
        } catch (ReflectiveOperationException | LinkageError none) {
            // said below
        }
        stop("NoMain " + Texts.name(name), 1);
        throw new IllegalStateException();
    }

    private static int statusOf(List<Role> roles) {
        for (int number : new int[] {6, 7, 8, 10, 5, 70}) {
            for (Role role : roles) {
                if (role.status() == number) {
                    return number;
                }
            }
        }
        return 0;
    }
}
