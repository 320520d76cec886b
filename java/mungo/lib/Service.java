package mungo.lib;

import java.io.IOException;
import java.lang.management.ManagementFactory;
import java.util.HashSet;
import java.util.Map;
import java.util.Set;
import java.util.TreeMap;
import java.util.concurrent.Semaphore;
import java.util.concurrent.atomic.AtomicInteger;
import java.util.function.BiFunction;
import javax.management.JMException;
import javax.management.MBeanServer;
import javax.management.ObjectName;

/**
 * A role that serves whoever comes, made by {@link Session#serve}: each session runs in a thread of its own by the rules
 * of `play`. An ending other than `done` is told on standard error. Its numbers are there for a person, and for JMX by
 * {@link ServiceMXBean}.
 */
public final class Service implements ServiceMXBean, AutoCloseable {
    private static final String[] ENDINGS =
            {"done", "waits", "mismatch", "unfit", "no peer", "zero divisor", "memory", "fault"};
    private static final int LAST_SECONDS = 10;
    private static final AtomicInteger NUMBERS = new AtomicInteger();

    private final String role;
    private final int most;
    private final int limit;
    private final Wires wires;

    /** Plays a session: its number and its wires give how it ended. */
    private final BiFunction<Long, Map<String, Wire>, String> player;

    private final Semaphore free;
    private final Thread taker = new Thread(this::take);
    private final Set<Thread> running = new HashSet<>();
    private final Map<String, Long> ended = new TreeMap<>();
    private ObjectName bean;
    private long begun;
    private volatile boolean isClosing;

    Service(String role, int most, int limit, Wires wires, BiFunction<Long, Map<String, Wire>, String> player) {
        this.role = role;
        this.most = most;
        this.limit = limit;
        this.wires = wires;
        this.player = player;
        free = new Semaphore(most);
        taker.setName("mungo: " + role + " serves");
    }

    void begin() {
        taker.start();
        try {
            bean = new ObjectName("mungo:type=Service,role=" + role + ",number=" + NUMBERS.incrementAndGet());
            server().registerMBean(this, bean);
        } catch (JMException | LinkageError none) {
            bean = null;
        }
    }

    private static MBeanServer server() {
        return ManagementFactory.getPlatformMBeanServer();
    }

    private void take() {
        try {
            while (!isClosing) {
                free.acquire();
                Map<String, Wire> session = null;
                try {
                    session = wires.next(Connection.in(1));
                } finally {
                    if (session == null) {
                        free.release();
                    }
                }
                if (session != null) {
                    run(session);
                }
            }
        } catch (IOException | InterruptedException over) {
            if (!isClosing) {
                System.err.println(role + ": serves no more: " + Texts.reason(over));
            }
        }
    }

    private void run(Map<String, Wire> session) {
        synchronized (this) {
            long number = ++begun;
            Thread thread = new Thread(() -> play(number, session), "mungo: " + role + " " + number);
            running.add(thread);
            try {
                thread.start();
            } catch (OutOfMemoryError none) {
                session.values().forEach(Wire::close);
                ends("memory");
                running.remove(thread);
            }
        }
    }

    private void play(long number, Map<String, Wire> session) {
        String ending = "fault";
        try {
            ending = player.apply(number, session);
            if (!ending.equals("done")) {
                System.err.println(role + ": " + ending);
            }
        } catch (RuntimeException | Error fault) {
            fault.printStackTrace();
            System.err.println(role + ": fault");
        } finally {
            synchronized (this) {
                ends(ending);
                running.remove(Thread.currentThread());
                notifyAll();
            }
            free.release();
        }
    }

    private void ends(String ending) {
        for (String how : ENDINGS) {
            if (ending.startsWith(how)) {
                ended.merge(how, 1L, Long::sum);
                return;
            }
        }
    }

    /**
     * Takes no further session, and waits until those that run have ended: for as many seconds as mungo.limit says, or
     * until this thread is interrupted. Then the threads of those that still run are interrupted, by which a role that
     * waits ends with `waits`, and they have ten seconds more.
     */
    @Override
    public void close() {
        isClosing = true;
        wires.close();
        taker.interrupt();
        if (!awaitEnd(limit)) {
            synchronized (this) {
                running.forEach(Thread::interrupt);
            }
            awaitEnd(LAST_SECONDS);
        }
        try {
            if (bean != null) {
                server().unregisterMBean(bean);
            }
        } catch (JMException gone) {
            // it isn't there any more
        }
    }

    /** Waits until no session runs; answers whether none does. */
    private synchronized boolean awaitEnd(int seconds) {
        long until = Connection.in(seconds);
        try {
            while (!running.isEmpty() || taker.isAlive() && taker != Thread.currentThread()) {
                long left = (until - System.nanoTime()) / 1_000_000;
                if (left <= 0) {
                    return false;
                }
                wait(Math.min(left, 100));
            }
        } catch (InterruptedException stopped) {
            Thread.currentThread().interrupt();
            return false;
        }
        return true;
    }

    @Override
    public String getRole() {
        return role;
    }

    @Override
    public int getMost() {
        return most;
    }

    @Override
    public synchronized long getBegun() {
        return begun;
    }

    @Override
    public synchronized int getRunning() {
        return running.size();
    }

    @Override
    public int getWaiting() {
        return wires.waiting();
    }

    @Override
    public synchronized Map<String, Long> getEnded() {
        return new TreeMap<>(ended);
    }

    /** The numbers in one line, as `S: 3 run, 0 wait, 40 have begun; done 36, waits 1`. */
    @Override
    public String toString() {
        StringBuilder line = new StringBuilder();
        getEnded().forEach((how, count) -> line.append(line.length() == 0 ? "; " : ", ").append(how).append(' ').append(count));
        int waiting = getWaiting();
        return role + ": " + getRunning() + " run, " + (waiting < 0 ? "" : waiting + " wait, ") + getBegun() + " have begun"
                + line;
    }
}
