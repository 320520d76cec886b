import java.io.EOFException;
import java.io.IOException;
import java.io.InterruptedIOException;
import java.lang.management.ManagementFactory;
import java.net.InetSocketAddress;
import java.util.Collections;
import java.util.Map;
import java.util.Set;
import java.util.concurrent.BlockingQueue;
import java.util.concurrent.CountDownLatch;
import java.util.concurrent.LinkedBlockingQueue;
import java.util.concurrent.TimeUnit;
import java.util.concurrent.atomic.AtomicInteger;
import javax.management.MBeanServer;
import javax.management.ObjectName;
import javax.management.openmbean.TabularData;
import mungo.lib.Service;
import mungo.lib.Session;
import mungo.lib.Wire;
import mungo.lib.Wires;

/** A role S that serves sessions of this process: how many run at once, how they end, and what is told of them. */
public final class Serves {
    private static final AtomicInteger RUNNING = new AtomicInteger();
    private static final AtomicInteger HIGHEST = new AtomicInteger();
    /** The first sessions wait for one another: as many as may run at once. */
    private static final CountDownLatch FULL = new CountDownLatch(7);

    private Serves() {}

    /** A peer C that says one label and has ended then. */
    private static final class Says implements Wire {
        private String label;

        Says(String label) {
            this.label = label;
        }

        @Override
        public void open(InetSocketAddress address, long deadline) throws IOException {
            if (label.equals("absent")) {
                throw new IOException("it isn't there");
            }
        }

        @Override
        public void send(String sent, Object value) {}

        @Override
        public Message receive() throws IOException {
            if (label == null || label.equals("nothing")) {
                throw new EOFException();
            }
            Message message = new Message(label, null, null);
            label = null;
            return message;
        }

        @Override
        public void close() {}
    }

    private static final class Given implements Wires {
        final BlockingQueue<String> labels = new LinkedBlockingQueue<>();

        @Override
        public void open(String role, int most) {}

        @Override
        public Map<String, Wire> next(long deadline) throws IOException {
            try {
                String label = labels.poll(deadline - System.nanoTime(), TimeUnit.NANOSECONDS);
                return label == null ? null : Collections.singletonMap("C", new Says(label));
            } catch (InterruptedException stopped) {
                throw new InterruptedIOException();
            }
        }

        @Override
        public int waiting() {
            return labels.size();
        }

        @Override
        public void close() {}
    }

    private static void serves() {
        HIGHEST.accumulateAndGet(RUNNING.incrementAndGet(), Math::max);
        FULL.countDown();
        try {
            FULL.await(300, TimeUnit.SECONDS);
            String label = Session.look("C");
            if (label.equals("throw")) {
                throw new IllegalStateException("mine");
            }
            Session.take("C", "hi");
            Thread.sleep(20);
        } catch (InterruptedException stopped) {
            Thread.currentThread().interrupt();
        } finally {
            RUNNING.decrementAndGet();
        }
    }

    private static void tell(Service service, Given given) throws Exception {
        while (service.getRunning() + given.labels.size() > 0) {
            Thread.sleep(10);
        }
        System.out.println(service);
        System.out.println("at once: " + HIGHEST + " of " + service.getMost());
        MBeanServer server = ManagementFactory.getPlatformMBeanServer();
        Set<ObjectName> beans = server.queryNames(new ObjectName("mungo:type=Service,role=S,*"), null);
        ObjectName bean = beans.iterator().next();
        TabularData ended = (TabularData) server.getAttribute(bean, "Ended");
        System.out.println("JMX: " + beans.size() + ", begun " + server.getAttribute(bean, "Begun") + ", done "
                + ended.get(new Object[] {"done"}).get("value"));
        service.close();
        System.out.println("JMX: " + server.queryNames(new ObjectName("mungo:*"), null).size() + ", behind the end");
    }

    /** Lets one session end that runs when the service is closed, and takes none that comes later. */
    private static void closing() throws Exception {
        Given given = new Given();
        CountDownLatch begun = new CountDownLatch(1);
        CountDownLatch goes = new CountDownLatch(1);
        Service service = Session.serve("S", given, () -> {
            begun.countDown();
            try {
                goes.await();
            } catch (InterruptedException stopped) {
                throw new IllegalStateException(stopped);
            }
            Session.take("C", "hi");
        });
        given.labels.add("hi");
        begun.await();
        Thread closes = new Thread(service::close);
        closes.start();
        while (closes.getState() != Thread.State.TIMED_WAITING) {
            Thread.sleep(5);
        }
        given.labels.add("hi");
        goes.countDown();
        closes.join();
        System.out.println("closed: " + service);
    }

    public static void main(String[] words) throws Exception {
        Given given = new Given();
        for (String label : new String[] {"nothing", "other", "throw", "absent"}) {
            given.labels.add(label);
        }
        for (int k = 0; k < 40; k++) {
            given.labels.add("hi");
        }
        Service service = Session.serve("S", given, Serves::serves);
        tell(service, given);
        closing();
        try {
            Session.serve("a b", given, Serves::serves);
        } catch (IllegalArgumentException wrong) {
            System.out.println(wrong.getMessage());
        }
        while (Thread.getAllStackTraces().keySet().stream().anyMatch(thread -> thread.getName().startsWith("mungo"))) {
            Thread.sleep(20);
        }
        System.out.println("no threads are left");
    }
}
