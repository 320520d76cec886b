import java.lang.reflect.InvocationTargetException;
import java.lang.reflect.Method;
import java.net.InetAddress;
import java.net.ServerSocket;
import java.nio.channels.SocketChannel;
import java.nio.file.Files;
import java.nio.file.Path;
import java.nio.file.Paths;
import java.util.Collections;
import java.util.Map;
import java.util.TreeMap;
import java.util.concurrent.ExecutorService;
import java.util.concurrent.Executors;
import java.util.concurrent.TimeUnit;
import java.util.concurrent.atomic.AtomicBoolean;
import mungo.lib.Service;
import mungo.lib.Session;
import mungo.lib.Transport;
import mungo.lib.Wires;

/**
 * Many sessions of a role by the `main` of a checked class. `Many plays ROLE CLASS TRANSPORT LINK SESSIONS AT_ONCE` plays
 * so many; `Many serves ROLE CLASS TRANSPORT LINK FILE` serves until the file is there. At the end it says how the
 * sessions ended, how long they took, and which threads and descriptors are left.
 */
public final class Many {
    private static final AtomicBoolean HAS_BEGUN = new AtomicBoolean();

    private Many() {}

    /** The `main` of a class as the work of a role. What it throws is thrown on. */
    private static Runnable work(String type) throws ReflectiveOperationException {
        Method main = Class.forName(type).getDeclaredMethod("main", String[].class);
        main.setAccessible(true);
        return () -> {
            if (HAS_BEGUN.compareAndSet(false, true)) {
                System.err.println("begun");
            }
            try {
                main.invoke(null, (Object) new String[0]);
            } catch (InvocationTargetException fault) {
                Many.<RuntimeException>rethrow(fault.getCause());
            } catch (IllegalAccessException wrong) {
                throw new IllegalStateException(wrong);
            }
        };
    }

    @SuppressWarnings("unchecked")
    private static <E extends Throwable> void rethrow(Throwable fault) throws E {
        throw (E) fault;
    }

    private static Map<String, Long> plays(String role, Runnable work, Transport transport, int sessions, int atOnce)
            throws InterruptedException {
        Map<String, Long> ended = new TreeMap<>();
        ExecutorService pool = Executors.newFixedThreadPool(atOnce);
        for (int k = 0; k < sessions; k++) {
            pool.execute(() -> {
                String ending = "thrown";
                try {
                    ending = Session.play(role, transport.session(role), Collections.emptyMap(), work);
                } catch (Exception fault) {
                    fault.printStackTrace();
                }
                synchronized (ended) {
                    ended.merge(ending, 1L, Long::sum);
                }
            });
        }
        pool.shutdown();
        if (!pool.awaitTermination(400, TimeUnit.SECONDS)) {
            System.out.println("sessions go on");
        }
        return ended;
    }

    private static Map<String, Long> serves(String role, Runnable work, Wires wires, Path file) throws Exception {
        Service service = Session.serve(role, wires, work);
        System.err.println("serves");
        while (!Files.exists(file)) {
            Thread.sleep(50);
        }
        service.close();
        System.err.println(service);
        return service.getEnded();
    }

    /** Waits until no thread is left but this one and those of the virtual machine, and says how many are. */
    private static String left(int before) throws InterruptedException {
        for (int tries = 0; tries < 300; tries++) {
            long threads = Thread.getAllStackTraces().keySet().stream().filter(thread -> thread.getName().startsWith("mungo")).count();
            if (threads == 0 && sockets() <= before) {
                return "no threads, no sockets";
            }
            Thread.sleep(100);
        }
        return Thread.getAllStackTraces().keySet() + ", " + sockets() + " sockets, and before " + before;
    }

    /** How many sockets this process has, or 0 where the system doesn't tell. */
    private static int sockets() {
        int count = 0;
        try (java.nio.file.DirectoryStream<Path> all = Files.newDirectoryStream(Paths.get("/proc/self/fd"))) {
            for (Path one : all) {
                if (Files.isSymbolicLink(one) && Files.readSymbolicLink(one).toString().startsWith("socket:")) {
                    count++;
                }
            }
        } catch (java.io.IOException none) {
            return 0;
        }
        return count;
    }

    public static void main(String[] words) throws Exception {
        Runnable work = work(words[2]);
        // The virtual machine keeps one for itself when it has had any.
        new ServerSocket(0, 1, InetAddress.getLoopbackAddress()).close();
        SocketChannel.open().close();
        int before = sockets();
        Object made = Class.forName(words[3]).getConstructor(String.class).newInstance(words[4]);
        long begun = System.nanoTime();
        Map<String, Long> ended = words[0].equals("plays")
                ? plays(words[1], work, (Transport) made, Integer.parseInt(words[5]), Integer.parseInt(words[6]))
                : serves(words[1], work, (Wires) made, Paths.get(words[5]));
        System.err.println((System.nanoTime() - begun) / 1_000_000 + " ms");
        System.out.println(ended + ", left: " + left(before));
    }
}
