package mungo.amqp;

import com.rabbitmq.client.AlreadyClosedException;
import com.rabbitmq.client.Channel;
import com.rabbitmq.client.Connection;
import com.rabbitmq.client.ConnectionFactory;
import com.rabbitmq.client.ShutdownSignalException;
import java.io.IOException;
import java.util.ArrayDeque;
import java.util.Deque;
import java.util.HashMap;
import java.util.HashSet;
import java.util.LinkedHashSet;
import java.util.List;
import java.util.Map;
import java.util.Set;
import java.util.concurrent.BlockingQueue;
import java.util.concurrent.ConcurrentHashMap;
import java.util.concurrent.LinkedBlockingQueue;
import java.util.concurrent.TimeUnit;
import java.util.concurrent.TimeoutException;
import mungo.lib.Setup;

/**
 * A broker that this process is connected to, by one connection for all sessions. One thread does all that is asked of it,
 * and makes the connection anew when it is lost; so who asks waits for no longer than it wants. It ends, and the
 * connection with it, when no part is left.
 */
final class Broker implements Runnable {
    private static final Map<List<Object>, Broker> OPEN = new HashMap<>();

    /** Milliseconds between two tries of what has failed, and to look for a lost connection. */
    private static final int PAUSE = 100;

    /** What has channels on the connection: the thread of the broker alone calls it. */
    interface Part {
        /**
         * Does what is to be done. It begins anew, by a channel of its own, where it has none. Answers whether something
         * is left that has to be tried again without being asked.
         */
        boolean step(Connection connection) throws IOException;

        /** Says that its channel is gone, and why; a part that can't go on without it says so by being over. */
        void lost(Throwable why);

        /** Whether it wants nothing any more. */
        boolean isOver();

        /** Says why there is no connection. */
        void waitsFor(String reason);
    }

    private final Link link;
    private final List<Object> key;
    private final BlockingQueue<Part> asked = new LinkedBlockingQueue<>();

    /** All parts, and those that have to be tried again; of the thread of the broker alone. */
    private final Set<Part> parts = new LinkedHashSet<>();
    private final Set<Part> again = new LinkedHashSet<>();

    /** The parts that hold the connection, those that haven't asked yet among them; its lock is that of `OPEN`. */
    private final Set<Part> holders = new HashSet<>();
    private final Deque<Channel> given = new ArrayDeque<>();
    private final Set<String> declared = ConcurrentHashMap.newKeySet();
    private Connection connection;

    private Broker(Link link, List<Object> key) {
        this.link = link;
        this.key = key;
    }

    /** The broker of a link, which goes on until this part is over. */
    static Broker of(Link link, Part part) {
        synchronized (OPEN) {
            List<Object> key = link.key();
            Broker broker = OPEN.get(key);
            if (broker == null) {
                broker = new Broker(link, key);
                OPEN.put(key, broker);
                Thread thread = new Thread(broker, "mungo: broker " + link.host);
                thread.setDaemon(true);
                thread.start();
            }
            broker.holders.add(part);
            return broker;
        }
    }

    /**
     * A channel that confirms what is published, and keeps so many messages of a consumer that aren't acknowledged: one
     * that a session has given back, or else a fresh one. Its listeners are for the caller.
     */
    Channel channel(int most) throws IOException {
        for (Channel idle = given.poll(); idle != null; idle = given.poll()) {
            if (idle.isOpen()) {
                return idle;
            }
        }
        Channel fresh = connection.createChannel();
        if (fresh == null) {
            throw new IOException("the broker gives no more channels to a connection");
        }
        fresh.basicQos(most);
        fresh.confirmSelect();
        return fresh;
    }

    /** Takes a channel back, on which nothing is left to be acknowledged. */
    void give(Channel channel) {
        channel.clearConfirmListeners();
        channel.clearReturnListeners();
        given.add(channel);
    }

    /** Makes the exchange of a protocol and the queue of invitations for a role, where this connection hasn't yet. */
    void declare(Channel channel, Link link, String role) throws IOException {
        if (!declared.contains(link.invitations(role))) {
            Desk.declare(channel, link, role);
            declared.add(link.invitations(role));
        }
    }

    /** Says that a queue of invitations is gone. */
    void forget(String queue) {
        declared.remove(queue);
    }

    /** Asks that a part takes a step, soon. */
    void ask(Part part) {
        asked.add(part);
    }

    @Override
    public void run() {
        while (!isLeft()) {
            try {
                Part part = asked.poll(PAUSE, TimeUnit.MILLISECONDS);
                if (part == null) {
                    if (connection != null && !connection.isOpen()) {
                        lose(null);
                    }
                    asked.addAll(again);
                    again.clear();
                } else {
                    step(part);
                }
            } catch (InterruptedException none) {
                // nobody interrupts this thread
            } catch (RuntimeException | Error fault) {
                System.err.println("mungo: broker " + link.host + ": " + Setup.shown(String.valueOf(fault)));
                lose(fault);
            }
        }
        disconnect();
    }

    /** Whether nobody holds the connection any more: then it isn't handed out either. */
    private boolean isLeft() {
        synchronized (OPEN) {
            if (holders.isEmpty()) {
                OPEN.remove(key, this);
            }
            return holders.isEmpty();
        }
    }

    private void step(Part part) {
        if (part.isOver()) {
            leave(part);
            return;
        }
        parts.add(part);
        try {
            connect();
            if (part.step(connection)) {
                again.add(part);
            }
        } catch (IOException | ShutdownSignalException fault) {
            part.lost(fault);
            again.add(part);
            if (connection != null && !connection.isOpen()) {
                lose(fault);
            }
        }
        if (part.isOver()) {
            leave(part);
        }
    }

    private void leave(Part part) {
        again.remove(part);
        parts.remove(part);
        synchronized (OPEN) {
            holders.remove(part);
        }
    }

    private void connect() throws IOException {
        if (connection != null && connection.isOpen()) {
            return;
        }
        lose(null);
        try {
            ConnectionFactory factory = link.factory();
            connection = factory.newConnection("mungo " + link.protocol);
        } catch (IOException | TimeoutException | RuntimeException absent) {
            String reason = "the broker at " + link.host + ": " + Setup.reason(absent);
            parts.forEach(part -> part.waitsFor(reason));
            rest();
            throw new IOException(reason, absent);
        }
    }

    private void rest() {
        try {
            Thread.sleep(PAUSE);
        } catch (InterruptedException none) {
            // nobody interrupts this thread
        }
    }

    /** The connection is gone, and with it the channels of all parts. */
    private void lose(Throwable why) {
        if (connection != null) {
            disconnect();
            connection = null;
            declared.clear();
            given.clear();
            for (Part part : parts) {
                part.lost(why);
                again.add(part);
            }
        }
    }

    private void disconnect() {
        if (connection != null) {
            try {
                connection.abort(1000);
            } catch (AlreadyClosedException gone) {
                // it is gone already
            }
        }
    }
}
