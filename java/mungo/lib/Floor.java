package mungo.lib;

import java.io.EOFException;
import java.io.IOException;
import java.io.InterruptedIOException;
import java.net.InetSocketAddress;
import java.util.ArrayDeque;
import java.util.Deque;
import java.util.HashMap;
import java.util.Map;
import java.util.Set;
import java.util.TreeMap;

/** The roles of one process: the messages between them stand in memory, and it is known when none of them can go on. */
final class Floor {
    /** The lines that lead to a role, by its name and the peer's. */
    private final Map<String, Map<String, Line>> lines = new TreeMap<>();

    /** The roles that haven't ended, each with the line on which it waits, or null. */
    private final Map<String, Line> going = new HashMap<>();

    private boolean atRest;

    /** A floor for roles of these names. */
    Floor(Set<String> names) {
        for (String name : names) {
            going.put(name, null);
            lines.put(name, new TreeMap<>());
            for (String peer : names) {
                if (!peer.equals(name)) {
                    lines.get(name).put(peer, new Line(name, peer));
                }
            }
        }
    }

    /** The lines of a role to its peers here. */
    Map<String, Line> linesOf(String name) {
        return lines.get(name);
    }

    /** Says that a role has ended. */
    synchronized void ended(String name) {
        going.remove(name);
        settle();
    }

    /** Tells the roles that wait where all wait, each for a message that hasn't been sent. */
    private void settle() {
        for (Line line : going.values()) {
            if (line == null || !line.heard.isEmpty()) {
                return;
            }
        }
        atRest = true;
        notifyAll();
    }

    /** The line of a role to a peer in this process. */
    final class Line implements Wire {
        private final String name;
        private final String peer;
        private final Deque<Message> heard = new ArrayDeque<>();

        private Line(String name, String peer) {
            this.name = name;
            this.peer = peer;
        }

        @Override
        public void open(InetSocketAddress address, long deadline) {}

        @Override
        public void send(String label, Object value) {
            synchronized (Floor.this) {
                lines.get(peer).get(name).heard.add(new Message(label, value, null));
                Floor.this.notifyAll();
            }
        }

        @Override
        public Message receive() throws IOException {
            synchronized (Floor.this) {
                going.put(name, this);
                settle();
                while (heard.isEmpty()) {
                    if (atRest) {
                        throw new EOFException();
                    }
                    rest();
                }
                going.put(name, null);
                return heard.remove();
            }
        }

        private void rest() throws InterruptedIOException {
            try {
                Floor.this.wait();
            } catch (InterruptedException stopped) {
                Thread.currentThread().interrupt();
                throw new InterruptedIOException("interrupted");
            }
        }

        @Override
        public void close() {}
    }
}
