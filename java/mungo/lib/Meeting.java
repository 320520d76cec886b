package mungo.lib;

import java.io.IOException;
import java.net.InetSocketAddress;
import java.security.cert.X509Certificate;
import java.util.ArrayDeque;
import java.util.Deque;
import java.util.Map;

/**
 * Brings a role together with its peers in other processes: of two roles the one whose name comes first in the order of
 * names listens, and the other connects. Who connects has some seconds for its greeting; where too many greet at a
 * time, the one that came first has to go.
 */
final class Meeting {
    private static final int MOST_GREETED = 32;
    private static final int GREETING_SECONDS = 10;

    private final String me;
    private final Map<String, Frames> lines;
    private final Greeting greeting;

    /** How lines are sealed, or null where they aren't. */
    private final Tls tls;
    private final Map<String, InetSocketAddress> addresses;
    private final Deque<Connection> greeted = new ArrayDeque<>();
    private Connection.Door door;

    /** A meeting of the role with the peers of these lines, by the secret and the certificates of the settings, if any. */
    Meeting(String me, Map<String, Frames> lines, Map<String, InetSocketAddress> addresses, Settings settings) {
        this.me = me;
        this.lines = lines;
        this.addresses = addresses;
        greeting = new Greeting(settings.secret);
        tls = lines.isEmpty() ? null : settings.tlsOfRoles();
    }

    /** Begins to listen and to call, in threads of its own. Throws IOException where the role can't listen. */
    void begin() throws IOException {
        if (listens()) {
            InetSocketAddress own = addresses.get(me);
            try {
                door = new Connection.Door(own, MOST_GREETED);
            } catch (IOException fault) {
                String at = own == null ? "" : " at " + own.getHostString() + ":" + own.getPort();
                throw new IOException(me + " can't listen" + at + ": " + Texts.reason(fault));
            }
            inBackground("mungo: " + me + " listens", this::listen);
        }
        lines.forEach((peer, line) -> {
            if (me.compareTo(peer) > 0) {
                inBackground("mungo: " + me + " calls " + peer, () -> call(peer, line));
            }
        });
    }

    /** Listens no more, and lets those go that greet. */
    void close() {
        if (door != null) {
            door.close();
        }
        synchronized (greeted) {
            greeted.forEach(Connection::close);
            greeted.clear();
        }
    }

    /** Whether a peer is still to come that connects to this role. */
    private boolean listens() {
        for (Map.Entry<String, Frames> line : lines.entrySet()) {
            if (me.compareTo(line.getKey()) < 0 && line.getValue().isAwaited()) {
                return true;
            }
        }
        return false;
    }

    /** Runs what brings peers here; where it dies, the role learns it with its next message. */
    private void inBackground(String name, Runnable work) {
        Thread thread = new Thread(() -> {
            try {
                work.run();
            } catch (RuntimeException | Error fault) {
                lines.values().forEach(line -> line.ends(fault));
            }
        }, name);
        thread.setDaemon(true);
        thread.start();
    }

    private void listen() {
        while (door.isOpen()) {
            try {
                Connection stranger = door.next(Connection.never());
                enter(stranger);
                inBackground("mungo: " + me + " greets", () -> greet(stranger));
            } catch (IOException later) {
                try {
                    Connection.pause();
                } catch (IOException stopped) {
                    return;
                }
            }
        }
    }

    private void enter(Connection stranger) {
        synchronized (greeted) {
            if (greeted.size() == MOST_GREETED) {
                greeted.remove().close();
            }
            greeted.add(stranger);
        }
    }

    private void leave(Connection stranger) {
        synchronized (greeted) {
            greeted.remove(stranger);
        }
    }

    /** Takes the line of a peer that has connected, where it says that it means this role, and isn't there yet. */
    private void greet(Connection stranger) {
        try {
            String peer = answer(stranger, Connection.in(GREETING_SECONDS));
            leave(stranger);
            Frames line = me.compareTo(peer) < 0 ? lines.get(peer) : null;
            if (line != null && line.joins(stranger)) {
                if (!listens()) {
                    close();
                }
                line.hear();
            }
        } catch (Greeting.Stranger fault) {
            Frames line = fault.name == null ? null : lines.get(fault.name);
            if (line != null) {
                line.awaits("one with this name has come, and " + fault.getMessage());
            }
        } catch (Tls.Refused fault) {
            lines.values().forEach(line -> line.awaits("one has come, and " + fault.getMessage()));
        } catch (IOException gone) {
            // no role of this run
        } finally {
            leave(stranger);
            stranger.close();
        }
    }

    /** The name of one that has connected, which is a role that means this one, and that the certificate is of its host. */
    private String answer(Connection stranger, long until) throws IOException {
        X509Certificate shown = tls == null ? null : stranger.seal(tls.answers(true), until);
        String peer = greeting.answer(stranger, me, until);
        if (tls != null) {
            InetSocketAddress address = addresses.get(peer);
            if (address == null) {
                throw new Greeting.Stranger(peer, "it has no address here");
            }
            try {
                Tls.expect(shown, address.getHostString());
            } catch (Tls.Refused another) {
                throw new Greeting.Stranger(peer, another.getMessage());
            }
            greeting.take(stranger, until);
        }
        return peer;
    }

    /** Connects to a peer, which may come later than this role. */
    private void call(String peer, Frames line) {
        InetSocketAddress address = addresses.get(peer);
        while (line.isAwaited()) {
            try {
                try (Connection found = Connection.once(address, Connection.in(GREETING_SECONDS))) {
                    greet(found, peer, Connection.in(GREETING_SECONDS));
                    if (line.joins(found)) {
                        line.hear();
                    }
                } catch (IOException later) {
                    line.awaits(Texts.reason(later));
                }
                Connection.pause();
            } catch (IOException stopped) {
                return;
            }
        }
    }

    /** Greets the peer to which this role has connected. */
    private void greet(Connection found, String peer, long until) throws IOException {
        if (tls != null) {
            InetSocketAddress address = addresses.get(peer);
            found.seal(tls.calls(address.getHostString(), address.getPort()), until);
        }
        greeting.call(found, me, peer, until);
        if (tls != null) {
            greeting.await(found, peer, until);
        }
    }
}
