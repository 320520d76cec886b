package mungo.amqp;

import java.io.IOException;
import java.net.InetSocketAddress;
import java.net.SocketTimeoutException;
import java.util.LinkedHashMap;
import java.util.Map;
import mungo.lib.Wire;

/** A role that plays one session and is invited: its wires stand for those of the session to which it is. */
final class Guest {
    private final Link link;
    private final String me;
    private Map<String, Wire> session;

    Guest(Link link, String me) {
        this.link = link;
        this.me = me;
    }

    Map<String, Wire> wires() {
        Map<String, Wire> wires = new LinkedHashMap<>();
        for (String role : link.roles) {
            if (!role.equals(me)) {
                wires.put(role, new Promised(role));
            }
        }
        return wires;
    }

    /** The wires of the session. Waits for the invitation where there is none yet. */
    private Map<String, Wire> session(long deadline) throws IOException {
        if (session == null) {
            Desk desk = Desk.of(link, me, 1);
            try {
                session = desk.next(deadline);
            } finally {
                desk.close();
            }
            if (session == null) {
                throw new SocketTimeoutException(desk.reason());
            }
        }
        return session;
    }

    private final class Promised implements Wire {
        private final String peer;

        Promised(String peer) {
            this.peer = peer;
        }

        @Override
        public void open(InetSocketAddress address, long deadline) throws IOException {
            session(deadline).get(peer).open(address, deadline);
        }

        @Override
        public void send(String label, Object value) throws IOException, Unfit, Mismatch {
            session.get(peer).send(label, value);
        }

        @Override
        public Message receive() throws IOException, Mismatch {
            return session.get(peer).receive();
        }

        @Override
        public void close() {
            if (session != null) {
                session.get(peer).close();
            }
        }
    }
}
