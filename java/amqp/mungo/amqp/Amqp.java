package mungo.amqp;

import java.io.IOException;
import java.util.Map;
import javax.net.ssl.SSLContext;
import mungo.lib.Setup;
import mungo.lib.Transport;
import mungo.lib.Wire;
import mungo.lib.Wires;

/**
 * Sessions over a broker of AMQP 0-9-1, as RabbitMQ, by RabbitMQ's client for Java, which has to be on the class path.
 * Nothing here is proved.
 *
 * <p>A link names the broker, the protocol and its roles, and the first role invites the others:
 * `amqp://localhost#Adder/C/S`, or `amqps:` by TLS. {@link #session} gives the wires of a role to all others for one
 * session, for `Session.play`; by `Session.serve` a role takes all sessions to which it is invited.
 *
 * <p>Each ordered pair of roles has a durable queue, which goes with the session. What is sent is confirmed by the broker
 * before the call returns, what is taken is acknowledged behind that, and messages have numbers: so none is lost or taken
 * twice where the connection is lost or the broker is started anew, as long as that takes less than `mungo.limit`.
 */
public final class Amqp implements Transport, Wires {
    private final Link link;
    private Desk desk;

    /**
     * Sessions by a link; by TLS with the certificates of the setting mungo.tls.
     *
     * @throws IllegalArgumentException where the link or a setting is wrong
     * @throws IOException where the stores of certificates can't be read
     */
    public Amqp(String link) throws IOException {
        this(link, link.startsWith("amqps:") ? new Setup().tls() : null);
    }

    /**
     * The same by a context for TLS, which is null where the link has none.
     *
     * @throws IllegalArgumentException where the link is wrong
     */
    public Amqp(String link, SSLContext tls) {
        this.link = new Link(link, tls);
    }

    @Override
    public Map<String, Wire> session(String role) throws IOException {
        return known(role).invites(role) ? Seat.inviting(link, role).wires() : new Guest(link, role).wires();
    }

    private Link known(String role) throws IOException {
        if (!link.roles.contains(role)) {
            throw new IOException("the link has the roles " + String.join(", ", link.roles) + ", and not " + role);
        }
        return link;
    }

    // A role that serves.

    @Override
    public synchronized void open(String role, int most) throws IOException {
        if (known(role).invites(role)) {
            throw new IOException("the role " + role + " stands first in the link: it invites, and a role that serves is invited");
        }
        if (desk != null) {
            throw new IOException("this link serves already");
        }
        desk = Desk.of(link, role, most);
    }

    @Override
    public Map<String, Wire> next(long deadline) throws IOException {
        return desk().next(deadline);
    }

    @Override
    public int waiting() {
        return desk().waiting();
    }

    @Override
    public synchronized void close() {
        if (desk != null) {
            desk.close();
        }
    }

    private synchronized Desk desk() {
        if (desk == null) {
            throw new IllegalStateException("nobody serves by this link yet");
        }
        return desk;
    }
}
