package mungo.lib;

import java.net.InetSocketAddress;
import java.util.Collection;
import java.util.concurrent.atomic.AtomicBoolean;

/** Says once that a shared secret is for one machine. */
final class Secrets {
    private static final AtomicBoolean IS_TOLD = new AtomicBoolean();

    private Secrets() {}

    /** Says so where one of the addresses is elsewhere, as far as that is seen on its text. */
    static void warn(Collection<InetSocketAddress> addresses) {
        for (InetSocketAddress address : addresses) {
            String host = address.getHostString();
            if (!host.matches("(?i)localhost|127[.][0-9.]+|::1|0:0:0:0:0:0:0:1") && IS_TOLD.compareAndSet(false, true)) {
                System.err.println("mungo: mungo.secret is for one machine, and " + Texts.name(host)
                        + " is elsewhere: what is sent is neither signed nor hidden. Set mungo.tls");
            }
        }
    }
}
