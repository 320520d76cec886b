package mungo.lib;

import java.io.IOException;
import javax.net.ssl.SSLContext;

/** What the settings say, for wires in other packages. Wrong ones throw IllegalArgumentException. */
public final class Setup {
    private final Settings settings = new Settings();

    /** Seconds for which a peer is waited for until it is there. */
    public int patience() {
        return settings.patience;
    }

    /** Seconds for which a message is waited for, or for it to be taken. */
    public int limit() {
        return settings.limit;
    }

    /** TLS by the stores of mungo.tls, or else by the certificates that the virtual machine trusts. */
    public SSLContext tls() throws IOException {
        return settings.tlsOfTexts().context();
    }

    /** A sentence for a reader on why a connection failed, the other side's certificate above all. */
    public static String reason(Throwable fault) {
        return Tls.reason(fault);
    }

    /** A text in one line of printable letters. */
    public static String shown(String text) {
        return Texts.name(text);
    }
}
