package mungo.lib;

import java.io.IOException;
import java.io.InputStream;
import java.net.InetAddress;
import java.nio.file.Files;
import java.nio.file.Paths;
import java.security.GeneralSecurityException;
import java.security.KeyStore;
import java.security.cert.CertPathBuilderException;
import java.security.cert.CertPathValidatorException;
import java.security.cert.Certificate;
import java.security.cert.CertificateException;
import java.security.cert.CertificateExpiredException;
import java.security.cert.CertificateNotYetValidException;
import java.security.cert.X509Certificate;
import java.util.ArrayList;
import java.util.Arrays;
import java.util.List;
import javax.net.ssl.KeyManagerFactory;
import javax.net.ssl.SSLContext;
import javax.net.ssl.SSLEngine;
import javax.net.ssl.SSLException;
import javax.net.ssl.SSLParameters;
import javax.net.ssl.SSLPeerUnverifiedException;
import javax.net.ssl.TrustManagerFactory;

/**
 * The certificate of this process, and whom it trusts: TLS 1.2 or 1.3 by the virtual machine's own JSSE. Who connects
 * asks for the name of the host in the other's certificate, as browsers do; a role that listens asks for that of the
 * host that the settings have for its peer.
 */
final class Tls {
    private static final int DNS_NAME = 2;
    private static final int IP_ADDRESS = 7;

    private final SSLContext context;

    /** Whether there is an own certificate, and whether stores of this process say whom to trust. */
    private final boolean knowsItself;
    private final boolean knowsOthers;

    /** A connection isn't made, for the sake of a certificate or as the other side speaks no TLS. */
    static final class Refused extends IOException {
        private static final long serialVersionUID = 1;

        Refused(String why) {
            super(why);
        }
    }

    private Tls(SSLContext context, boolean knowsItself, boolean knowsOthers) {
        this.context = context;
        this.knowsItself = knowsItself;
        this.knowsOthers = knowsOthers;
    }

    /** TLS by a context of a larger program. */
    static Tls of(SSLContext context) {
        return new Tls(context, true, true);
    }

    /**
     * TLS by stores in the form PKCS#12 and the password of both: that of the own key, and that of the certificates which
     * are trusted. An empty name is no key, and the certificates that the virtual machine trusts. Throws IOException,
     * with a sentence, where a store can't be read.
     */
    static Tls of(String keys, String trust, String password) throws IOException {
        try {
            char[] letters = password.toCharArray();
            KeyManagerFactory own = KeyManagerFactory.getInstance(KeyManagerFactory.getDefaultAlgorithm());
            own.init(store(keys, letters), letters);
            TrustManagerFactory others = TrustManagerFactory.getInstance(TrustManagerFactory.getDefaultAlgorithm());
            others.init(store(trust, letters));
            SSLContext context = SSLContext.getInstance("TLS");
            context.init(keys.isEmpty() ? null : own.getKeyManagers(), others.getTrustManagers(), null);
            return new Tls(context, !keys.isEmpty(), !trust.isEmpty());
        } catch (GeneralSecurityException wrong) {
            throw new IOException(Texts.reason(wrong));
        }
    }

    private static KeyStore store(String name, char[] password) throws IOException, GeneralSecurityException {
        if (name.isEmpty()) {
            return null;
        }
        KeyStore store = KeyStore.getInstance("PKCS12");
        try (InputStream in = Files.newInputStream(Paths.get(name))) {
            store.load(in, password);
        } catch (java.nio.file.NoSuchFileException none) {
            throw new IOException("no file " + name);
        } catch (IOException | GeneralSecurityException wrong) {
            throw new IOException("the store " + name + " can't be read: " + Texts.reason(wrong));
        }
        return store;
    }

    /** Whether both sides can be known by certificates. */
    boolean isMutual() {
        return knowsItself && knowsOthers;
    }

    boolean knowsItself() {
        return knowsItself;
    }

    SSLContext context() {
        return context;
    }

    // Engines.

    /** The engine of one that connects to a host, whose certificate has to have its name. */
    SSLEngine calls(String host, int port) {
        SSLEngine engine = context.createSSLEngine(host, port);
        engine.setUseClientMode(true);
        SSLParameters parameters = engine.getSSLParameters();
        parameters.setEndpointIdentificationAlgorithm("HTTPS");
        engine.setSSLParameters(parameters);
        return modern(engine);
    }

    /** The engine of one that listens, and asks for a certificate of the other side or takes whoever comes. */
    SSLEngine answers(boolean asks) {
        SSLEngine engine = context.createSSLEngine();
        engine.setUseClientMode(false);
        engine.setNeedClientAuth(asks);
        return modern(engine);
    }

    private static SSLEngine modern(SSLEngine engine) {
        List<String> protocols = new ArrayList<>(Arrays.asList("TLSv1.3", "TLSv1.2"));
        protocols.retainAll(Arrays.asList(engine.getSupportedProtocols()));
        engine.setEnabledProtocols(protocols.toArray(new String[0]));
        return engine;
    }

    // Certificates of the other side.

    /**
     * The certificate that the other side has shown, whose time has come and isn't over, or null where it has shown none.
     * JSSE doesn't ask for the time of one that stands in the trust store itself.
     */
    static X509Certificate shown(SSLEngine engine) throws Refused {
        try {
            Certificate[] chain = engine.getSession().getPeerCertificates();
            X509Certificate own = (X509Certificate) chain[0];
            own.checkValidity();
            return own;
        } catch (SSLPeerUnverifiedException none) {
            return null;
        } catch (CertificateException over) {
            throw new Refused(sentence(over));
        }
    }

    /** Throws Refused where a certificate isn't one of the host: one of its alternative names has to be the host's, letter by letter. */
    static void expect(X509Certificate shown, String host) throws Refused {
        List<String> names = new ArrayList<>();
        try {
            if (shown != null && shown.getSubjectAlternativeNames() != null) {
                for (List<?> name : shown.getSubjectAlternativeNames()) {
                    int kind = (Integer) name.get(0);
                    if (kind == DNS_NAME || kind == IP_ADDRESS) {
                        names.add(canonical((String) name.get(1)));
                    }
                }
            }
        } catch (CertificateException unreadable) {
            throw new Refused(sentence(unreadable));
        }
        if (!names.contains(canonical(host))) {
            throw new Refused("its certificate isn't one of " + Texts.name(host) + ", but of "
                    + Texts.name(String.join(", ", names)));
        }
    }

    /** A name in small letters; a literal address as the virtual machine writes it. */
    private static String canonical(String host) {
        String name = host.toLowerCase(java.util.Locale.ROOT);
        if (!name.matches("[0-9.]+|.*:.*")) {
            return name;
        }
        try {
            return InetAddress.getByName(name).getHostAddress();
        } catch (java.net.UnknownHostException none) {
            return name;
        }
    }

    // What went wrong.

    /** A handshake has failed: the fault with a sentence for a reader. */
    static IOException refusal(SSLException fault) {
        return new Refused(sentence(fault));
    }

    private static String sentence(Throwable fault) {
        String said = known(fault);
        return said == null ? "TLS fails: " + Texts.reason(fault) : said;
    }

    /** What a fault says, with a sentence where it is one of certificates. */
    static String reason(Throwable fault) {
        String said = known(fault);
        return said == null ? Texts.reason(fault) : said;
    }

    private static String known(Throwable fault) {
        for (Throwable cause = fault; cause != null; cause = cause.getCause()) {
            String said = of(cause);
            if (said != null) {
                return said;
            }
        }
        return null;
    }

    private static String of(Throwable cause) {
        String text = String.valueOf(cause.getMessage());
        if (cause instanceof CertificateExpiredException) {
            return "its certificate has expired (" + Texts.name(text) + ")";
        }
        if (cause instanceof CertificateNotYetValidException) {
            return "its certificate isn't valid yet (" + Texts.name(text) + ")";
        }
        if (cause instanceof CertPathBuilderException) {
            return "its certificate comes from nobody who is trusted";
        }
        if (cause instanceof CertPathValidatorException && cause.getCause() == null) {
            return "its certificate isn't trusted (" + Texts.name(text) + ")";
        }
        if (text.startsWith("No name matching") || text.startsWith("No subject alternative")) {
            return "its certificate has another name (" + Texts.name(text) + ")";
        }
        if (text.matches("(?i).*empty client certificate.*|.*null cert chain.*")) {
            return "it shows no certificate";
        }
        if (text.matches("(?i).*fatal alert: *\\w*(certificate|unknown_ca|access_denied).*")) {
            return "it refuses the certificate of this side (" + Texts.name(text.replaceAll(".*: *", "")) + ")";
        }
        return text.matches("(?i).*(unrecognized|plaintext).*(message|connection).*") ? "it doesn't speak TLS" : null;
    }
}
