package mungo.lib;

import java.io.IOException;
import java.lang.reflect.InvocationTargetException;
import java.net.InetSocketAddress;
import java.nio.charset.StandardCharsets;
import java.util.HashMap;
import java.util.LinkedHashMap;
import java.util.Locale;
import java.util.Map;

/** What properties of the virtual machine say, or else variables: mungo.role is the variable MUNGO_ROLE. */
final class Settings {
    private static final int MOST_SECONDS = 1_000_000;
    private static final int MOST_PORT = 65535;
    private static final int LEAST_SECRET = 16;
    private static final int MOST_SESSIONS = 100_000;
    private static final String AMQP = "mungo.amqp.Amqp";
    private static final String NO_AMQP = "the class path lacks the classes of java/amqp, or RabbitMQ's client with slf4j-api "
            + "(com.rabbitmq:amqp-client; Debian: librabbitmq-client-java)";

    /** Seconds for which a peer is waited for until it is there. */
    final int patience;

    /** Seconds for which a message of a role in another process is waited for, or for it to take one. */
    final int limit;

    /** How many sessions of a role that serves may run at once. */
    final int sessions;

    /** The secret that the roles share, or null. */
    final byte[] secret;

    /** The certificate of this process and whom it trusts, or null where nothing is set. */
    final Tls tls;

    /** A setting is wrong. The message is for a reader, behind `mungo: `. */
    static final class Wrong extends IllegalArgumentException {
        private static final long serialVersionUID = 1;

        Wrong(String why) {
            super(why);
        }
    }

    Settings() {
        patience = seconds("mungo.patience", 30, 0);
        limit = seconds("mungo.limit", 3600, 1);
        sessions = number(of("mungo.sessions", "100"), 1, MOST_SESSIONS, "mungo.sessions has "
                + Texts.name(of("mungo.sessions", "100")) + ", and not a number from 1 to " + MOST_SESSIONS);
        secret = secret(of("mungo.secret", null));
        tls = tls(of("mungo.tls", null), of("mungo.tls.password", ""));
    }

    private static Tls tls(String text, String password) {
        if (text == null) {
            return null;
        }
        String shown = "mungo.tls has " + Texts.name(text);
        String[] stores = text.split(",", -1);
        if (stores.length != 2) {
            throw new Wrong(shown + ", and not KEYS,TRUST");
        }
        try {
            return Tls.of(stores[0].trim(), stores[1].trim(), password);
        } catch (IOException wrong) {
            throw new Wrong(shown + ": " + Texts.reason(wrong));
        }
    }

    /** How lines between roles are sealed, or null where they aren't: both sides know each other by certificates. */
    Tls tlsOfRoles() {
        if (tls != null && !tls.isMutual()) {
            throw new Wrong("mungo.tls has no " + (tls.knowsItself() ? "certificates that are trusted" : "key")
                    + ", and roles know each other by both");
        }
        return tls;
    }

    /** How lines of text are sealed: by the settings, or else by the certificates that the virtual machine trusts. */
    Tls tlsOfTexts() throws IOException {
        return tls == null ? Tls.of("", "", "") : tls;
    }

    /** The bytes of a secret: a short one could be tried out by who has heard one proof. */
    private static byte[] secret(String text) {
        if (text == null) {
            return null;
        }
        if (text.isEmpty()) {
            throw new Wrong("mungo.secret is empty");
        }
        int length = text.codePointCount(0, text.length());
        if (length < LEAST_SECRET) {
            throw new Wrong("mungo.secret has " + length + " letters, and not at least " + LEAST_SECRET);
        }
        return text.getBytes(StandardCharsets.UTF_8);
    }

    /** What a setting says, or the text for one that says nothing. */
    static String of(String property, String otherwise) {
        String value = System.getProperty(property);
        if (value == null) {
            value = System.getenv(property.toUpperCase(Locale.ROOT).replace('.', '_'));
        }
        return value == null ? otherwise : value;
    }

    private static int seconds(String property, int otherwise, int least) {
        String text = of(property, String.valueOf(otherwise));
        return number(text, least, MOST_SECONDS, property + " has " + Texts.name(text) + ", and not seconds from "
                + least + " to " + MOST_SECONDS);
    }

    private static int number(String text, int least, int most, String wrong) {
        try {
            int number = Integer.parseInt(text.trim());
            if (number >= least && number <= most) {
                return number;
            }
        } catch (NumberFormatException none) {
            // said below
        }
        throw new Wrong(wrong);
    }

    /** The name of a role, which has to be one: `what` says where it stands. */
    static String role(String what, String name) {
        if (!name.matches("[A-Za-z_][A-Za-z0-9_]{0,254}")) {
            throw new Wrong(what + " has " + Texts.name(name) + ", and not the name of a role");
        }
        return name;
    }

    /** The role of this process. */
    static String role() {
        return role("mungo.role", of("mungo.role", "main"));
    }

    /** The addresses of roles, whose hosts are looked for when they are needed. */
    static Map<String, InetSocketAddress> addresses() {
        Map<String, InetSocketAddress> addresses = new LinkedHashMap<>();
        for (String entry : of("mungo.roles", "").split(",")) {
            if (entry.trim().isEmpty()) {
                continue;
            }
            String wrong = "mungo.roles has " + Texts.name(entry.trim()) + ", and not ROLE=HOST:PORT";
            int equals = entry.indexOf('=');
            int colon = entry.lastIndexOf(':');
            String host = equals < 0 || colon < equals ? "" : entry.substring(equals + 1, colon).trim();
            if (host.isEmpty()) {
                throw new Wrong(wrong);
            }
            int port = number(entry.substring(colon + 1), 1, MOST_PORT, wrong);
            String role = role("mungo.roles", entry.substring(0, equals).trim());
            if (addresses.put(role, InetSocketAddress.createUnresolved(host, port)) != null) {
                throw new Wrong("mungo.roles has two addresses of " + role);
            }
        }
        return addresses;
    }

    /** The wires of a role to its peers. A peer has an address, but where the wire itself knows it. */
    static Map<String, Wire> wires(String me, Map<String, InetSocketAddress> addresses) {
        Map<String, Wire> wires = new LinkedHashMap<>();
        Map<String, Map<String, Wire>> sessions = new HashMap<>();
        for (String entry : of("mungo.wire", "").split(",")) {
            if (entry.trim().isEmpty()) {
                continue;
            }
            String shown = "mungo.wire has " + shown(entry.trim());
            int equals = entry.indexOf('=');
            int colon = entry.indexOf(':', equals + 1);
            if (equals < 0 || colon < 0) {
                throw new Wrong(shown + ", and not ROLE=lines:FILE, ROLE=tls:FILE, ROLE=amqp:.. or ROLE=CLASS:WORD");
            }
            String peer = role("mungo.wire", entry.substring(0, equals).trim());
            String kind = entry.substring(equals + 1, colon).trim();
            String word = entry.substring(colon + 1).trim();
            Map<String, Wire> session = sessions.get(kind + ":" + word);
            Object made = session == null ? made(shown, kind, word) : session;
            if (made instanceof Transport) {
                session = session(shown, (Transport) made, me);
                sessions.put(kind + ":" + word, session);
            } else if (session == null && !addresses.containsKey(peer)) {
                throw new Wrong(shown + ": mungo.roles has no address of " + peer);
            }
            Wire wire = session == null ? (Wire) made : session.get(peer);
            if (wire == null) {
                throw new Wrong(shown + ": no role " + peer + " is there beside " + me);
            }
            if (wires.put(peer, wire) != null) {
                throw new Wrong("mungo.wire has two wires of " + peer);
            }
        }
        return wires;
    }

    /** An entry for a reader: without the password of a broker. */
    private static String shown(String entry) {
        return Texts.name(entry.replaceAll("//([^/@:]*):[^/@]*@", "//$1:..@"));
    }

    private static Map<String, Wire> session(String shown, Transport transport, String me) {
        try {
            return transport.session(me);
        } catch (IOException fault) {
            throw new Wrong(shown + ": " + Texts.reason(fault));
        }
    }

    /** The wire or the transport of a kind: `lines`, `tls`, `amqp`, `amqps`, or a class with a constructor that takes the word. */
    private static Object made(String shown, String kind, String word) {
        try {
            switch (kind) {
                case "lines":
                    return new Lines(word);
                case "tls":
                    return Lines.byTls(word);
                case "amqp":
                case "amqps":
                    return Class.forName(AMQP).getConstructor(String.class).newInstance(kind + ":" + word);
                default:
                    Object made = Class.forName(kind).getConstructor(String.class).newInstance(word);
                    return made instanceof Transport ? made : (Wire) made;
            }
        } catch (InvocationTargetException fault) {
            throw new Wrong(shown + ": " + (lacksClient(kind, fault.getCause()) ? NO_AMQP : Texts.reason(fault.getCause())));
        } catch (Exception | LinkageError fault) {
            throw new Wrong(shown + ": " + (lacksClient(kind, fault) ? NO_AMQP : Texts.reason(fault)));
        }
    }

    /** Whether the classes of java/amqp, or those below them, aren't there. */
    private static boolean lacksClient(String kind, Throwable fault) {
        return kind.startsWith("amqp") && (fault instanceof ClassNotFoundException || fault instanceof NoClassDefFoundError);
    }
}
