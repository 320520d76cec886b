package mungo.lib;

import java.io.ByteArrayOutputStream;
import java.io.EOFException;
import java.io.IOException;
import java.io.InputStream;
import java.io.InterruptedIOException;
import java.net.InetSocketAddress;
import java.net.SocketTimeoutException;
import java.nio.charset.CharacterCodingException;
import java.nio.charset.StandardCharsets;
import java.nio.file.Files;
import java.nio.file.Path;
import java.nio.file.Paths;
import java.util.ArrayDeque;
import java.util.ArrayList;
import java.util.Collections;
import java.util.Deque;
import java.util.List;
import java.util.regex.Pattern;
import javax.net.ssl.SSLContext;
import javax.net.ssl.SSLEngine;

/**
 * A wire of lines of text, as those of SMTP, POP3, Redis and HTTP, which a wire file describes. Nothing here is proved.
 *
 * <p>Nothing is sent of a message whose value doesn't fit. What is received has to fit the lines of exactly one
 * message. A message is waited for as long as the file's `limit` says, also where the peer sends a byte now and then,
 * or where a pattern takes long.
 */
public final class Lines implements Wire {
    private final Script script;
    private final boolean traces;

    /** How the connection is sealed, or null where it isn't. */
    private final Tls tls;
    private InetSocketAddress address;
    private Connection connection;

    /** The label of the last message, whoever sent it, or null. */
    private String last;

    /** Messages that have been received with another, and are still to be given. */
    private final Deque<Message> ready = new ArrayDeque<>();

    /**
     * A wire by the file, or the resource of the class path, of this name. Throws IOException where it isn't there or
     * is wrong.
     */
    public Lines(String name) throws IOException {
        this(name, textOf(name), null);
    }

    /** A wire by the text of a wire file; its name is for a reader. Throws IOException where it is wrong. */
    public Lines(String name, String text) throws IOException {
        this(name, text, null);
    }

    /**
     * The same by TLS of a context: the peer's certificate has to have the name of its host, and is asked for where this
     * side connects.
     */
    public Lines(String name, SSLContext tls) throws IOException {
        this(name, textOf(name), Tls.of(tls));
    }

    /** The same by TLS of the settings, or else of the virtual machine. */
    static Lines byTls(String name) throws IOException {
        return new Lines(name, textOf(name), new Settings().tlsOfTexts());
    }

    private Lines(String name, String text, Tls tls) throws IOException {
        this.tls = tls;
        traces = Boolean.parseBoolean(Settings.of("mungo.trace", "false"));
        try {
            script = ScriptReader.read(name, text);
        } catch (ScriptReader.Fault fault) {
            throw new IOException(fault.getMessage());
        }
    }

    private static String textOf(String name) throws IOException {
        byte[] bytes;
        Path path = Paths.get(name);
        if (Files.isRegularFile(path)) {
            bytes = Files.readAllBytes(path);
        } else {
            bytes = resource(name);
        }
        try {
            return Texts.decoded(bytes, StandardCharsets.UTF_8);
        } catch (CharacterCodingException wrong) {
            throw new IOException(name + " isn't in UTF-8");
        }
    }

    private static byte[] resource(String name) throws IOException {
        ClassLoader own = Thread.currentThread().getContextClassLoader();
        ClassLoader loader = own == null ? ClassLoader.getSystemClassLoader() : own;
        try (InputStream in = loader.getResourceAsStream(name)) {
            if (in == null) {
                throw new IOException("no file and no resource " + name);
            }
            ByteArrayOutputStream all = new ByteArrayOutputStream();
            byte[] piece = new byte[8192];
            for (int count = in.read(piece); count >= 0; count = in.read(piece)) {
                all.write(piece, 0, count);
            }
            return all.toByteArray();
        }
    }

    @Override
    public void open(InetSocketAddress at, long deadline) throws IOException {
        address = at;
        connection = script.listens ? Connection.at(at, deadline) : Connection.to(at, deadline);
        if (tls != null) {
            SSLEngine engine = script.listens ? tls.answers(false) : tls.calls(at.getHostString(), at.getPort());
            try {
                connection.seal(engine, deadline);
            } catch (IOException fault) {
                connection.close();
                throw fault;
            }
        }
    }

    @Override
    public void close() {
        if (connection != null) {
            connection.close();
        }
    }

    // What is sent.

    @Override
    public void send(String label, Object value) throws IOException, Unfit, Mismatch {
        Script.Sent rule = script.sent.get(label);
        if (rule == null || rule.kind.value != (value == null ? Void.class : value.getClass())) {
            throw new Unfit(script.name + " has no lines for this message");
        }
        String text = value == null ? "" : value.toString();
        if (rule.fits != null && !fits(rule.fits, text)) {
            throw new Unfit("the value " + Texts.quoted(text) + " doesn't fit the pattern " + rule.fits);
        }
        List<byte[]> parts = new ArrayList<>();
        for (Script.Exchange exchange : rule.exchanges) {
            parts.add(LineWriter.bytes(script, exchange.parts, text));
        }
        if (rule.anew && last != null) {
            close();
            open(address, Connection.in(script.limit));
        }
        last = label;
        for (int at = 0; at < parts.size(); at++) {
            write(parts.get(at));
            Script.Received answer = rule.exchanges.get(at).answer;
            if (!answer.items.isEmpty()) {
                read(Collections.singletonList(answer));
            }
        }
    }

    /** Whether a value fits a pattern; one that is too long for it, or takes too long, doesn't. */
    private boolean fits(Pattern pattern, String text) {
        try {
            return Walk.match(pattern, text, Connection.in(script.limit)) != null;
        } catch (Walk.TooSlow | StackOverflowError hard) {
            return false;
        }
    }

    /** Writes bytes. A peer that doesn't take them within the limit has ended, which the next read tells. */
    private void write(byte[] bytes) throws IOException {
        trace("> ", bytes);
        try {
            connection.write(bytes, Connection.in(script.limit));
        } catch (SocketTimeoutException full) {
            throw new SocketTimeoutException("it hasn't taken the message within " + script.limit + " seconds");
        } catch (InterruptedIOException stopped) {
            throw stopped;
        } catch (IOException gone) {
            // What the peer has said before is still to be read.
        }
    }

    // What is received.

    @Override
    public Message receive() throws IOException, Mismatch {
        if (ready.isEmpty()) {
            List<Script.Received> rules = new ArrayList<>();
            for (Script.Received rule : script.received) {
                if (rule.mayFollow(last)) {
                    rules.add(rule);
                }
            }
            Walk walk = read(rules);
            ready.addAll(walk.messages());
            if (!walk.rule.answer.isEmpty()) {
                answer(walk.rule.answer);
            }
        }
        Message message = ready.remove();
        last = message.label;
        return message;
    }

    private void answer(List<Script.Part> parts) throws IOException, Mismatch {
        try {
            write(LineWriter.bytes(script, parts, ""));
        } catch (Unfit unfit) {
            throw new Mismatch("\"\"", "the answer can't be sent: " + unfit.getMessage());
        }
    }

    /** Reads up to the end of the only rule that what is received fits. */
    private Walk read(List<Script.Received> rules) throws IOException, Mismatch {
        LineReader reader = new LineReader(script, connection, bytes -> trace("< ", bytes));
        try {
            List<Walk> walks = new ArrayList<>();
            rules.forEach(rule -> walks.add(new Walk(rule, reader)));
            while (true) {
                goOn(walks, reader);
                for (Walk walk : walks) {
                    if (walk.isComplete()) {
                        return sole(walks, reader);
                    }
                }
            }
        } catch (SocketTimeoutException | Walk.TooSlow late) {
            throw new SocketTimeoutException("no message within " + script.limit + " seconds"
                    + (reader.isFresh() ? "" : ", but " + reader.shown()));
        } catch (EOFException ended) {
            if (reader.isFresh()) {
                throw ended;
            }
            throw reader.wrong("the peer ended within a message");
        }
    }

    /** Goes on by a block or by a line, and leaves those that it fits. */
    private void goOn(List<Walk> walks, LineReader reader) throws IOException, Mismatch {
        boolean block = false;
        for (Walk walk : walks) {
            block |= walk.isAtBlock();
        }
        if (block) {
            sole(walks, reader).read();
            return;
        }
        String line = reader.line();
        List<Walk> still = new ArrayList<>();
        for (Walk walk : walks) {
            if (walk.takes(line)) {
                still.add(walk);
            }
        }
        walks.retainAll(still);
        if (walks.isEmpty()) {
            throw reader.wrong("it fits no message" + (last == null ? "" : " after " + last));
        }
    }

    private Walk sole(List<Walk> walks, LineReader reader) throws Mismatch {
        if (walks.size() > 1) {
            throw reader.wrong("it fits " + walks.get(0).rule + " of line " + walks.get(0).rule.line
                    + " and " + walks.get(1).rule + " of line " + walks.get(1).rule.line + " of " + script.name);
        }
        return walks.get(0);
    }

    private void trace(String sign, byte[] bytes) {
        if (traces) {
            System.err.println(sign + Texts.quoted(new String(bytes, StandardCharsets.ISO_8859_1)));
        }
    }

    /** Judges a wire file alone, or with the local protocol P of a role and the name of its peer. */
    public static void main(String[] words) {
        if (words.length != 1 && words.length != 3) {
            System.err.println("usage: java mungo.lib.Lines WIRE [PROTOCOL PEER]");
            System.exit(2);
        }
        try {
            Lines wire = new Lines(words[0]);
            if (words.length == 3) {
                List<String> missing = Coverage.missing(wire.script, textOf(words[1]), words[2]);
                missing.forEach(line -> System.err.println(words[0] + ": no lines for " + line));
                System.exit(missing.isEmpty() ? 0 : 1);
            }
        } catch (IOException fault) {
            System.err.println(Texts.reason(fault));
            System.exit(1);
        }
    }
}
