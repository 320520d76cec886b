package mungo.lib;

import java.io.ByteArrayOutputStream;
import java.io.IOException;
import java.nio.charset.CharacterCodingException;
import java.nio.charset.StandardCharsets;
import java.util.function.Consumer;

/** Reads the lines and bytes of one message, within its limit and up to its longest size. */
final class LineReader {
    private static final int LONGEST_SHOWN = 200;

    /** The moment at which the message has to be there. */
    final long until;

    private final Script script;
    private final Connection connection;
    private final Consumer<byte[]> trace;
    private final StringBuilder shown = new StringBuilder();
    private int room;

    /** A reader of a message that begins to be awaited now. What it reads is told to `trace`. */
    LineReader(Script script, Connection connection, Consumer<byte[]> trace) {
        this.script = script;
        this.connection = connection;
        this.trace = trace;
        until = Connection.in(script.limit);
        room = script.longest;
    }

    /** What has been read, in one line of printable letters. */
    String shown() {
        return Texts.quoted(shown.toString());
    }

    /** Whether nothing has been read. */
    boolean isFresh() {
        return room == script.longest;
    }

    /** What was read is no message. */
    Wire.Mismatch wrong(String why) {
        return new Wire.Mismatch(shown(), why);
    }

    /** A line without its end. */
    String line() throws IOException, Wire.Mismatch {
        ByteArrayOutputStream line = new ByteArrayOutputStream();
        boolean returned = false;
        byte next = next();
        while (next != '\n') {
            if (returned) {
                throw wrong("a line has a carriage return inside");
            }
            returned = script.crlf && next == '\r';
            if (!returned) {
                line.write(next);
            }
            next = next();
        }
        trace.accept(line.toByteArray());
        String text = text(line.toByteArray());
        if (shown.length() <= LONGEST_SHOWN) {
            shown.append(shown.length() == 0 ? "" : "\n").append(text);
        }
        if (script.crlf && !returned) {
            throw wrong("a line ends without a carriage return");
        }
        return text;
    }

    /** A text of so many bytes. */
    String bytes(int size) throws IOException, Wire.Mismatch {
        if (size > room) {
            throw tooLong();
        }
        room -= size;
        byte[] bytes = connection.read(size, until);
        trace.accept(bytes);
        return text(bytes);
    }

    private byte next() throws IOException, Wire.Mismatch {
        byte next = connection.readByte(until);
        if (--room < 0) {
            throw tooLong();
        }
        return next;
    }

    private Wire.Mismatch tooLong() {
        return wrong("it has more than " + script.longest + " bytes");
    }

    private String text(byte[] bytes) throws Wire.Mismatch {
        try {
            return Texts.decoded(bytes, script.charset);
        } catch (CharacterCodingException wrong) {
            String read = new String(bytes, StandardCharsets.ISO_8859_1);
            throw wrong("it isn't in " + script.charset + ": " + Texts.quoted(read));
        }
    }
}
