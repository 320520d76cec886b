package mungo.lib;

import java.io.ByteArrayOutputStream;
import java.io.DataOutputStream;
import java.io.EOFException;
import java.io.IOException;
import java.nio.ByteBuffer;
import java.nio.charset.CharacterCodingException;
import java.nio.charset.StandardCharsets;

/**
 * Messages as bytes, as roles of mungo send them to each other: the label, a letter for the kind of the value, and the
 * value; a text has its length in four bytes before it.
 */
public final class Codec {
    private static final int LONGEST_LABEL = 255;

    /** The most bytes of a text. */
    static final int LONGEST_TEXT = 1 << 24;

    /** What bytes are read from. */
    interface Source {
        /** So many bytes. Throws EOFException where they end before. */
        byte[] next(int count) throws IOException;
    }

    private Codec() {}

    /** The bytes of a message. Throws Unfit where a text is too long, or can't be written in UTF-8. */
    public static byte[] bytes(String label, Object value) throws Wire.Unfit {
        ByteArrayOutputStream bytes = new ByteArrayOutputStream();
        DataOutputStream out = new DataOutputStream(bytes);
        try {
            put(out, label, LONGEST_LABEL);
            if (value == null) {
                out.writeByte('-');
            } else if (value instanceof Integer) {
                out.writeByte('I');
                out.writeInt((Integer) value);
            } else if (value instanceof Boolean) {
                out.writeByte('Z');
                out.writeBoolean((Boolean) value);
            } else {
                out.writeByte('S');
                put(out, (String) value, LONGEST_TEXT);
            }
        } catch (IOException none) {
            throw new IllegalStateException("an array takes all bytes", none);
        }
        return bytes.toByteArray();
    }

    private static void put(DataOutputStream out, String text, int longest) throws IOException, Wire.Unfit {
        byte[] bytes;
        try {
            bytes = Texts.encoded(text, StandardCharsets.UTF_8);
        } catch (CharacterCodingException half) {
            throw new Wire.Unfit("the text " + Texts.quoted(text) + " can't be written in UTF-8");
        }
        if (bytes.length > longest) {
            throw new Wire.Unfit("the text has " + bytes.length + " bytes, and may have " + longest);
        }
        out.writeInt(bytes.length);
        out.write(bytes);
    }

    /** The message that these bytes are. Throws Mismatch where they are none, or more. */
    public static Wire.Message message(byte[] bytes) throws Wire.Mismatch {
        ByteBuffer rest = ByteBuffer.wrap(bytes);
        try {
            Wire.Message message = read(count -> {
                if (count > rest.remaining()) {
                    throw new EOFException();
                }
                byte[] piece = new byte[count];
                rest.get(piece);
                return piece;
            });
            if (rest.hasRemaining()) {
                throw new Wire.Mismatch(Texts.quoted(message.label), rest.remaining() + " bytes behind a message");
            }
            return message;
        } catch (EOFException empty) {
            throw new Wire.Mismatch("\"\"", "nothing, which is no message");
        } catch (IOException none) {
            throw new IllegalStateException("an array gives all bytes", none);
        }
    }

    /** The next message. Throws EOFException where the bytes have ended before it, and Mismatch where they do within. */
    static Wire.Message read(Source source) throws IOException, Wire.Mismatch {
        byte first = source.next(1)[0];
        String label = "";
        try {
            byte[] rest = source.next(3);
            label = text(source, ByteBuffer.allocate(4).put(first).put(rest).getInt(0), LONGEST_LABEL, label);
            return new Wire.Message(label, value(source, label), null);
        } catch (EOFException ended) {
            throw new Wire.Mismatch(Texts.quoted(label), "the peer ended within a message");
        }
    }

    private static Object value(Source source, String label) throws IOException, Wire.Mismatch {
        byte kind = source.next(1)[0];
        switch (kind) {
            case '-':
                return null;
            case 'I':
                return number(source);
            case 'Z':
                return source.next(1)[0] != 0;
            case 'S':
                return text(source, number(source), LONGEST_TEXT, label);
            default:
                throw new Wire.Mismatch(Texts.quoted(label), "a value of the kind " + (kind & 0xff));
        }
    }

    private static int number(Source source) throws IOException {
        return ByteBuffer.wrap(source.next(4)).getInt();
    }

    private static String text(Source source, int length, int longest, String label) throws IOException, Wire.Mismatch {
        if (length < 0 || length > longest) {
            throw new Wire.Mismatch(Texts.quoted(label), "a text of " + length + " bytes, and it may have " + longest);
        }
        try {
            return Texts.decoded(source.next(length), StandardCharsets.UTF_8);
        } catch (CharacterCodingException wrong) {
            throw new Wire.Mismatch(Texts.quoted(label), "a text that isn't in UTF-8");
        }
    }
}
