package mungo.lib;

import java.nio.ByteBuffer;
import java.nio.CharBuffer;
import java.nio.charset.CharacterCodingException;
import java.nio.charset.Charset;

/** Texts as bytes, and as they stand in lines on a terminal. */
final class Texts {
    private static final int LONGEST_SHOWN = 200;

    private Texts() {}

    /** The text of bytes, which have to be in the charset. */
    static String decoded(byte[] bytes, Charset charset) throws CharacterCodingException {
        return charset.newDecoder().decode(ByteBuffer.wrap(bytes)).toString();
    }

    /** The bytes of a text, all of whose letters the charset has to have. */
    static byte[] encoded(String text, Charset charset) throws CharacterCodingException {
        ByteBuffer bytes = charset.newEncoder().encode(CharBuffer.wrap(text));
        byte[] made = new byte[bytes.remaining()];
        bytes.get(made);
        return made;
    }

    /** A name or a label in one line: with `\xHH` for a letter that a terminal would obey. */
    static String name(String text) {
        StringBuilder shown = new StringBuilder();
        for (int at = 0; at < text.length(); at++) {
            put(shown, text.charAt(at));
        }
        return shown.toString();
    }

    /** A text in quotes and in one line, of printable letters of ASCII, and not too long. */
    static String quoted(String text) {
        StringBuilder shown = new StringBuilder("\"");
        for (int at = 0; at < text.length() && at < LONGEST_SHOWN; at++) {
            char letter = text.charAt(at);
            if (letter == '"' || letter == '\\') {
                shown.append('\\').append(letter);
            } else if (letter > 159) {
                shown.append(String.format("\\u%04x", (int) letter));
            } else {
                put(shown, letter);
            }
        }
        return shown.append(text.length() > LONGEST_SHOWN ? "\".." : "\"").toString();
    }

    /** What an exception says, or else what it is. */
    static String reason(Throwable fault) {
        return name(fault.getMessage() == null ? fault.getClass().getSimpleName() : fault.getMessage());
    }

    private static void put(StringBuilder shown, char letter) {
        if (letter < ' ' || letter >= 127 && letter < 160) {
            shown.append(String.format("\\x%02x", (int) letter));
        } else {
            shown.append(letter);
        }
    }
}
