package mungo.lib;

import java.io.ByteArrayOutputStream;
import java.nio.charset.CharacterCodingException;
import java.util.List;

/**
 * Makes the bytes of lines that are sent. A value can't end the line in which it stands, and so can't begin another.
 */
final class LineWriter {
    private LineWriter() {}

    /** The bytes of these parts with this value in its places. */
    static byte[] bytes(Script script, List<Script.Part> parts, String value) throws Wire.Unfit {
        ByteArrayOutputStream bytes = new ByteArrayOutputStream();
        for (Script.Part part : parts) {
            byte[] made = bytes(script, part, value);
            bytes.write(made, 0, made.length);
        }
        return bytes.toByteArray();
    }

    private static byte[] bytes(Script script, Script.Part part, String value) throws Wire.Unfit {
        String end = script.crlf ? "\r\n" : "\n";
        switch (part.slot) {
            case LITERAL:
                return encoded(script, part.text);
            case END:
                return encoded(script, end);
            case SIZE:
                return encoded(script, String.valueOf(encoded(script, value).length));
            case BYTES:
                return encoded(script, value);
            case VALUE:
                return encoded(script, inLine(value));
            case DOTTED:
                return encoded(script, dotted(inLine(value)));
            default:
                return encoded(script, text(value, end));
        }
    }

    /**
     * The lines of a text, and a line with a dot, which isn't ended yet. A line feed at the end begins no other line.
     */
    private static String text(String value, String end) throws Wire.Unfit {
        StringBuilder lines = new StringBuilder();
        int begin = 0;
        while (begin < value.length()) {
            int feed = value.indexOf('\n', begin);
            int stop = feed < 0 ? value.length() : feed;
            lines.append(dotted(inLine(value.substring(begin, stop)))).append(end);
            begin = stop + 1;
        }
        return lines + ".";
    }

    private static String dotted(String line) {
        return line.startsWith(".") ? "." + line : line;
    }

    /** A text that stands in a line: it has no control character but tabs. */
    private static String inLine(String text) throws Wire.Unfit {
        for (int at = 0; at < text.length(); at++) {
            char letter = text.charAt(at);
            if (letter < ' ' && letter != '\t' || letter >= 127 && letter < 160) {
                throw new Wire.Unfit("the value " + Texts.quoted(text) + " doesn't fit into a line");
            }
        }
        return text;
    }

    private static byte[] encoded(Script script, String text) throws Wire.Unfit {
        try {
            return Texts.encoded(text, script.charset);
        } catch (CharacterCodingException unwritable) {
            throw new Wire.Unfit("the value " + Texts.quoted(text) + " can't be written in " + script.charset);
        }
    }
}
