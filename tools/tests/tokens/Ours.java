import java.nio.ByteBuffer;
import java.nio.CharBuffer;
import java.nio.charset.CharsetDecoder;
import java.nio.charset.CoderResult;
import java.nio.charset.CodingErrorAction;
import java.nio.charset.StandardCharsets;
import java.util.ArrayList;
import java.util.Arrays;
import java.util.HashSet;
import java.util.List;
import java.util.Set;

/** The tokens of a source, or the first fault in its bytes, by what docs/LANGUAGE.md says of Java sources. */
final class Ours {
    static final Set<String> FAULTS = Set.of("BadByte", "OpenComment", "OpenText", "BadEscape", "BadNumber");
    private static final Set<String> RESERVED = new HashSet<>(Arrays.asList((
            "boolean break case class continue default do else enum final if import int new package private protected public "
            + "return static switch this void while true false null abstract assert byte catch char const double extends "
            + "finally float for goto implements instanceof interface long native short strictfp super synchronized throw "
            + "throws transient try volatile").split(" ")));
    private static final Set<String> SIGNS = new HashSet<>(Arrays.asList((
            "{ } ( ) [ ] ; , . = == != < <= > >= + - * / % ++ -- += -= *= /= %= ! && || : @ ? & | ^ ~").split(" ")));
    private static final String ESCAPED = "btnfr\"'\\";
    private static final String MEANT = "\b\t\n\f\r\"'\\";

    final List<Tokens.Token> tokens = new ArrayList<>();
    /** The fault, if there is one, and where it is. */
    String fault;
    int at;

    private final byte[] source;
    private int here;

    Ours(byte[] source) {
        this.source = source;
        while (fault == null && here < source.length) {
            piece();
        }
        int ill = illFormed();
        if (ill < source.length && (fault == null || ill < at)) {
            refuse("BadByte", ill);
        }
    }

    private void refuse(String name, int offset) {
        fault = name;
        at = offset;
    }

    private int byteAt(int offset) {
        return offset < source.length ? source[offset] & 0xff : -1;
    }

    private String text(int start, int end) {
        return new String(source, start, end - start, StandardCharsets.UTF_8);
    }

    private static boolean isBlank(int b) {
        return b == ' ' || b == '\t' || b == '\n' || b == '\r' || b == '\f';
    }

    private static boolean isDigit(int b) {
        return '0' <= b && b <= '9';
    }

    private static boolean isInWord(int b) {
        return 'a' <= b && b <= 'z' || 'A' <= b && b <= 'Z' || b == '_' || b == '$' || isDigit(b);
    }

    private boolean isLineEnd(int offset) {
        int b = byteAt(offset);
        return b == '\n' || b == '\r' || b == -1;
    }

    /** How many bytes the source has before those that are no UTF-8. */
    private int illFormed() {
        CharsetDecoder decoder = StandardCharsets.UTF_8.newDecoder()
                .onMalformedInput(CodingErrorAction.REPORT).onUnmappableCharacter(CodingErrorAction.REPORT);
        ByteBuffer in = ByteBuffer.wrap(source);
        CoderResult result = decoder.decode(in, CharBuffer.allocate(source.length + 1), true);
        return result.isError() ? in.position() : source.length;
    }

    private void piece() {
        int b = byteAt(here);
        if (isBlank(b)) {
            here++;
        } else if (isDigit(b)) {
            number();
        } else if (isInWord(b)) {
            word();
        } else if (b == '"') {
            quoted();
        } else if (b == '/' && byteAt(here + 1) == '/') {
            int end = here + 2;
            while (!isLineEnd(end)) {
                end++;
            }
            comment(end, end);
        } else if (b == '/' && byteAt(here + 1) == '*') {
            int end = here + 2;
            while (end < source.length && !(byteAt(end) == '*' && byteAt(end + 1) == '/')) {
                end++;
            }
            if (end == source.length) {
                refuse("OpenComment", here);
            } else {
                comment(end, end + 2);
            }
        } else {
            sign();
        }
    }

    /** A comment with a body to this offset: a backslash with an even number of them before it stands before no "u". */
    private void comment(int bodyEnd, int end) {
        int backslashes = 0;
        for (int n = here + 2; n < bodyEnd; n++) {
            if (byteAt(n) == 'u' && backslashes % 2 == 1) {
                refuse("BadByte", n - 1);
                return;
            }
            backslashes = byteAt(n) == '\\' ? backslashes + 1 : 0;
        }
        here = end;
    }

    private void add(int end, String kind, String text) {
        tokens.add(new Tokens.Token(here, end, kind, text));
        here = end;
    }

    private void word() {
        int end = here;
        while (isInWord(byteAt(end))) {
            end++;
        }
        String word = text(here, end);
        add(end, RESERVED.contains(word) ? "reserved" : "name", word);
    }

    private void number() {
        int end = here;
        while (isDigit(byteAt(end))) {
            end++;
        }
        String digits = text(here, end);
        boolean isLarge = digits.length() > 10 || Long.parseLong(digits) > 2147483648L;
        if (isLarge || digits.length() > 1 && digits.startsWith("0") || isInWord(byteAt(end)) || byteAt(end) == '.') {
            refuse("BadNumber", here);
        } else {
            add(end, "number", digits);
        }
    }

    private void quoted() {
        StringBuilder meant = new StringBuilder();
        int bad = -1;
        int plain = here + 1;
        int end = here + 1;
        while (!isLineEnd(end) && byteAt(end) != '"') {
            if (byteAt(end) != '\\') {
                end++;
                continue;
            }
            if (isLineEnd(end + 1)) {
                break;
            }
            int escape = ESCAPED.indexOf(byteAt(end + 1));
            bad = escape < 0 && bad < 0 ? end : bad;
            meant.append(text(plain, end)).append(escape < 0 ? '?' : MEANT.charAt(escape));
            end += 2;
            plain = end;
        }
        if (byteAt(end) != '"') {
            refuse("OpenText", here);
        } else if (bad >= 0) {
            refuse("BadEscape", bad);
        } else {
            add(end + 1, "text", meant + text(plain, end));
        }
    }

    private void sign() {
        if (here + 2 <= source.length && SIGNS.contains(text(here, here + 2))) {
            add(here + 2, "sign", text(here, here + 2));
        } else if (SIGNS.contains(text(here, here + 1))) {
            add(here + 1, "sign", text(here, here + 1));
        } else {
            refuse("BadByte", here);
        }
    }
}
