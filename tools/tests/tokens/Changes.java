import java.io.ByteArrayOutputStream;
import java.nio.charset.StandardCharsets;
import java.util.Arrays;
import java.util.List;
import java.util.Random;

/** Sources that are changed at random. */
final class Changes {
    private static final String[] BLANKS = {" ", "\t", "\n", "\r", "\r\n", "\f", "  \n"};
    private static final String[] LINE_ENDS = {"\n", "\r", "\r\n", "\n\r"};
    /** What a comment may hold. */
    private static final String[] IN_COMMENTS = {
        "a", " ", "done ", "*", "/", "\\ ", "\\\\", "\\n", "é", "€", "😀", "\"", "'", "//", "/*", ";", "}", "System.out.println(7);",
        "\0", "\u0007", "\u001a", "\u000b", "\f", "\u007f", "\u0085", "\u2028", "\ufeff", "\\\\u000a", "\\\\u002a/", "\\U000a",
    };
    /** What ends a line or a comment, or begins an escape of Unicode. */
    private static final String[] ODD_IN_COMMENTS = {
        "\r", "\n", "*/", "\\", "u", "u000a", "\\u000a", "\\u000d", "\\\\\\u000a", "\\uuu000a", "\\u002a/", "\\u0041", "\\ux",
    };
    private static final String[] IN_TEXTS = {
        "a", " ", "é", "😀", "\\n", "\\t", "\\\\", "\\\"", "\\'", "\\b", "\\f", "\\r", "'", "//", "/*", "*/", "\u0085", "\u2028", "\\\\u0041",
    };
    private static final String[] ODD_IN_TEXTS = {
        "\\u0022", "\\\\\\u0022", "\\s", "\\0", "\\7", "\r", "\n", "\\\n", "\\\r", "\u001a", "\0", "\"", "\\",
    };
    private static final String[] STRAY = {
        "//", "/*", "*/", "/", "*", "\\", "\\u0020", "\\u003b", "\\\\u0020", "\"", "'", "'a'", "\"\"\"", "#", "`", "@", "->", "::", "...", "..",
        ".", ">>", ">>>", ">>=", ">>>=", "<<", "&", "|", "^", "~", "?", "&=", "|=", "^=", "<<=", "+", "++", "--", "=", "==", "!", "é", "ß", "π", "\0",
        "\u001a", "\u000b", "\u007f", "\u00a0", "\u0085", "\u200b", "\u2028", "\ufeff", "$", "_", "x", "var ", "record ", "yield ", "goto ", "1",
        "0", "1.", ".5", "1e3", "0x1", "0b1", "1_0", "1L", "1f", "\r", "\n", "\f", ";", "{", "}", "(", ")", ",",
    };
    private static final String[] NUMBERS = {
        "0", "7", "00", "07", "08", "2147483647", "2147483648", "2147483649", "4294967296", "99999999999999999999", "1_000", "0x10", "0b1", "1L",
        "1.0", "1.", "1e3", "1f", "1d", "12345",
    };

    private Changes() {}

    /** The source with one to three changes. */
    static byte[] of(byte[] source, Random random) {
        byte[] changed = source;
        for (int n = random.nextInt(3); n >= 0; n--) {
            changed = change(changed, random);
        }
        return changed;
    }

    private static byte[] change(byte[] source, Random random) {
        int any = random.nextInt(source.length + 1);
        int end = Math.min(source.length, any + 1 + random.nextInt(4));
        switch (random.nextInt(12)) {
            case 0:
            case 1:
            case 2:
                return with(source, boundary(source, random), gap(random));
            case 3:
            case 4:
            case 5:
                return with(source, behindStatement(source, random), gap(random) + statement(random) + gap(random));
            case 6:
                return with(source, boundary(source, random), pick(STRAY, random));
            case 7:
                return with(source, source.length, gap(random) + (random.nextBoolean() ? "//" + body(random) : ""));
            case 8:
                return number(source, random);
            case 9:
                return replaced(source, any, end, new byte[0]);
            case 10:
                return replaced(source, any, any, Arrays.copyOfRange(source, any, end));
            default:
                return replaced(source, any, any, new byte[] {(byte) random.nextInt(256)});
        }
    }

    private static String pick(String[] choices, Random random) {
        return choices[random.nextInt(choices.length)];
    }

    private static byte[] replaced(byte[] source, int start, int end, byte[] by) {
        ByteArrayOutputStream out = new ByteArrayOutputStream();
        out.write(source, 0, start);
        out.writeBytes(by);
        out.write(source, end, source.length - end);
        return out.toByteArray();
    }

    private static byte[] with(byte[] source, int at, String text) {
        return replaced(source, at, at, text.getBytes(StandardCharsets.UTF_8));
    }

    /** Where a token begins or ends, or any place in a source that has none. */
    private static int boundary(byte[] source, Random random) {
        List<Tokens.Token> tokens = new Ours(source).tokens;
        if (tokens.isEmpty()) {
            return random.nextInt(source.length + 1);
        }
        Tokens.Token token = tokens.get(random.nextInt(tokens.size()));
        return random.nextBoolean() ? token.start() : token.end();
    }

    /** Behind a ";", where mostly a statement may stand. */
    private static int behindStatement(byte[] source, Random random) {
        int[] places = new Ours(source).tokens.stream().filter(token -> token.text().equals(";")).mapToInt(Tokens.Token::end).toArray();
        return places.length == 0 ? source.length : places[random.nextInt(places.length)];
    }

    private static byte[] number(byte[] source, Random random) {
        Tokens.Token[] numbers = new Ours(source).tokens.stream().filter(token -> token.kind().equals("number")).toArray(Tokens.Token[]::new);
        if (numbers.length == 0) {
            return with(source, behindStatement(source, random), "System.out.println(" + pick(NUMBERS, random) + ");");
        }
        Tokens.Token token = numbers[random.nextInt(numbers.length)];
        return replaced(source, token.start(), token.end(), pick(NUMBERS, random).getBytes(StandardCharsets.UTF_8));
    }

    private static String statement(Random random) {
        StringBuilder text = new StringBuilder();
        for (int n = random.nextInt(4); n > 0; n--) {
            text.append(random.nextInt(16) == 0 ? pick(ODD_IN_TEXTS, random) : pick(IN_TEXTS, random));
        }
        return "System.out.println(\"" + text + "\");";
    }

    /** Blanks and comments. */
    private static String gap(Random random) {
        StringBuilder gap = new StringBuilder();
        for (int n = random.nextInt(3); n >= 0; n--) {
            switch (random.nextInt(3)) {
                case 0:
                    gap.append(pick(BLANKS, random));
                    break;
                case 1:
                    gap.append("//").append(body(random)).append(pick(LINE_ENDS, random));
                    break;
                default:
                    gap.append("/*").append(body(random)).append("*/");
            }
        }
        return gap.toString();
    }

    private static String body(Random random) {
        StringBuilder body = new StringBuilder();
        for (int n = random.nextInt(4); n > 0; n--) {
            body.append(random.nextInt(16) == 0 ? pick(ODD_IN_COMMENTS, random) : pick(IN_COMMENTS, random));
        }
        return body.toString();
    }
}
