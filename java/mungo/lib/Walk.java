package mungo.lib;

import java.io.IOException;
import java.util.ArrayList;
import java.util.List;
import java.util.regex.Matcher;
import java.util.regex.Pattern;

/** How far what has been received goes along a message of a wire file. */
final class Walk {
    final Script.Received rule;
    private final LineReader reader;

    /** What the groups have found, each null at first. */
    private final List<StringBuilder> groups = new ArrayList<>();

    /** The size that was told, or -1. */
    private int size = -1;

    /** The item at which the walk is. */
    private int at;

    Walk(Script.Received rule, LineReader reader) {
        this.rule = rule;
        this.reader = reader;
        rule.items.forEach(item -> {
            for (int k = 0; k < item.groups; k++) {
                groups.add(null);
            }
        });
    }

    /** A pattern takes longer than the message may. */
    static final class TooSlow extends RuntimeException {
        private static final long serialVersionUID = 1;

        TooSlow() {
            super(null, null, false, false);
        }
    }

    boolean isComplete() {
        return at == rule.items.size();
    }

    /** Whether a block of lines or of bytes comes next. */
    boolean isAtBlock() {
        return !isComplete() && item().isBlock();
    }

    private Script.Item item() {
        return rule.items.get(at);
    }

    /** Goes on over a line, where it fits: behind lines of any number rather than along them. */
    boolean takes(String line) throws Wire.Mismatch {
        Script.Item item = item();
        if (item.step == Script.Step.LINES) {
            at++;
            if (takes(line)) {
                return true;
            }
            at--;
        }
        Matcher matcher = fitting(item.pattern, line);
        if (matcher == null) {
            return false;
        }
        if (item.size) {
            if (matcher.group("size") != null) {
                tell(matcher.group("size"));
            }
        } else {
            for (int k = 1; k <= item.groups; k++) {
                put(groupsBefore() + k - 1, matcher.group(k) == null ? "" : matcher.group(k));
            }
        }
        if (item.step == Script.Step.LINE) {
            at++;
        }
        return true;
    }

    /** The match of a whole line, or null. */
    private Matcher fitting(Pattern pattern, String line) throws Wire.Mismatch {
        try {
            return match(pattern, line, reader.until);
        } catch (StackOverflowError deep) {
            throw reader.wrong("it is too long for the pattern " + pattern);
        }
    }

    /** The match of a whole text, or null. Throws TooSlow where it isn't found up to a moment. */
    static Matcher match(Pattern pattern, String text, long until) {
        Matcher matcher = pattern.matcher(new Limited(text, until));
        return matcher.matches() ? matcher : null;
    }

    private void tell(String text) throws Wire.Mismatch {
        int told;
        try {
            told = Integer.parseInt(text);
        } catch (NumberFormatException wrong) {
            told = -1;
        }
        if (told < 0 || size >= 0 && size != told) {
            throw reader.wrong("the size " + Texts.quoted(text)
                    + " isn't one, is too large, or isn't the first one that is told");
        }
        size = told;
    }

    private int groupsBefore() {
        int before = 0;
        for (Script.Item item : rule.items.subList(0, at)) {
            before += item.groups;
        }
        return before;
    }

    private void put(int group, String text) {
        if (groups.get(group) == null) {
            groups.set(group, new StringBuilder(text));
        } else {
            groups.get(group).append('\n').append(text);
        }
    }

    /** Reads a block of lines or of bytes. */
    void read() throws IOException, Wire.Mismatch {
        Script.Item item = item();
        String text = item.step == Script.Step.TEXT ? lines() : bytes(item.ended);
        if (item.groups == 1) {
            put(groupsBefore(), text);
        }
        at++;
    }

    private String lines() throws IOException, Wire.Mismatch {
        StringBuilder text = new StringBuilder();
        String line = reader.line();
        for (String before = ""; !line.equals("."); before = "\n") {
            text.append(before).append(line.startsWith(".") ? line.substring(1) : line);
            line = reader.line();
        }
        return text.toString();
    }

    private String bytes(boolean ended) throws IOException, Wire.Mismatch {
        if (size < 0) {
            throw reader.wrong("no size was told");
        }
        String text = reader.bytes(size);
        if (ended && !reader.line().isEmpty()) {
            throw reader.wrong("more bytes than were told");
        }
        return text;
    }

    /** Its messages, of which each takes the next group where it has a value. */
    List<Wire.Message> messages() throws Wire.Mismatch {
        List<Wire.Message> messages = new ArrayList<>();
        int group = 0;
        for (Script.Kind kind : rule.kinds) {
            Object value = null;
            if (kind.value != Void.class) {
                StringBuilder text = groups.get(group++);
                value = value(kind, text == null ? "" : text.toString());
            }
            messages.add(new Wire.Message(kind.label, value, reader.shown()));
        }
        return messages;
    }

    private Object value(Script.Kind kind, String text) throws Wire.Mismatch {
        if (kind.value == String.class) {
            return text;
        }
        if (kind.value == Boolean.class && (text.equals("true") || text.equals("false"))) {
            return text.equals("true");
        }
        try {
            if (kind.value == Integer.class && text.matches("[+-]?[0-9]+")) {
                return Integer.parseInt(text);
            }
        } catch (NumberFormatException tooLarge) {
            // said below
        }
        throw reader.wrong(Texts.quoted(text) + " is no value of " + kind);
    }

    /** A text that a pattern is tried on as long as there is time. */
    private static final class Limited implements CharSequence {
        private static final int OFTEN = 0xffff;

        private final CharSequence text;
        private final long until;
        private int count;

        Limited(CharSequence text, long until) {
            this.text = text;
            this.until = until;
        }

        @Override
        public char charAt(int at) {
            if ((++count & OFTEN) == 0 && System.nanoTime() - until > 0) {
                throw new TooSlow();
            }
            return text.charAt(at);
        }

        @Override
        public int length() {
            return text.length();
        }

        @Override
        public CharSequence subSequence(int begin, int end) {
            return text.subSequence(begin, end);
        }

        @Override
        public String toString() {
            return text.toString();
        }
    }
}
