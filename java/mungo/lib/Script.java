package mungo.lib;

import java.nio.charset.Charset;
import java.nio.charset.StandardCharsets;
import java.util.ArrayList;
import java.util.LinkedHashMap;
import java.util.List;
import java.util.Map;
import java.util.regex.Pattern;

/** What a wire file says: how each message of a peer looks as lines of text. ScriptReader reads it. */
final class Script {
    /** The name of the file, for a reader. */
    final String name;

    Charset charset = StandardCharsets.UTF_8;

    /** Whether lines end with a carriage return and a line feed. */
    boolean crlf = true;

    /** Seconds that a message may take. */
    int limit = 30;

    /** The most bytes of a message that is received. */
    int longest = 1 << 20;

    /** Whether the peer connects to the role. */
    boolean listens;

    /** What is sent, by labels, and what is received, in the order of the file. */
    final Map<String, Sent> sent = new LinkedHashMap<>();
    final List<Received> received = new ArrayList<>();

    Script(String name) {
        this.name = name;
    }

    /** A label and the class of its value, which is Void where it has none. */
    static final class Kind {
        final String label;
        final Class<?> value;

        /** A kind by its label and the type of its value as it is written, which is empty where it has none. */
        Kind(String label, String type) {
            this.label = label;
            value = type.isEmpty() ? Void.class
                    : type.equals("int") ? Integer.class : type.equals("boolean") ? Boolean.class : String.class;
        }

        @Override
        public String toString() {
            String type = value == Void.class ? "" : value == Integer.class ? "int"
                    : value == Boolean.class ? "boolean" : "String";
            return label + "(" + type + ")";
        }
    }

    /**
     * What stands in the lines of a message that is sent: a text as it is, the end of a line, or a place for the value.
     */
    enum Slot { LITERAL, END, VALUE, SIZE, BYTES, DOTTED, TEXT }

    static final class Part {
        final Slot slot;
        final String text;

        Part(Slot slot, String text) {
            this.slot = slot;
            this.text = text;
        }

        boolean isPlace() {
            return slot != Slot.LITERAL && slot != Slot.END;
        }
    }

    /** A message that is sent. */
    static final class Sent {
        final Kind kind;
        final boolean anew;
        final List<Exchange> exchanges = new ArrayList<>();

        /** What the value has to fit, or null. */
        Pattern fits;

        Sent(Kind kind, boolean anew) {
            this.kind = kind;
            this.anew = anew;
        }
    }

    /** Lines that are sent, and behind them lines that are awaited and are no message. */
    static final class Exchange {
        final List<Part> parts = new ArrayList<>();
        final Received answer;

        Exchange(int line) {
            answer = new Received(new ArrayList<>(), false, new ArrayList<>(), line);
        }
    }

    /** What is received: a line, any number of lines, lines up to a dot, or as many bytes as were told. */
    enum Step { LINE, LINES, TEXT, BYTES }

    static final class Item {
        final Step step;

        /** What a line has to fit; null for a block. */
        final Pattern pattern;

        /** Whether the group of the line tells the size of the bytes that follow. */
        final boolean size;

        /** How many groups are values. */
        final int groups;

        /** Whether a line ends behind a block of bytes. */
        final boolean ended;

        Item(Step step, Pattern pattern, boolean size, int groups, boolean ended) {
            this.step = step;
            this.pattern = pattern;
            this.size = size;
            this.groups = groups;
            this.ended = ended;
        }

        boolean isBlock() {
            return step == Step.TEXT || step == Step.BYTES;
        }
    }

    /** Messages that are received as the lines `items`, which are answered at once by the lines `answer`. */
    static final class Received {
        final List<Kind> kinds;
        final boolean first;
        final List<String> after;
        final List<Item> items = new ArrayList<>();
        final List<Part> answer = new ArrayList<>();

        /** The line of the file in which it begins. */
        final int line;

        Received(List<Kind> kinds, boolean first, List<String> after, int line) {
            this.kinds = kinds;
            this.first = first;
            this.after = after;
            this.line = line;
        }

        /** Whether it may come where the message before has this label, or is null as there was none. */
        boolean mayFollow(String last) {
            return first ? last == null : after.isEmpty() || after.contains(last);
        }

        @Override
        public String toString() {
            StringBuilder text = new StringBuilder();
            kinds.forEach(kind -> text.append(text.length() == 0 ? "" : ", ").append(kind));
            return kinds.isEmpty() ? "what is awaited" : text.toString();
        }
    }
}
