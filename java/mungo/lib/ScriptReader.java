package mungo.lib;

import java.nio.charset.Charset;
import java.nio.charset.StandardCharsets;
import java.util.ArrayList;
import java.util.HashSet;
import java.util.List;
import java.util.Set;
import java.util.regex.Matcher;
import java.util.regex.Pattern;
import java.util.regex.PatternSyntaxException;

/** Reads a wire file. */
final class ScriptReader {
    private static final Pattern SETTING = Pattern.compile("(charset|end|limit|longest|listen)(?: +(\\S+))?");
    private static final Pattern HEADER =
            Pattern.compile("([A-Za-z0-9_]+ *\\(.*?\\)(?: *, *[A-Za-z0-9_]+ *\\(.*?\\))*)"
                    + "(?: +(first|anew|after +(.+)))?");
    private static final Pattern MESSAGE = Pattern.compile("([A-Za-z0-9_]+) *\\( *(|int|boolean|String) *\\)");
    private static final Pattern BLOCK = Pattern.compile("(\\(?)\\{(text|bytes)\\}(\\)?)(\\\\?)");
    private static final int MOST_SECONDS = 86_400;
    private static final int MOST_BYTES = 1 << 30;

    private final Script script;
    private final String[] lines;

    /** The number of the line that is read, from 1. */
    private int number;

    /** What a wire file has wrong: `FILE:LINE: WHY`. */
    static final class Fault extends Exception {
        private static final long serialVersionUID = 1;

        Fault(String why) {
            super(why);
        }
    }

    private ScriptReader(String name, String text) {
        script = new Script(name);
        lines = text.split("\r?\n", -1);
    }

    /** What a file of this name and text says. */
    static Script read(String name, String text) throws Fault {
        ScriptReader reader = new ScriptReader(name, text);
        while (reader.number < reader.lines.length) {
            reader.entry(reader.lines[reader.number++]);
        }
        reader.judgeLabels();
        return reader.script;
    }

    private Fault fault(String why) {
        return new Fault(script.name + ":" + number + ": " + why);
    }

    /** Reads a setting, or a rule with the lines behind its head. */
    private void entry(String line) throws Fault {
        if (line.trim().isEmpty() || line.startsWith("#")) {
            return;
        }
        Matcher setting = SETTING.matcher(line.trim());
        if (setting.matches()) {
            set(setting.group(1), setting.group(2));
            return;
        }
        Matcher header = HEADER.matcher(line.trim());
        if (!header.matches()) {
            throw fault("neither a setting nor a message: " + line.trim());
        }
        if (!hasBody()) {
            throw fault(line.trim() + " has no lines");
        }
        List<Script.Kind> kinds = kinds(header.group(1));
        String when = header.group(2) == null ? "" : header.group(2);
        if (lines[number].startsWith("<")) {
            received(kinds, when, header.group(3));
        } else {
            sent(kinds, when);
        }
    }

    /** Whether the next line is one of the rule that is read. */
    private boolean hasBody() {
        return number < lines.length && !lines[number].isEmpty() && "<>?".indexOf(lines[number].charAt(0)) >= 0;
    }

    // Settings.

    private void set(String what, String value) throws Fault {
        if (what.equals("listen") != (value == null)) {
            throw fault(what + (value == null ? " says nothing" : " has no value"));
        }
        switch (what) {
            case "charset":
                script.charset = charset(value);
                break;
            case "end":
                if (!value.equals("crlf") && !value.equals("lf")) {
                    throw fault("end is crlf or lf");
                }
                script.crlf = value.equals("crlf");
                break;
            case "limit":
                script.limit = positive(what, value, MOST_SECONDS);
                break;
            case "longest":
                script.longest = positive(what, value, MOST_BYTES);
                break;
            default:
                script.listens = true;
        }
    }

    private Charset charset(String name) throws Fault {
        try {
            Charset charset = Charset.forName(name);
            if (charset.canEncode()
                    && "\r\n.".equals(new String("\r\n.".getBytes(charset), StandardCharsets.US_ASCII))) {
                return charset;
            }
        } catch (IllegalArgumentException unknown) {
            throw fault("charset can't be " + name);
        }
        throw fault("charset " + name + " doesn't write ASCII as it is");
    }

    private int positive(String what, String text, int most) throws Fault {
        try {
            int value = Integer.parseInt(text);
            if (value >= 1 && value <= most) {
                return value;
            }
        } catch (NumberFormatException none) {
            // said below
        }
        throw fault(what + " can't be " + text);
    }

    // Rules.

    private List<Script.Kind> kinds(String messages) throws Fault {
        List<Script.Kind> kinds = new ArrayList<>();
        for (String message : messages.split("(?<=\\)) *, *")) {
            Matcher one = MESSAGE.matcher(message);
            if (!one.matches()) {
                throw fault("a message is LABEL(), LABEL(int), LABEL(boolean) or LABEL(String), and not " + message);
            }
            kinds.add(new Script.Kind(one.group(1), one.group(2)));
        }
        return kinds;
    }

    private void received(List<Script.Kind> kinds, String when, String labels) throws Fault {
        if (when.equals("anew")) {
            throw fault("a connection is made anew for a message that is sent");
        }
        List<String> after = new ArrayList<>();
        if (labels != null) {
            for (String label : labels.split(",")) {
                after.add(label.trim());
            }
        }
        Script.Received rule = new Script.Received(kinds, when.equals("first"), after, number);
        while (hasBody()) {
            String line = lines[number++];
            if (line.charAt(0) == '>') {
                rule.answer.addAll(parts(line));
            } else if (rule.answer.isEmpty()) {
                rule.items.add(item(line));
            } else {
                throw fault("behind the lines of an answer stands another message");
            }
        }
        for (Script.Part part : rule.answer) {
            if (part.isPlace()) {
                throw fault("an answer has no place for a value");
            }
        }
        judge(rule);
        script.received.add(rule);
    }

    private void sent(List<Script.Kind> kinds, String when) throws Fault {
        if (kinds.size() > 1 || !when.isEmpty() && !when.equals("anew")) {
            throw fault("lines are sent for one message, whatever stands before it");
        }
        Script.Sent rule = new Script.Sent(kinds.get(0), when.equals("anew"));
        while (hasBody()) {
            add(rule, lines[number++]);
        }
        if (rule.exchanges.isEmpty()) {
            throw fault(rule.kind + " has no lines");
        }
        judge(rule);
        if (script.sent.put(rule.kind.label, rule) != null) {
            throw fault(rule.kind.label + " is sent in two ways");
        }
    }

    private void add(Script.Sent rule, String line) throws Fault {
        int count = rule.exchanges.size();
        Script.Exchange now = count == 0 ? null : rule.exchanges.get(count - 1);
        if (line.charAt(0) == '?') {
            if (rule.fits != null || rule.kind.value == Void.class) {
                throw fault("one pattern for a value");
            }
            rule.fits = pattern(behind(line, 1));
        } else if (line.charAt(0) == '>') {
            if (now == null || !now.answer.items.isEmpty()) {
                now = new Script.Exchange(number);
                rule.exchanges.add(now);
            }
            now.parts.addAll(parts(line));
        } else if (now == null) {
            throw fault("a message that is sent begins with the lines that are sent");
        } else {
            now.answer.items.add(item(line));
        }
    }

    // Lines.

    /** What stands behind the sign of a line, and one blank. */
    private String behind(String line, int sign) throws Fault {
        if (line.length() > sign && line.charAt(sign) != ' ') {
            throw fault("a blank is wanted behind " + line.substring(0, sign));
        }
        return line.length() > sign ? line.substring(sign + 1) : "";
    }

    private Pattern pattern(String text) throws Fault {
        try {
            return Pattern.compile(text, Pattern.UNIX_LINES);
        } catch (PatternSyntaxException wrong) {
            throw fault(wrong.getDescription() + " in the pattern " + text);
        }
    }

    private Script.Item item(String line) throws Fault {
        if (line.charAt(0) != '<') {
            throw fault("a message that is received has no line " + line);
        }
        boolean many = line.startsWith("<*");
        String text = behind(line, many ? 2 : 1);
        Matcher block = BLOCK.matcher(text);
        if (block.matches()) {
            boolean bytes = block.group(2).equals("bytes");
            boolean value = !block.group(1).isEmpty();
            boolean ended = block.group(4).isEmpty();
            if (many || value == block.group(3).isEmpty() || !bytes && !ended) {
                throw fault("a block is {text}, ({text}), {bytes} or ({bytes}), "
                        + "and {bytes}\\ where no line ends behind it");
            }
            return new Script.Item(bytes ? Script.Step.BYTES : Script.Step.TEXT, null, false, value ? 1 : 0, ended);
        }
        Pattern pattern = pattern(text);
        int groups = pattern.matcher("").groupCount();
        boolean size = text.contains("(?<size>");
        if (size && groups > 1) {
            throw fault("the line of a size has no other group");
        }
        return new Script.Item(many ? Script.Step.LINES : Script.Step.LINE, pattern, size, size ? 0 : groups, true);
    }

    /** The parts of a line that is sent. */
    private List<Script.Part> parts(String line) throws Fault {
        List<Script.Part> parts = new ArrayList<>();
        String text = behind(line, 1);
        boolean ends = !text.endsWith("\\");
        text = ends ? text : text.substring(0, text.length() - 1);
        StringBuilder literal = new StringBuilder();
        for (int at = 0; at < text.length(); at++) {
            char letter = text.charAt(at);
            if ((letter == '{' || letter == '}') && text.startsWith("" + letter + letter, at)) {
                literal.append(letter);
                at++;
            } else if (letter == '{') {
                parts.add(new Script.Part(Script.Slot.LITERAL, literal.toString()));
                literal.setLength(0);
                int close = text.indexOf('}', at);
                String place = close < 0 ? text.substring(at) : text.substring(at, close + 1);
                parts.add(new Script.Part(slot(place, place.equals(text)), ""));
                at = close;
            } else {
                literal.append(letter);
            }
        }
        parts.add(new Script.Part(Script.Slot.LITERAL, literal.toString()));
        if (ends) {
            parts.add(new Script.Part(Script.Slot.END, ""));
        }
        return parts;
    }

    private Script.Slot slot(String text, boolean alone) throws Fault {
        switch (text) {
            case "{value}":
                return Script.Slot.VALUE;
            case "{size}":
                return Script.Slot.SIZE;
            case "{bytes}":
                return Script.Slot.BYTES;
            case "{dotted}":
            case "{text}":
                if (!alone) {
                    throw fault(text + " stands alone in its line");
                }
                return text.equals("{text}") ? Script.Slot.TEXT : Script.Slot.DOTTED;
            default:
                throw fault("a place is {value}, {size}, {bytes}, {dotted} or {text}, and a brace {{ or }}: " + text);
        }
    }

    // Conditions of a whole rule.

    private void judge(Script.Sent rule) throws Fault {
        boolean size = false;
        boolean value = false;
        for (Script.Exchange exchange : rule.exchanges) {
            for (Script.Part part : exchange.parts) {
                if (part.slot == Script.Slot.BYTES && !size) {
                    throw fault("{bytes} has no {size} before it");
                }
                size |= part.slot == Script.Slot.SIZE;
                value |= part.isPlace() && part.slot != Script.Slot.SIZE;
            }
            judge(exchange.answer);
        }
        if (rule.kind.value == Void.class ? value || size : !value) {
            throw fault(rule.kind + (value || size ? " has no value" : " has a value, and its lines no place for it"));
        }
    }

    private void judge(Script.Received rule) throws Fault {
        List<Class<?>> wanted = new ArrayList<>();
        for (Script.Kind kind : rule.kinds) {
            if (kind.value != Void.class) {
                wanted.add(kind.value);
            }
        }
        int groups = 0;
        boolean size = false;
        for (Script.Item item : rule.items) {
            for (int k = groups; k < Math.min(groups + item.groups, wanted.size()); k++) {
                if (item.step != Script.Step.LINE && wanted.get(k) != String.class) {
                    throw fault("a group of many lines is a String");
                }
            }
            groups += item.groups;
            size |= item.size;
            if (item.step == Script.Step.BYTES && !size) {
                throw fault("{bytes} has no (?<size>..) before it");
            }
        }
        judgeSteps(rule);
        if (groups != wanted.size()) {
            throw fault(rule + " has " + wanted.size() + " values, and its lines " + groups + " groups");
        }
    }

    private void judgeSteps(Script.Received rule) throws Fault {
        Script.Step before = Script.Step.LINE;
        for (Script.Item item : rule.items) {
            if (before == Script.Step.LINES && item.step != Script.Step.LINE) {
                break;
            }
            before = item.step;
        }
        if (before == Script.Step.LINES) {
            throw fault("behind <* stands a line by which the lines end");
        }
    }

    private void judgeLabels() throws Fault {
        Set<String> labels = new HashSet<>(script.sent.keySet());
        script.received.forEach(rule -> rule.kinds.forEach(kind -> labels.add(kind.label)));
        for (Script.Received rule : script.received) {
            for (String label : rule.after) {
                if (!labels.contains(label)) {
                    number = rule.line;
                    throw fault("after " + label + ", which is no message here");
                }
            }
        }
    }
}
