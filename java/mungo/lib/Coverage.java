package mungo.lib;

import java.util.ArrayList;
import java.util.LinkedHashMap;
import java.util.List;
import java.util.Map;
import java.util.regex.Matcher;
import java.util.regex.Pattern;

/**
 * What a local protocol asks of a wire file. Reads no more of it than its messages, so `mungo check` has to have taken
 * it.
 */
final class Coverage {
    private static final Pattern COMMENT = Pattern.compile("(?s)/\\*.*?\\*/|//[^\n]*");
    private static final Pattern TYPE =
            Pattern.compile("type\\s*<\\s*java\\s*>\\s*\"java\\.lang\\.(\\w+)\"\\s*from\\s*\"[^\"]*\"\\s*as\\s+(\\w+)");

    private Coverage() {}

    /** A line for each message of the protocol with the peer that the wire file has no lines for. */
    static List<String> missing(Script script, String protocol, String peer) {
        String text = COMMENT.matcher(protocol).replaceAll(" ");
        Map<String, String> types = types(text);
        List<String> missing = new ArrayList<>();
        String form = "(\\w+)\\s*\\(\\s*(\\w*)\\s*\\)\\s*(to|from)\\s+" + Pattern.quote(peer) + "\\s*;";
        Matcher message = Pattern.compile(form).matcher(text);
        while (message.find()) {
            Script.Kind kind = new Script.Kind(message.group(1), types.getOrDefault(message.group(2), "String"));
            String line = kind + " " + message.group(3) + " " + peer;
            if (!has(script, kind, message.group(3).equals("to")) && !missing.contains(line)) {
                missing.add(line);
            }
        }
        return missing;
    }

    /** The types of values as wire files name them, by their names in the protocol. */
    private static Map<String, String> types(String text) {
        Map<String, String> types = new LinkedHashMap<>();
        types.put("", "");
        for (String own : new String[] {"int", "boolean", "String"}) {
            types.put(own, own);
        }
        Matcher type = TYPE.matcher(text);
        while (type.find()) {
            String java = type.group(1);
            types.put(type.group(2), java.equals("Integer") ? "int" : java.equals("Boolean") ? "boolean" : "String");
        }
        return types;
    }

    private static boolean has(Script script, Script.Kind kind, boolean isSent) {
        if (isSent) {
            Script.Sent rule = script.sent.get(kind.label);
            return rule != null && rule.kind.value == kind.value;
        }
        for (Script.Received rule : script.received) {
            for (Script.Kind one : rule.kinds) {
                if (one.label.equals(kind.label) && one.value == kind.value) {
                    return true;
                }
            }
        }
        return false;
    }
}
