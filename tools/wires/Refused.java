import java.io.IOException;
import java.nio.charset.StandardCharsets;
import java.nio.file.Files;
import java.nio.file.Paths;
import mungo.lib.Lines;

/**
 * Reads the wire files of a file of cases: below a line `= WHY` the text that is refused so. Prints a line for each.
 */
public final class Refused {
    private Refused() {}

    public static void main(String[] words) throws IOException {
        String all = new String(Files.readAllBytes(Paths.get(words[0])), StandardCharsets.UTF_8);
        for (String part : all.substring(all.indexOf("= ") + 2).split("\n= ")) {
            int end = part.indexOf('\n');
            String wanted = "w:" + part.substring(0, end);
            String said = "taken";
            try {
                new Lines("w", part.substring(end + 1));
            } catch (IOException fault) {
                said = fault.getMessage();
            }
            System.out.println(said.equals(wanted) ? "ok " + wanted : "wanted " + wanted + ", got " + said);
        }
    }
}
