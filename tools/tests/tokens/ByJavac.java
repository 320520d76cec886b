import com.sun.tools.javac.file.JavacFileManager;
import com.sun.tools.javac.parser.Scanner;
import com.sun.tools.javac.parser.ScannerFactory;
import com.sun.tools.javac.parser.Tokens.TokenKind;
import com.sun.tools.javac.util.Context;
import com.sun.tools.javac.util.Log;
import java.io.ByteArrayOutputStream;
import java.net.URI;
import java.nio.charset.StandardCharsets;
import java.util.ArrayList;
import java.util.List;
import javax.tools.JavaFileObject;
import javax.tools.SimpleJavaFileObject;

/** The tokens of a source as javac reads them. */
final class ByJavac {
    final List<Tokens.Token> tokens = new ArrayList<>();
    /** Whether javac refuses the bytes. */
    final boolean isFaulty;

    private final byte[] source;
    /** The offset in the source of each line of {@link #aLineEach}, and of its end. */
    private final List<Integer> lines = new ArrayList<>();

    /** Reads bytes that are UTF-8. */
    ByJavac(byte[] source) {
        this.source = source;
        String text = new String(source, StandardCharsets.UTF_8);
        int[] offsets = offsets(text);
        Context context = new Context();
        JavacFileManager.preRegister(context);
        Log log = Log.instance(context);
        log.useSource(file(text));
        Log.DeferredDiagnosticHandler faults = new Log.DeferredDiagnosticHandler(log);
        Scanner scanner = ScannerFactory.instance(context).newScanner(text, false);
        for (scanner.nextToken(); scanner.token().kind != TokenKind.EOF; scanner.nextToken()) {
            com.sun.tools.javac.parser.Tokens.Token token = scanner.token();
            tokens.add(token(token, offsets[token.pos], offsets[token.endPos]));
        }
        isFaulty = !faults.getDiagnostics().isEmpty();
    }

    private static Tokens.Token token(com.sun.tools.javac.parser.Tokens.Token token, int start, int end) {
        switch (token.kind) {
            case IDENTIFIER:
                return new Tokens.Token(start, end, "name", token.name().toString());
            case INTLITERAL:
                // A zero alone has the radix 8 there.
                boolean isDecimal = token.radix() == 10 || end - start == 1;
                return new Tokens.Token(start, end, isDecimal ? "number" : "radix", token.stringVal());
            case STRINGLITERAL:
                return new Tokens.Token(start, end, "text", token.stringVal());
            default:
                String name = token.kind.name == null ? token.kind.toString() : token.kind.name;
                return new Tokens.Token(start, end, Character.isLetter(name.charAt(0)) ? "reserved" : "sign", name);
        }
    }

    private static JavaFileObject file(String text) {
        return new SimpleJavaFileObject(URI.create("string:///Source.java"), JavaFileObject.Kind.SOURCE) {
            @Override
            public CharSequence getCharContent(boolean ignoreEncodingErrors) {
                return text;
            }
        };
    }

    /** The offset in bytes of each unit of the text, and of its end. */
    private static int[] offsets(String text) {
        int[] offsets = new int[text.length() + 1];
        for (int n = 0; n < text.length(); n++) {
            char unit = text.charAt(n);
            int bytes = unit < 0x80 ? 1 : unit < 0x800 ? 2 : Character.isSurrogate(unit) ? 2 : 3;
            offsets[n + 1] = offsets[n] + bytes;
        }
        return offsets;
    }

    /** The tokens as they are written in the source, a line each. */
    byte[] aLineEach() {
        ByteArrayOutputStream out = new ByteArrayOutputStream();
        for (Tokens.Token token : tokens) {
            lines.add(out.size());
            out.write(source, token.start(), token.end() - token.start());
            out.write('\n');
        }
        return out.toByteArray();
    }

    /** A fault of {@link #aLineEach} as one of the source. */
    String inSource(String fault) {
        int mark = fault.indexOf('@');
        if (mark < 0) {
            return fault;
        }
        String[] parts = fault.substring(mark + 1).split(" ", 2);
        int at = Integer.parseInt(parts[0]);
        int line = lines.size() - 1;
        while (line > 0 && lines.get(line) > at) {
            line--;
        }
        int inSource = line < 0 ? at : tokens.get(line).start() + at - lines.get(line);
        return fault.substring(0, mark + 1) + inSource + (parts.length > 1 ? " " + parts[1] : "");
    }
}
