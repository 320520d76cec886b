import java.io.IOException;
import java.nio.charset.StandardCharsets;
import java.nio.file.Files;
import java.nio.file.Path;
import java.util.ArrayList;
import java.util.Arrays;
import java.util.List;
import java.util.Objects;
import java.util.Random;
import java.util.Set;
import java.util.concurrent.ExecutorService;
import java.util.concurrent.Executors;
import java.util.concurrent.Future;
import java.util.stream.Collectors;
import java.util.stream.Stream;

/**
 * Holds the tokens that mungo reads of Java sources to those of javac.
 *
 * <p>The sources are those of examples/, as they stand and changed at random by a generator that a seed starts: comments of
 * all ends and bodies, escapes of Unicode, texts, numbers, signs that mungo lacks, bytes that begin nothing or are no UTF-8,
 * parts that are left out or stand twice. mungo has no command that prints tokens, so each source is held thus:
 * <ol>
 * <li>A lexer of some eighty lines, written by what docs/LANGUAGE.md says (Ours), refuses it exactly where mungo refuses its
 *     bytes, by the same fault at the same place.
 * <li>Where mungo goes on to judge more than tokens and grammar, javac has no fault of tokens, and its tokens are those of
 *     that lexer: where each begins and ends, which word, number, text or sign it is.
 * <li>Where javac has no fault of tokens, mungo says the same of the source as of javac's tokens written a line each, with
 *     nothing between: the same fault at the same token, or class files of the same bytes. So what mungo takes for a comment
 *     and javac runs is seen by what mungo itself makes of it.
 * </ol>
 * What is left out: files of over 1,048,576 bytes, and words behind the first fault of a file that is refused.
 *
 * <p>Words: PROGRAM EXAMPLES ROOM COUNT SEED. Prints a line for each failure, and at last what was tried.
 */
final class Tokens {
    /** The faults of a source's grammar. */
    private static final Set<String> OF_GRAMMAR = Set.of("Syntax", "Unsupported");

    private final Path program;
    private final Path room;
    private int accepted;
    private int refused;
    private int failed;

    private Tokens(Path program, Path room) {
        this.program = program;
        this.room = room;
    }

    public static void main(String[] words) throws Exception {
        Tokens tokens = new Tokens(Path.of(words[0]).toAbsolutePath(), Path.of(words[2]).toAbsolutePath());
        List<Subject> subjects = Subject.of(Path.of(words[1]).toAbsolutePath());
        int count = Integer.parseInt(words[3]);
        long seed = Long.parseLong(words[4]);
        ExecutorService workers = Executors.newFixedThreadPool(4);
        List<Future<?>> turns = new ArrayList<>();
        for (int n = 0; n < subjects.size() + count; n++) {
            Random random = new Random(seed + n);
            boolean whole = n < subjects.size();
            Subject subject = whole ? subjects.get(n) : subjects.get(random.nextInt(subjects.size()));
            byte[] source = whole ? subject.source : Changes.of(subject.source, random);
            String name = (whole ? "" : "change " + n + " of ") + subject.file.getFileName();
            int turn = n;
            turns.add(workers.submit(() -> tokens.hold(name, turn, subject, source)));
        }
        for (Future<?> turn : turns) {
            turn.get();
        }
        workers.shutdown();
        System.out.println(turns.size() + " sources, " + tokens.accepted + " made into class files, "
                + tokens.refused + " refused for their bytes, " + tokens.failed + " failures");
        // Too few of either kind would hold nothing.
        boolean enough = tokens.accepted > turns.size() / 8 && tokens.refused > turns.size() / 8;
        System.exit(enough && tokens.failed == 0 ? 0 : 1);
    }

    private synchronized Void fail(String name, String text, byte[] source) throws IOException {
        failed++;
        Path kept = Files.write(Files.createTempFile(room, "failed", ".java"), source);
        System.out.println("FAILED " + name + ": " + text + " (" + kept + ")");
        return null;
    }

    private synchronized void tell(boolean isAccepted, boolean isRefused) {
        accepted += isAccepted ? 1 : 0;
        refused += isRefused ? 1 : 0;
    }

    /** Holds a source to what is said above. */
    private Void hold(String name, int turn, Subject subject, byte[] source) throws Exception {
        Path folder = Files.createDirectories(room.resolve("turn" + turn));
        Ours ours = new Ours(source);
        Answer answer = Answer.of(program, folder.resolve("given"), subject, source);
        tell(answer.status == 0, ours.fault != null);
        if (answer.status != 0 && answer.status != 1) {
            return fail(name, "mungo ends with " + answer.status, source);
        }
        if (ours.fault != null) {
            String wanted = ours.fault + "@" + ours.at;
            return answer.faults.equals(List.of(wanted)) ? null : fail(name, wanted + " is wanted, not " + answer.faults, source);
        }
        String fault = answer.faults.isEmpty() ? "" : answer.faults.get(0).replaceAll("[@ ].*", "");
        if (Ours.FAULTS.contains(fault)) {
            return fail(name, "no " + answer.faults + " is wanted", source);
        }
        ByJavac javac = new ByJavac(source);
        if (!OF_GRAMMAR.contains(fault) && (javac.isFaulty || !javac.tokens.equals(ours.tokens))) {
            return fail(name, "mungo reads other tokens than javac: " + firstOther(ours.tokens, javac.tokens), source);
        }
        if (!javac.isFaulty) {
            Answer again = Answer.of(program, folder.resolve("again"), subject, javac.aLineEach());
            List<String> moved = again.faults.stream().map(javac::inSource).collect(Collectors.toList());
            if (!answer.faults.equals(moved) || !answer.classes.equals(again.classes)) {
                return fail(name, "mungo says " + answer.faults + ", and of javac's tokens " + moved, source);
            }
        }
        Answer.removed(folder);
        return null;
    }

    private static String firstOther(List<Token> ours, List<Token> theirs) {
        for (int n = 0; n < Math.max(ours.size(), theirs.size()); n++) {
            Token our = n < ours.size() ? ours.get(n) : null;
            Token their = n < theirs.size() ? theirs.get(n) : null;
            if (!Objects.equals(our, their)) {
                return our + ", and javac " + their;
            }
        }
        return "none, but javac has a fault";
    }

    /** A token: where it begins and ends in the bytes, what it is, and the word, number, text or sign. */
    record Token(int start, int end, String kind, String text) {}

    /** A source of the examples, with the other files of its program. */
    static final class Subject {
        final Path file;
        final byte[] source;
        final List<Path> others;

        private Subject(Path file, byte[] source, List<Path> others) {
            this.file = file;
            this.source = source;
            this.others = others;
        }

        static List<Subject> of(Path examples) throws IOException {
            List<Subject> subjects = new ArrayList<>();
            try (Stream<Path> all = Files.walk(examples)) {
                for (Path file : all.filter(path -> path.toString().endsWith(".java")).sorted().collect(Collectors.toList())) {
                    subjects.add(new Subject(file, Files.readAllBytes(file), beside(examples, file)));
                }
            }
            return subjects;
        }

        /** The typestates, local protocols and other sources of the example. */
        private static List<Path> beside(Path examples, Path file) throws IOException {
            Path example = examples.resolve(examples.relativize(file).getName(0));
            List<Path> others = new ArrayList<>();
            try (Stream<Path> all = Files.list(example)) {
                for (Path path : all.sorted().collect(Collectors.toList())) {
                    String name = path.getFileName().toString();
                    boolean isLocal = name.endsWith(".scr") && !Files.readString(path).contains("global protocol");
                    if (isLocal || name.endsWith(".protocol") || name.endsWith(".java") && !path.equals(file)) {
                        others.add(path);
                    }
                }
            }
            return others;
        }
    }

    /** What mungo says of a source, and what it makes of it. */
    static final class Answer {
        int status;
        /** The faults: each with its offset in the source, or as it stands where it is in another file. */
        final List<String> faults = new ArrayList<>();
        /** The class files, each with its bytes. */
        final List<String> classes = new ArrayList<>();

        static Answer of(Path program, Path folder, Subject subject, byte[] source) throws Exception {
            Path file = Files.createDirectories(folder).resolve(subject.file.getFileName());
            Path out = Files.createDirectories(folder.resolve("out"));
            Path said = folder.resolve("said");
            Files.write(file, source);
            List<String> words = new ArrayList<>(List.of(program.toString(), "compile", "--out", out.toString(), file.toString()));
            subject.others.forEach(other -> words.add(other.toString()));
            Process process = new ProcessBuilder(words).redirectErrorStream(true).redirectOutput(said.toFile()).start();
            process.getOutputStream().close();
            Answer answer = new Answer();
            answer.status = process.waitFor();
            for (String line : Files.readAllLines(said)) {
                answer.faults.add(placed(line, file.toString(), source));
            }
            if (answer.status == 0) {
                answer.readClasses(out);
            }
            removed(folder);
            return answer;
        }

        private void readClasses(Path out) throws IOException {
            try (Stream<Path> all = Files.list(out)) {
                for (Path path : all.sorted().collect(Collectors.toList())) {
                    classes.add(path.getFileName() + " " + Arrays.toString(Files.readAllBytes(path)));
                }
            }
        }

        /** FILE:LINE:COLUMN: FAULT NAME of this file as FAULT@OFFSET NAME. */
        private static String placed(String line, String file, byte[] source) {
            if (!line.startsWith(file + ":")) {
                return line;
            }
            String[] parts = line.substring(file.length() + 1).split(": ", 2);
            String[] place = parts[0].split(":");
            int at = offset(source, Integer.parseInt(place[0]), Integer.parseInt(place[1]));
            return parts[1].replaceFirst("^\\w+", "$0@" + at);
        }

        /** The offset of a line and a column, which counts bytes. */
        private static int offset(byte[] source, int line, int column) {
            int at = 0;
            for (int n = 1; n < line; n++) {
                while (source[at] != '\n') {
                    at++;
                }
                at++;
            }
            return at + column - 1;
        }

        static void removed(Path folder) throws IOException {
            try (Stream<Path> all = Files.walk(folder)) {
                for (Path path : all.sorted((a, b) -> b.compareTo(a)).collect(Collectors.toList())) {
                    Files.delete(path);
                }
            }
        }
    }
}
