import java.io.BufferedOutputStream;
import java.io.BufferedReader;
import java.io.FileDescriptor;
import java.io.FileOutputStream;
import java.io.IOException;
import java.io.InputStreamReader;
import java.io.PrintStream;
import java.nio.charset.StandardCharsets;
import org.locationtech.jts.JTSVersion;
import org.locationtech.jts.geom.Geometry;
import org.locationtech.jts.io.WKTReader;

/**
 * Answers pairs of geometries by JTS: a line has two well-known texts with a tab between them, its answer is a line.
 *
 * <p>The first word says what is asked: matrix, predicates or validity. The first line says which JTS it is. An empty line ends
 * a batch, behind which the answers are written; each at once where there is a second word. With `-Djts.relate=ng` JTS relates by
 * RelateNG, else by its older method.
 */
public final class AskJts {
    private static final WKTReader READER = new WKTReader();

    private AskJts() {}

    /** Reads pairs up to the end of standard input. */
    public static void main(String[] words) throws IOException {
        PrintStream out = new PrintStream(new BufferedOutputStream(new FileOutputStream(FileDescriptor.out), 1 << 16), false, "UTF-8");
        boolean isNew = "ng".equalsIgnoreCase(System.getProperty("jts.relate"));
        if (isNew && !hasRelateNg()) {
            out.println("! JTS 1.20 or later, which has RelateNG");
            out.close();
            System.exit(1);
        }
        out.println("JTS " + JTSVersion.CURRENT_VERSION + (isNew ? ", RelateNG" : ""));
        out.flush();
        BufferedReader lines = new BufferedReader(new InputStreamReader(System.in, StandardCharsets.UTF_8));
        for (String line = lines.readLine(); line != null; line = lines.readLine()) {
            if (!line.isEmpty()) {
                out.println(answer(words[0], line.split("\t")));
            }
            if (line.isEmpty() || words.length > 1) {
                out.flush();
            }
        }
    }

    /** Whether this JTS has its new way to relate. */
    private static boolean hasRelateNg() {
        try {
            Class.forName("org.locationtech.jts.operation.relateng.RelateNG");
            return true;
        } catch (ClassNotFoundException error) {
            return false;
        }
    }

    /** The answer to a pair; of a refusal its reason. */
    private static String answer(String ask, String[] texts) {
        try {
            Geometry first = READER.read(texts[0]);
            Geometry second = READER.read(texts[1]);
            if (ask.equals("matrix")) {
                return first.relate(second).toString();
            }
            if (ask.equals("validity")) {
                return truths(first.isValid(), second.isValid());
            }
            return truths(
                    first.equals(second), first.disjoint(second), first.intersects(second), first.touches(second),
                    first.crosses(second), first.within(second), first.contains(second), first.overlaps(second));
        } catch (Exception error) {
            return "! " + String.valueOf(error.getMessage()).replaceAll("\\s+", " ");
        }
    }

    private static String truths(boolean... values) {
        StringBuilder found = new StringBuilder();
        for (boolean it : values) {
            found.append(it ? '1' : '0');
        }
        return found.toString();
    }
}
