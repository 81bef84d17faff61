import com.sun.management.OperatingSystemMXBean;
import java.io.BufferedReader;
import java.io.InputStreamReader;
import java.lang.invoke.MethodHandle;
import java.lang.invoke.MethodHandles;
import java.lang.invoke.MethodType;
import java.lang.management.ManagementFactory;
import org.locationtech.jts.geom.Geometry;
import org.locationtech.jts.geom.IntersectionMatrix;
import org.locationtech.jts.io.WKTReader;

/**
 * The peer of {@code gauge} for JTS, of its word {@code relate}: the same input, the same matrix. With the word {@code prepared}
 * RelateNG prepares the first geometry once, which JTS has from 1.20 on; an older one ends it with status 2. With
 * {@code -Djts.relate=ng} the word {@code relate} uses RelateNG too.
 *
 * <p>The first two lines of standard input are geometries, which it reads and tests once. It prints their matrix, and in a second
 * line the least processor seconds of one turn. Times are taken in here, since what is to be measured begins only when the
 * just-in-time compiler has done its work: the second word says how many batches of turns in a row have to be no faster than one
 * before. Processor seconds are those of the whole process, so that collecting garbage counts.
 */
public final class JtsPeer {
    /** The nanoseconds that a batch takes at least: the process's clock ticks every 10 ms. */
    private static final long BATCH = 400_000_000L;

    /** The nanoseconds after which no further batch is begun. */
    private static final long ENOUGH = 60_000_000_000L;

    private static final OperatingSystemMXBean SYSTEM =
            (OperatingSystemMXBean) ManagementFactory.getOperatingSystemMXBean();

    private JtsPeer() {}

    /** Reads two geometries, and prints their matrix and the seconds of a turn. */
    public static void main(String[] words) throws Exception {
        boolean isPrepared = words.length == 2 && words[0].equals("prepared");
        if (words.length != 2 || !(isPrepared || words[0].equals("relate"))) {
            System.exit(2);
        }
        BufferedReader lines = new BufferedReader(new InputStreamReader(System.in));
        Geometry first = read(lines.readLine());
        Geometry second = read(lines.readLine());
        Relation relation = isPrepared ? prepared(first) : first::relate;
        System.out.println(relation.to(second));
        System.out.println(leastSeconds(relation, second, Integer.parseInt(words[1])));
    }

    /** What is asked for the matrix of a geometry that it has and another one. */
    private interface Relation {
        IntersectionMatrix to(Geometry other) throws Exception;
    }

    /** RelateNG with the first geometry prepared. It is called by a handle, since JTS 1.19 hasn't got the class. */
    private static Relation prepared(Geometry first) throws Exception {
        try {
            Class<?> type = Class.forName("org.locationtech.jts.operation.relateng.RelateNG");
            Object kept = type.getMethod("prepare", Geometry.class).invoke(null, first);
            MethodType known = MethodType.methodType(IntersectionMatrix.class, Geometry.class);
            MethodHandle evaluate = MethodHandles.publicLookup().findVirtual(type, "evaluate", known).bindTo(kept);
            return other -> {
                try {
                    return (IntersectionMatrix) evaluate.invokeExact(other);
                } catch (Exception | Error error) {
                    throw error;
                } catch (Throwable error) {
                    throw new IllegalStateException(error);
                }
            };
        } catch (ClassNotFoundException error) {
            System.exit(2);
            return null;
        }
    }

    /** The valid geometry that a text spells; of an invalid one the program ends with status 5. */
    private static Geometry read(String text) throws Exception {
        Geometry geometry = new WKTReader().read(text);
        if (!geometry.isValid()) {
            System.exit(5);
        }
        return geometry;
    }

    /** The least seconds of one turn: batches go on until so many in a row weren't faster than the best by 2 in 100. */
    private static double leastSeconds(Relation relation, Geometry second, int steady) throws Exception {
        long begun = SYSTEM.getProcessCpuTime();
        double least = Double.MAX_VALUE;
        int turns = 1;
        int slower = 0;
        while (slower < steady && SYSTEM.getProcessCpuTime() - begun < ENOUGH) {
            long taken = batch(relation, second, turns);
            if (taken < BATCH) {
                turns *= 2;
                continue;
            }
            double each = taken / 1e9 / turns;
            slower = each < 0.98 * least ? 0 : slower + 1;
            least = Math.min(least, each);
        }
        return least;
    }

    /** The nanoseconds of so many turns. */
    private static long batch(Relation relation, Geometry second, int turns) throws Exception {
        long begun = SYSTEM.getProcessCpuTime();
        for (int k = 0; k < turns; k++) {
            relation.to(second);
        }
        return SYSTEM.getProcessCpuTime() - begun;
    }
}
