import static java.util.stream.LongStream.*;

import java.util.Arrays;
import java.util.function.LongBinaryOperator;
import java.util.function.LongFunction;
import java.util.function.LongUnaryOperator;
import java.util.stream.LongStream;

/**
 * {@code java Warm WORKLOAD MILLISECONDS [TABLE]} runs a workload for so long, and at least three times; prints the
 * least nanoseconds and streamrun's report.
 */
public final class Warm {
    private static final int LEAST_ROUNDS = 3;
    private static final int JOBS = 256;

    private static String table;

    private static LongStream prefix(LongStream items, LongBinaryOperator operator) {
        long[] all = items.toArray();
        Arrays.parallelPrefix(all, operator);
        return LongStream.of(all).parallel();
    }

    private static String columnSum() throws Exception {
        Tasks.readOne(table, 0);
        return Tasks.report("one_sum");
    }

    private static String twelve() throws Exception {
        Tasks.readTable(table, 0);
        return Tasks.report("twelve");
    }

    /** One job after the other, each by its number. */
    private static String jobs(LongFunction<Object> job) {
        StringBuilder out = new StringBuilder();
        for (long at = 0; at < JOBS; at++) {
            out.append("j").append(at).append(" = ").append(job.apply(at)).append("\n");
        }
        return out.toString();
    }

    /** One job after the other, each by the answer before it. */
    private static String chain(LongUnaryOperator job) {
        long[] last = {0};
        return jobs(at -> last[0] = job.applyAsLong(last[0]));
    }

    private static String one(Object answer) {
        return "q = " + Tasks.text(answer) + "\n";
    }

    private static String report(String workload) throws Exception {
        return switch (workload) {
            /* WORKLOADS */
            default -> throw new IllegalArgumentException(workload);
        };
    }

    public static void main(String[] words) throws Exception {
        long least = Long.MAX_VALUE, end = System.nanoTime() + Long.parseLong(words[1]) * 1_000_000;
        table = words.length > 2 ? words[2] : null;
        String last = null;
        for (int round = 0; round < LEAST_ROUNDS || System.nanoTime() < end; round++) {
            long start = System.nanoTime();
            String report = report(words[0]);
            least = Math.min(least, System.nanoTime() - start);
            if (last != null && !last.equals(report)) {
                throw new IllegalStateException("two rounds differ");
            }
            last = report;
        }
        System.out.print(least + "\n" + last);
    }
}
