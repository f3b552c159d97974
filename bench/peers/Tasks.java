import java.io.IOException;
import java.nio.file.Files;
import java.nio.file.Path;
import java.util.ArrayList;
import java.util.List;
import java.util.concurrent.ForkJoinPool;
import java.util.stream.Collectors;
import java.util.stream.LongStream;
import java.util.stream.Stream;

/**
 * The tasks by LongStream. {@code java Tasks sequential|parallel TASK [TABLE]} prints the answers;
 * {@code java Tasks THREADS TASK ROUNDS} runs a task of one answer in parallel on THREADS threads, and prints nanoseconds and the
 * answer of each round.
 */
public final class Tasks {
    private static boolean parallel = true;
    private static long[] b, c, d, e;

    private static LongStream mode(LongStream stream) {
        return parallel ? stream.parallel() : stream.sequential();
    }

    private static LongStream over(long[] column) {
        return mode(LongStream.of(column));
    }

    /** The rows of a table, each cut into at most {@code parts} cells. */
    private static Stream<String[]> rows(Stream<String> lines, int parts) {
        Stream<String> rows = lines.skip(1);
        return (parallel ? rows.parallel() : rows).map(row -> row.split(",", parts));
    }

    /** Four columns, from this one on. */
    static void readTable(String file, int first) throws IOException {
        try (Stream<String> lines = Files.lines(Path.of(file))) {
            String[][] cells = rows(lines, first + 5).toArray(String[][]::new);
            b = column(cells, first);
            c = column(cells, first + 1);
            d = column(cells, first + 2);
            e = column(cells, first + 3);
        }
    }

    private static long[] column(String[][] cells, int index) {
        return Stream.of(cells).mapToLong(row -> Long.parseLong(row[index])).toArray();
    }

    /** One column alone. */
    static void readOne(String file, int index) throws IOException {
        try (Stream<String> lines = Files.lines(Path.of(file))) {
            b = rows(lines, index + 2).mapToLong(row -> Long.parseLong(row[index])).toArray();
        }
    }

    private static long fifteen(long x) {
        return ((((x * 31 + 7) ^ (x >>> 3)) * 13 - 5 ^ (x << 2)) + (x & 255)) * 3 - (x ^ 85) + x | 1;
    }

    private static List<Object> twelve() {
        return List.of(over(b).sum(), over(b).filter(x -> x > 0).count(), over(b).min(), over(b).max(),
                over(c).map(x -> x % 1000).sum(), over(c).filter(x -> x % 2 == 0).map(x -> x / 2).sum(),
                over(c).anyMatch(x -> x < 0), over(d).map(x -> x * x).sum(), over(d).reduce((x, y) -> Math.max(x, y)),
                over(d).allMatch(x -> x >= 0), over(e).filter(x -> x > 5000).max(),
                over(e).map(x -> x < 0 ? -x : x).sum());
    }

    private static List<Object> smallJobs() {
        List<Object> sums = new ArrayList<>();
        for (int i = 0; i < 256; i++) {
            long factor = i;
            sums.add(mode(LongStream.range(0, 100)).map(x -> x * factor).filter(x -> x % 3 == 0).sum());
        }
        return sums;
    }

    /** Each sum takes the one before it. */
    private static List<Object> chain() {
        List<Object> sums = new ArrayList<>();
        long last = 0;
        for (int i = 0; i < 256; i++) {
            long before = last;
            last = mode(LongStream.range(0, 100)).map(x -> x ^ before).sum();
            sums.add(last);
        }
        return sums;
    }

    private static List<Object> run(String task) {
        return switch (task) {
            case "one_sum" -> List.of(over(b).sum());
            case "twelve" -> twelve();
            case "map_filter_sum" -> List.of(
                    mode(LongStream.range(0, 100_000_000)).map(x -> x * 3 + 1).filter(x -> (x & 4) == 0).sum());
            case "fifteen" -> List.of(mode(LongStream.range(0, 100_000_000)).map(Tasks::fifteen).sum());
            case "to_array" -> List.of(mode(LongStream.range(0, 1_000_000)).map(x -> x * 7).toArray());
            case "to_array_10" -> List.of(mode(LongStream.range(0, 10_000_000)).map(x -> x * 7).toArray());
            case "small_jobs" -> smallJobs();
            case "chain" -> chain();
            case "shallow_find" -> List.of(
                    mode(LongStream.range(0, 1L << 62)).filter(x -> x % 1001 == 1000).findFirst());
            case "late_find" -> List.of(mode(LongStream.range(0, 100_000_000)).filter(x -> x == 90_000_000).findFirst());
            case "late_match" -> List.of(mode(LongStream.range(0, 100_000_000)).anyMatch(x -> x == 90_000_000));
            default -> throw new IllegalArgumentException(task);
        };
    }

    static String text(Object answer) {
        return answer instanceof long[] values
                ? mode(LongStream.of(values)).mapToObj(String::valueOf).collect(Collectors.joining(", ", "[", "]"))
                : answer.toString();
    }

    /** The answers of a task, as streamrun reports them. */
    static String report(String task) {
        List<Object> answers = run(task);
        StringBuilder out = new StringBuilder();
        for (int i = 0; i < answers.size(); i++) {
            String name = answers.size() == 1 ? "s" : "j" + (task.equals("twelve") ? i + 1 : i);
            out.append(name).append(" = ").append(text(answers.get(i))).append('\n');
        }
        return out.toString();
    }

    private static void time(String task, int threads, int rounds) throws Exception {
        ForkJoinPool pool = new ForkJoinPool(threads);
        for (int round = 0; round < rounds; round++) {
            long start = System.nanoTime();
            Object answer = pool.submit(() -> run(task)).get().get(0);
            System.out.println(System.nanoTime() - start + " " + answer);
        }
        pool.shutdown();
    }

    public static void main(String[] words) throws Exception {
        parallel = !words[0].equals("sequential");
        String task = words[1];
        if (Character.isDigit(words[0].charAt(0))) {
            time(task, Integer.parseInt(words[0]), Integer.parseInt(words[2]));
            return;
        }
        if (task.equals("one_sum")) {
            readOne(words[2], 1);
        } else if (task.equals("twelve")) {
            readTable(words[2], 1);
        }
        System.out.print(report(task));
    }
}
