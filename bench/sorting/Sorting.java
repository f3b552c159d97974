import java.util.Arrays;
import java.util.stream.LongStream;

/** {@code java Sorting NUMBERS QUESTION COUNT [TURNS]}: a parallel stream in order, or its different values; the least time of warm turns. */
public final class Sorting {
    static LongStream numbers(String kind, long count) {
        LongStream all = LongStream.range(0, count).parallel();
        return switch (kind) {
            case "random" -> all.map(x -> x * 6364136223846793005L ^ x * 6364136223846793005L >>> 32);
            case "few" -> all.map(x -> (x * 6364136223846793005L >>> 32) & 1023);
            case "reversed" -> all.map(x -> -x);
            default -> all.map(x -> x + 1);
        };
    }

    static String answer(String kind, String question, long count) {
        return switch (question) {
            case "limit" -> Arrays.toString(numbers(kind, count).sorted().limit(10).toArray());
            case "middle" -> numbers(kind, count).sorted().skip(count / 2).findFirst().toString();
            default -> Long.toString(numbers(kind, count).distinct().count());
        };
    }

    public static void main(String[] arguments) {
        long count = Long.parseLong(arguments[2]);
        int turns = arguments.length > 3 ? Integer.parseInt(arguments[3]) : 0;
        double least = Double.MAX_VALUE;
        for (int turn = 0; turn < turns; turn++) {
            long start = System.nanoTime();
            answer(arguments[0], arguments[1], count);
            least = Math.min(least, (System.nanoTime() - start) / 1e6);
        }
        System.out.println(turns > 0 ? String.format("%.1f", least) : "q = " + answer(arguments[0], arguments[1], count));
    }
}
