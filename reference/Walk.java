import java.math.BigInteger;
import java.util.Arrays;
import java.util.Comparator;
import java.util.OptionalLong;
import java.util.function.BiFunction;
import java.util.function.LongBinaryOperator;
import java.util.function.LongFunction;
import java.util.function.LongPredicate;
import java.util.function.LongUnaryOperator;
import java.util.function.Supplier;
import java.util.stream.IntStream;
import java.util.stream.LongStream;

/**
 * One walk of one of Java's sequential streams, which remembers at which item it is, so that it can say at which stage and item its
 * first fault came. `run` writes classes whose jobs call these methods; the stages themselves are Java's.
 */
final class Walk {
    static final class Fault extends RuntimeException {
        Fault(String kind, int stage, String item) {
            super("fault " + kind + " stage " + stage + " item " + item, null, false, false);
        }
    }

    /** Ends a walk for which the time is up. */
    static final class TimeIsUp extends RuntimeException {
    }

    private static final long LOW = 0xFFFF_FFFFL;
    private static final long LONGEST_SOURCE = 1L << 62;
    private static final String TOO_LONG = "source-too-long";

    private final long end;
    private long place = -1;
    private long steps;

    private Walk(long end) {
        this.end = end;
    }

    LongStream source(LongStream items) {
        return items.map(value -> {
            place++;
            look();
            return value;
        });
    }

    /** The place of the item. */
    long row() {
        return place;
    }

    private void look() {
        steps++;
        if ((steps & 1023) == 0 && System.nanoTime() > end) {
            throw new TimeIsUp();
        }
    }

    private Fault fault(ArithmeticException thrown, int stage) {
        String message = thrown.getMessage();
        String kind = message.contains("zero") ? "divide-by-zero" : message.equals(TOO_LONG) ? TOO_LONG : "overflow";
        return new Fault(kind, stage, Long.toString(place));
    }

    /** An inner stream. Java has no limit of its length; streamrun has one. */
    static LongStream range(long start, long end) {
        if (start < end && (end - start < 0 || end - start > LONGEST_SOURCE)) {
            throw new ArithmeticException(TOO_LONG);
        }
        return LongStream.range(start, end);
    }

    static LongStream rangeClosed(long start, long last) {
        if (start <= last && (last - start < 0 || last - start >= LONGEST_SOURCE)) {
            throw new ArithmeticException(TOO_LONG);
        }
        return LongStream.rangeClosed(start, last);
    }

    private <T> T guarded(int stage, Supplier<T> call) {
        try {
            return call.get();
        } catch (ArithmeticException thrown) {
            throw fault(thrown, stage);
        }
    }

    LongUnaryOperator at(int stage, LongUnaryOperator function) {
        return value -> guarded(stage, () -> function.applyAsLong(value));
    }

    LongPredicate testAt(int stage, LongPredicate test) {
        return value -> guarded(stage, () -> test.test(value));
    }

    LongFunction<LongStream> streamAt(int stage, LongFunction<LongStream> function) {
        return value -> guarded(stage, () -> function.apply(value).peek(inner -> look()));
    }

    /** `Arrays.parallelPrefix` over the items, when the first one after it is asked for. */
    LongStream prefix(int stage, LongStream items, LongBinaryOperator operator) {
        return scanned(stage, items, null, operator);
    }

    LongStream prefix(int stage, LongStream items, long from, long to, LongBinaryOperator operator) {
        return scanned(stage, items, new long[] {from, to}, operator);
    }

    private LongStream scanned(int stage, LongStream items, long[] range, LongBinaryOperator operator) {
        return afterAll(items, (values, places) -> {
            if (range == null) {
                Arrays.parallelPrefix(values, operator);
            } else {
                try {
                    Arrays.parallelPrefix(values, toIndex(range[0]), toIndex(range[1]), operator);
                } catch (ArrayIndexOutOfBoundsException thrown) {
                    throw new Fault("out-of-array", stage, "-");
                }
            }
            return walk(values, places);
        });
    }

    /** The values by `LongStream.sorted`, their places by the stable sort of `Stream`. */
    LongStream sorted(LongStream items) {
        return afterAll(items, (values, places) -> {
            Comparator<Integer> byValue = Comparator.comparingLong(at -> values[at]);
            long[] moved = IntStream.range(0, values.length).boxed().sorted(byValue).mapToLong(at -> places[at]).toArray();
            return walk(LongStream.of(values).sorted().toArray(), moved);
        });
    }

    /** What comes of all items and their places, which are asked for with the first one that comes out. */
    private LongStream afterAll(LongStream items, BiFunction<long[], long[], LongStream> function) {
        return LongStream.of(0).flatMap(once -> {
            LongStream.Builder met = LongStream.builder();
            long[] values = items.peek(value -> met.add(place)).toArray();
            return function.apply(values, met.build().toArray());
        });
    }

    private LongStream walk(long[] values, long[] places) {
        return LongStream.range(0, values.length).map(at -> {
            place = places[(int) at];
            return values[(int) at];
        });
    }

    private static int toIndex(long position) {
        return (int) Math.min(position, Integer.MAX_VALUE);
    }

    /** A sum whose steps stay within 64 bits, by integers without a bound. */
    long exactSum(int stage, LongStream items) {
        BigInteger[] total = {BigInteger.ZERO};
        items.forEachOrdered(value -> {
            total[0] = total[0].add(BigInteger.valueOf(value));
            if (total[0].bitLength() > 63) {
                throw new Fault("overflow", stage, Long.toString(place));
            }
        });
        return total[0].longValueExact();
    }

    static long affine(long first, long second) {
        long a = first >>> 32, b = first & LOW, c = second >>> 32, d = second & LOW;
        return (a * c & LOW) << 32 | b * c + d & LOW;
    }

    interface Job {
        Object answer(Walk walk);
    }

    /** Prints the line of a job's answer, or a line without an answer if Java has none in this time. */
    static void run(String name, Job job, double seconds) {
        String answer;
        try {
            answer = text(job.answer(new Walk(System.nanoTime() + (long) (seconds * 1e9))));
        } catch (Fault fault) {
            answer = fault.getMessage();
        } catch (TimeIsUp | OutOfMemoryError | IllegalArgumentException | IllegalStateException none) {
            answer = "?";
        }
        System.out.println(name + " = " + answer);
    }

    private static String text(Object answer) {
        return answer instanceof long[] ? Arrays.toString((long[]) answer) : String.valueOf(answer);
    }
}
