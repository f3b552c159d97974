import static java.util.stream.LongStream.*;

import java.util.Arrays;
import java.util.OptionalLong;
import java.util.stream.LongStream;

/** What Java does otherwise, for docs/from-java.md: {@code java reference/FromJava.java NAME..}, with names such as LeftOut for leftOut. */
public final class FromJava {
    public static void main(String[] names) throws Exception {
        for (String name : names) {
            FromJava.class.getDeclaredMethod(name.substring(0, 1).toLowerCase() + name.substring(1)).invoke(null);
        }
    }

    private static void print(String name, Object answer) {
        System.out.println(name + " = " + (answer instanceof long[] values ? Arrays.toString(values) : answer));
    }

    /** Runs what has a fault, and prints the fault, or its message alone. */
    private static void fault(boolean isWhole, Runnable run) {
        try {
            run.run();
        } catch (RuntimeException fault) {
            System.out.println(isWhole ? fault : fault.getMessage());
        }
    }

    /** reduce takes every number and every operator. In parallel the number may be used once for each piece. */
    private static void anyIdentity() {
        long alone = range(0, 1000).reduce(10, Long::sum);
        long together = range(0, 1000).parallel().reduce(10, Long::sum);
        System.out.println(alone + " " + (together == alone));
        System.out.println(of(9, 3, 1).reduce((a, b) -> a - b));
    }

    /** The arguments of sources, limit and skip are expressions over constants and variables. */
    private static void arguments() {
        print("product", range(0, 10 * 10).sum());
        print("power", range(0, 1 << 20).count());
        long n = 3;
        print("n", n);
        print("up_to_n", range(0, n + 1).sum());
        print("limited", range(5, 100).limit(n).sum());
    }

    /** Columns are arrays side by side, walked by an index. */
    private static void rows() {
        long[] day = {1, 2, 3, 4}, price = {1250, 990, 1500, 1250}, quantity = {4, 0, -1, 10};
        print("revenue", range(0, 4).map(i -> price[(int) i] * quantity[(int) i]).reduce(0, Math::addExact));
        OptionalLong best = range(0, 4).filter(i -> quantity[(int) i] > 0).map(i -> price[(int) i]).max();
        print("best", best);
        print("best_row", range(0, 4).filter(i -> price[(int) i] == best.getAsLong()).findFirst());
        print("returned", range(0, 4).filter(i -> quantity[(int) i] < 0).map(i -> day[(int) i]).toArray());
    }

    /** The operators of bits and of equality are there for booleans too. */
    private static void booleanOperators() {
        print("both", range(0, 12).filter(x -> x > 2 & x < 9).count());
        print("either", range(0, 12).filter(x -> x < 2 | x > 8).count());
        print("just_one", range(0, 12).filter(x -> (x > 2) ^ (x < 9)).count());
        print("alike", range(0, 12).filter(x -> (x > 2) == (x < 9)).count());
        print("not_so", range(0, 12).filter(x -> x > 2 != true).count());
    }

    /** A comment may stand after a statement and within it, and a variable has a type. */
    private static void comments() {
        long commented = of(1, /* two */ 2).sum(); // three
        print("commented", commented);
    }

    /** A part of concat has stages of its own. */
    private static void concatStages() {
        print("squares", range(0, 3).map(x -> x * x).toArray());
        print("joined", concat(range(0, 3).map(x -> x * x), of(7)).toArray());
    }

    /** count() doesn't run the stages if they can't change the number of items. */
    private static void countSkipsStages() {
        print("mapped", of(1, 0).map(x -> 1 / x).count());
        fault(true, () -> print("filtered", of(1, 0).map(x -> 1 / x).filter(x -> true).count()));
    }

    /** The value of an empty optional is an exception. */
    private static void emptyOptional() {
        OptionalLong least = of(1, 2).filter(x -> x > 5).min();
        System.out.println(least);
        fault(false, () -> {
            long value = least.getAsLong();
            System.out.println(of(1).map(x -> x + value).sum());
        });
    }

    /** An exact sum on one thread and on several: a sum of a part may be too large where the whole isn't. */
    private static void exactSum() {
        System.out.println(of(-5, Long.MAX_VALUE, 3).reduce(0, Math::addExact));
        fault(false, () -> System.out.println(of(-5, Long.MAX_VALUE, 3).parallel().reduce(0, Math::addExact)));
    }

    /** A zero divisor ends the program: no item is named, and no later pipeline runs. */
    private static void faultEndsAll() {
        fault(true, () -> {
            print("q", of(5, 0, 2).map(x -> 10 / x).toArray());
            print("other", of(1, 2).sum());
        });
    }

    /** An inner stream has stages, and its lambdas see the outer parameter. */
    private static void innerStages() {
        print("products", range(1, 4).flatMap(x -> range(0, x).map(y -> x * y)).sum());
    }

    /** A line may end anywhere between two tokens. */
    private static void lineEnds() {
        long lines =
            range(0, 9).
                filter(x -> x % 2 == 0 &&
                    x > 2).
                sum();
        print("lines", lines);
    }

    /** A literal without L is an int, so a product, a sum and a shift of two are too. */
    private static void literals() {
        long product = 65536 * 65536;
        long written = 65536L * 65536;
        System.out.println(product + " " + written + " " + (1 << 40));
        System.out.println(010 + " " + 0x10 + " " + 1_000);
        fault(false, () -> System.out.println(Math.addExact(2147483647, 1)));
    }

    /** A source may have up to 2^64 - 1 values. */
    private static void longSource() {
        System.out.println(range(Long.MIN_VALUE, Long.MAX_VALUE).findFirst());
    }

    /** An optional is asked for its value, or for another one if it is empty. */
    private static void orElse() {
        print("most", empty().reduce(Long.MIN_VALUE, Math::max));
        print("or_else", empty().max().orElse(-1));
        print("value", of(3, 1, 4).max().getAsLong());
    }

    /** Methods of Math and Long that job files have not. */
    private static void otherMethods() {
        print("signs", of(-5, 0, 7).map(x -> Long.signum(x)).toArray());
        print("next", of(-5, 0, 7).map(x -> Math.incrementExact(x)).toArray());
        print("sizes", of(-5, 0, 7).map(x -> Math.absExact(x)).toArray());
        print("bits", of(5, 255).map(x -> Long.bitCount(x)).toArray());
    }

    /** Running totals are a call on an array, and not a stage. */
    private static void runningTotals() {
        long[] values = of(2, 1, 0, 3).toArray();
        Arrays.parallelPrefix(values, Long::sum);
        System.out.println(Arrays.toString(values));
        long[] part = {1, 2, 3, 4};
        Arrays.parallelPrefix(part, 1, 3, Long::sum);
        System.out.println(Arrays.toString(part));
        fault(true, () -> {
            long[] faulty = of(2, 1).map(x -> 1 / (x - 1)).toArray();
            Arrays.parallelPrefix(faulty, Long::sum);
            System.out.println(of(faulty).limit(0).count());
        });
    }

    /** An operator may be spelled in any way. */
    private static void spelledOperators() {
        print("sum", of(3, 1, 4).reduce(0, (a, b) -> b + a));
        print("greatest", of(3, 1, 4).reduce((a, b) -> a > b ? a : b));
        print("greatest_too", of(3, 1, 4).reduce((a, b) -> Math.max(b, a)));
    }

    /** A stream is walked once. An array is where values are kept. */
    private static void streamOnce() {
        LongStream prices = of(120, 80, 200);
        long total = prices.sum();
        fault(false, () -> System.out.println(total + " " + prices.max()));
        long[] kept = {120, 80, 200};
        long sum = of(kept).sum();
        System.out.println(of(kept).map(x -> x * 100 / sum).boxed().toList());
    }

    /** What LongStream has and job files have not: each is called once, so the names are Java's. */
    private static void leftOut() {
        System.out.println(Arrays.toString(of(3, 1, 3).sorted().distinct().toArray()));
        System.out.println(of(3, 1, 3).average() + " " + of(3, 1).summaryStatistics());
        System.out.println(of(3).boxed().toList() + " " + of(3).mapToObj(x -> "x" + x).toList());
        System.out.println(of(3).mapToInt(x -> (int) x).sum() + " " + of(3).asDoubleStream().sum());
        of(3).peek(x -> System.out.print("peek ")).forEach(System.out::println);
        of(4).forEachOrdered(System.out::println);
        System.out.println(of(3, 1).collect(() -> new long[1], (a, x) -> a[0] += x, (a, b) -> a[0] += b[0])[0]);
        System.out.println(of(5).findAny() + " " + iterate(1, x -> 2 * x).limit(4).sum());
        System.out.println(generate(() -> 7).limit(2).sum() + " " + builder().add(8).build().sum());
        System.out.println(of(2).mapMulti((x, sink) -> sink.accept(x * x)).sum());
        LongStream stream = of(-9).parallel().sequential().unordered().onClose(() -> System.out.println("closed"));
        try (stream) {
            System.out.println(stream.map(Math::abs).sum());
        }
        double half = of(1).asDoubleStream().map(x -> x / 2).sum();
        System.out.println(half);
    }
}
