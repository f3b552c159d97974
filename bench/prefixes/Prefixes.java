import java.util.Arrays;
import java.util.function.LongBinaryOperator;
import java.util.stream.LongStream;

/** {@code java Prefixes OPERATOR COUNT}: an array filled, scanned by {@code Arrays.parallelPrefix} and added up, in parallel. */
public final class Prefixes {
    public static void main(String[] arguments) {
        LongBinaryOperator operator = arguments[0].equals("max") ? Math::max : Long::sum;
        long[] items = LongStream.range(0, Long.parseLong(arguments[1])).parallel().toArray();
        Arrays.parallelPrefix(items, operator);
        System.out.println("q = " + Arrays.stream(items).parallel().sum());
    }
}
