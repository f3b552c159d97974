import java.util.stream.LongStream;

/** Runs a parallel stream with two faulty items and counts which of them is reported. */
public final class TwoFaults {
    private static final int RUNS = 2_000;
    private static final long ITEMS = 100_000;
    private static final long FIRST = 20_000;
    private static final long LATER = 90_000;

    public static void main(String[] arguments) {
        int first = 0;
        int later = 0;
        for (int run = 0; run < RUNS; run++) {
            try {
                LongStream.range(0, ITEMS).parallel().map(TwoFaults::divided).sum();
                throw new IllegalStateException("no fault was reported");
            } catch (ArithmeticException fault) {
                // A fault of another thread comes as a copy without its message; the original is its cause.
                Throwable original = fault.getCause() == null ? fault : fault.getCause();
                if (original.getMessage().endsWith(" " + FIRST)) {
                    first++;
                } else {
                    later++;
                }
            }
        }
        System.out.println(RUNS + " runs: the first faulty item " + first + " times, the later one " + later + " times");
        System.out.println("beyond 64 bits: " + LongStream.of(Long.MAX_VALUE, 1).sum());
    }

    private static long divided(long x) {
        if (x == FIRST || x == LATER) {
            throw new ArithmeticException("/ by zero at item " + x);
        }
        return 10 / (x + 1);
    }
}
