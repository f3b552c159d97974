// The jobs of the part operators as one would write them in C, over the numbers below 50,000: for each its name, the best time of 40
// runs in nanoseconds, and its result. Unsigned arithmetic wraps as Java's does.
#include <stdint.h>
#include <stdio.h>
#include <time.h>

#define COUNT 50000

static int64_t nanos(void) {
    struct timespec t;
    clock_gettime(CLOCK_MONOTONIC, &t);
    return (int64_t)t.tv_sec * 1000000000 + t.tv_nsec;
}

static int64_t times(int64_t x, int64_t y) { return (int64_t)((uint64_t)x * (uint64_t)y); }
static int64_t plus(int64_t x, int64_t y) { return (int64_t)((uint64_t)x + (uint64_t)y); }
static int64_t minus(int64_t x, int64_t y) { return (int64_t)((uint64_t)x - (uint64_t)y); }

static int64_t fifteen(int64_t x) {
    int64_t shifted = (int64_t)((uint64_t)x >> 3);
    int64_t a = minus(times(plus(times(x, 31), 7) ^ shifted, 13), 5) ^ times(x, 4);
    return plus(minus(times(plus(a, x & 255), 3), x ^ 85), x) | 1;
}

// The compiler can't know how many numbers there are. `s` is the result.
#define TIME(name, step)                                                    \
    {                                                                       \
        int64_t best = INT64_MAX, s = 0;                                    \
        for (int run = 0; run < 40; run++) {                                \
            int64_t begun = nanos();                                        \
            s = 0;                                                          \
            for (int64_t x = 0; x < count; x++) {                           \
                step;                                                       \
            }                                                               \
            int64_t taken = nanos() - begun;                                \
            __asm__ volatile("" : : "r"(s));                                \
            best = taken < best ? taken : best;                             \
        }                                                                   \
        printf(name " %lld %lld\n", (long long)best, (long long)s);         \
    }

#define MAP(name, image) TIME(name, s = plus(s, image))

int main(int argc, char **argv) {
    (void)argv;
    const int64_t count = COUNT + argc - 1;
    TIME("map_filter_sum", int64_t v = plus(times(x, 3), 1); if ((v & 4) == 0) s = plus(s, v))
    MAP("fifteen", fifteen(x))
    MAP("choice", (x & 4) == 0 ? times(x, 3) : plus(x, 1))
    TIME("exact", int64_t v; if (__builtin_add_overflow(x, 5, &v)) break; s = plus(s, v))
    TIME("any_match", if (times(x, 3) > 1000000000) { s = 1; break; })
    TIME("flat_map_pair", s = plus(s, plus(x, x)))
    TIME("flat_map", for (int64_t y = 0; y < (x & 3); y++) s = plus(s, y))
    MAP("add", plus(x, 5))
    MAP("multiply", times(x, 31))
    MAP("divide", x / 7)
    MAP("remainder", x % 7)
    MAP("floor_div", x / 7 - (x % 7 < 0))
    MAP("floor_mod", x % 7 < 0 ? x % 7 + 7 : x % 7)
    MAP("divide_power", x / 8)
    MAP("remainder_power", x % 8)
    MAP("floor_div_power", x >> 3)
    MAP("floor_mod_power", x & 7)
    return 0;
}
