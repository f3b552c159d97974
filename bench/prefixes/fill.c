/* Running sums in an array: it is filled with the numbers from 0 on, scanned and added up. */
#include <stdint.h>
#include <stdio.h>
#include <stdlib.h>

int main(int argc, char **argv) {
    long count = argc > 1 ? atol(argv[1]) : 10000000;
    int64_t *values = malloc((size_t)count * sizeof *values);
    if (values == NULL) return 1;
    for (long i = 0; i < count; i++) values[i] = i;
    uint64_t running = 0;
    for (long i = 0; i < count; i++) {
        running += (uint64_t)values[i];
        values[i] = (int64_t)running;
    }
    uint64_t total = 0;
    for (long i = 0; i < count; i++) total += (uint64_t)values[i];
    printf("q = %lld\n", (long long)(int64_t)total);
    free(values);
    return 0;
}
