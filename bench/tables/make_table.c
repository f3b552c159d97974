/* Writes a table of integers: make_table ROWS COLUMNS [mixed|short|long|quoted]. In a mixed or quoted table the columns are
   numbers of up to ten digits with signs, a row's number, numbers of up to three digits, and of up to ten digits, in turn;
   in a quoted one each cell stands in quotes. Short numbers have one to three digits, long ones up to nineteen and a sign.
   make_table ROWS 5 text|lines has two columns of text of 8 to 40 bytes among id, city, qty, price and note: city is bare, and
   note stands in quotes, with commas and quotes in it; in `lines` a fifth of the notes have a line feed. */
#include <stdint.h>
#include <stdio.h>
#include <stdlib.h>
#include <string.h>

static uint64_t x = 88172645463325252u;

static uint64_t next(void) {
    x ^= x << 13;
    x ^= x >> 7;
    x ^= x << 17;
    return x;
}

static long mixed(long row, long column) {
    uint64_t random = next();
    switch (column % 4) {
    case 0: return (long)(random % 2000000000) - 1000000000;
    case 1: return row;
    case 2: return (long)(random % 1000);
    default: return (long)(random % 10000000000);
    }
}

/* A text of 8 to 40 bytes; a quoted one has some commas and quotes. */
static void text(int is_quoted, int has_line) {
    int length = 8 + (int)(next() % 33);
    for (int at = 0; at < length; at++) {
        uint64_t random = next();
        if (is_quoted && random % 16 == 0 && at + 1 < length) {
            fputs("\"\"", stdout);
            at++;
        } else
            putchar(has_line && at == length / 2 ? '\n' : is_quoted && random % 16 == 1 ? ',' : "etaoin shrdlu etaoin"[random / 16 % 20]);
    }
}

static int texts(long rows, int has_lines) {
    puts("id,city,qty,price,note");
    for (long row = 0; row < rows; row++) {
        printf("%ld,", row);
        text(0, 0);
        printf(",%ld,%ld,\"", (long)(next() % 1000) - 9, (long)(next() % 1000000));
        text(1, has_lines && next() % 5 == 0);
        puts("\"");
    }
    return 0;
}

int main(int count, char **words) {
    if (count < 3) {
        fputs("make_table ROWS COLUMNS [mixed|short|long|quoted|text|lines]\n", stderr);
        return 2;
    }
    long rows = atol(words[1]), columns = atol(words[2]);
    const char *shape = count > 3 ? words[3] : "mixed";
    if (strcmp(shape, "text") == 0 || strcmp(shape, "lines") == 0)
        return texts(rows, shape[0] == 'l');
    int is_short = strcmp(shape, "short") == 0, is_long = strcmp(shape, "long") == 0;
    const char *quote = strcmp(shape, "quoted") == 0 ? "\"" : "";
    for (long column = 0; column < columns; column++)
        printf("%s%sc%ld%s", column > 0 ? "," : "", quote, column, quote);
    putchar('\n');
    for (long row = 0; row < rows; row++) {
        for (long column = 0; column < columns; column++) {
            long value = is_short ? (long)(next() % 1000) : is_long ? (long)(next() >> 1) : mixed(row, column);
            if (is_long && (next() & 1))
                value = -value;
            printf("%s%s%ld%s", column > 0 ? "," : "", quote, value, quote);
        }
        putchar('\n');
    }
    return 0;
}
