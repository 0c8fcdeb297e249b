/*
 * The night book from C: reads it, asks whether it is cleared, posts 5 to cell 0
 * and runs until nothing waits.
 *
 *   night books/night
 */
#include <inttypes.h>
#include <stdio.h>

#include "gwaunidor.h"

/* A 64-bit amount from its 8 bytes. */
static int64_t amount(const uint8_t *bytes) {
    uint64_t bits = 0;
    int i;
    for (i = 7; i >= 0; i--)
        bits = bits << 8 | bytes[i];
    return bits < (uint64_t)1 << 63 ? (int64_t)bits : -(int64_t)~bits - 1;
}

/* Says what was refused and why; whether the call went on. */
static int done(const char *call, uint32_t code) {
    if (code != 0)
        printf("%s refused: number %" PRIu32 ", place %" PRIu32 "\n", call, GWAUNIDOR_NUMBER(code),
               GWAUNIDOR_PLACE(code));
    return code == 0;
}

/* Takes a file's bytes, one more than the largest book at most. */
static size_t take(const char *name, uint8_t *book) {
    FILE *file = fopen(name, "rb");
    size_t length;
    if (file == NULL)
        return 0;
    length = fread(book, 1, GWAUNIDOR_BOOK_BYTES + 1, file);
    fclose(file);
    return length;
}

int main(int count, char **words) {
    static uint8_t book[GWAUNIDOR_BOOK_BYTES + 1], table[GWAUNIDOR_TABLE_BYTES];
    static uint8_t report[GWAUNIDOR_REPORT_BYTES], state[GWAUNIDOR_STATE_BYTES];
    static const uint8_t amounts[GWAUNIDOR_AMOUNTS_BYTES];
    uint32_t bound, steps, cell;
    size_t length;

    if (count != 2) {
        fprintf(stderr, "usage: night BOOK\n");
        return 2;
    }
    length = take(words[1], book);
    if (!done("read", gwaunidor_read(book, length, table)) || !done("report", gwaunidor_report(table, report)))
        return 1;
    printf("cleared: %s\n", report[2] ? "yes" : "no");
    if (!report[2])
        printf("first pair %d %d, because rules %d and %d do not commute\n", report[10], report[11], report[12],
               report[13]);
    if (!done("bound", gwaunidor_bound(table, 3, &bound)))
        return 1;
    printf("rules 0 and 1: at most %" PRIu32 " steps\n", bound);

    if (!done("fresh", gwaunidor_fresh(table, amounts, state)) || !done("post", gwaunidor_post(table, state, 0, 5))
        || !done("run", gwaunidor_run(table, state, bound, &steps)))
        return 1;
    printf("steps: %" PRIu32 "\n", steps);
    for (cell = 0; cell < table[2]; cell++)
        printf("cell %" PRIu32 ": %" PRId64 "\n", cell, amount(state + 8 * cell));
    return 0;
}
