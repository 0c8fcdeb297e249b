/*
 * The peak stack of each call, in bytes: the call is made on a stack of its own
 * that was filled with one byte, and what no longer holds it was used; less than
 * 512 may be told as 512. Each call is made on the books named and on a full one
 * of 32 rules, and must be done. Ends with 1 where one is not done or takes more
 * than 8 kilobytes.
 *
 *   stack BOOK..
 */
#define _POSIX_C_SOURCE 200809L
#include <pthread.h>
#include <stdio.h>
#include <stdlib.h>
#include <string.h>

#include "gwaunidor.h"

#define ROOM (1024 * 1024)
#define MARGIN 512
#define FILL 0xA5
#define LIMIT (8 * 1024)

static uint8_t book[GWAUNIDOR_BOOK_BYTES + 1], table[GWAUNIDOR_TABLE_BYTES], out[GWAUNIDOR_BOOK_BYTES];
static uint8_t report[GWAUNIDOR_REPORT_BYTES], state[GWAUNIDOR_STATE_BYTES], rows[32 * GWAUNIDOR_RECORD_BYTES];
static const uint8_t amounts[GWAUNIDOR_AMOUNTS_BYTES];
static size_t length;
static uint32_t code, number;

/* In the order below each is done on the night book and on a staircase: cell 0
   is posted, one step is run, rule 2 is the next, and the rest is run. */
static void call_read(void) { code = gwaunidor_read(book, length, table); }
static void call_check(void) { code = gwaunidor_check(table); }
static void call_report(void) { code = gwaunidor_report(table, report); }
static void call_bound(void) { code = gwaunidor_bound(table, 7, &number); }
static void call_fresh(void) { code = gwaunidor_fresh(table, amounts, state); }
static void call_post(void) { code = gwaunidor_post(table, state, 0, 5); }
static void call_run(void) { code = gwaunidor_run(table, state, 1, &number) % 256 == 15 ? 0 : 1; }
static void call_step(void) { code = gwaunidor_step(table, state, 2); }
static void call_run_on(void) { code = gwaunidor_run(table, state, 100000, &number); }
static void call_write(void) { code = gwaunidor_write(table, out, sizeof out, &number); }
static void call_size(void) { code = gwaunidor_size(table, &number); }
static void call_lines(void) { code = gwaunidor_lines(book, length, out, sizeof out, &number); }
static void call_rows(void) { code = gwaunidor_rows(rows, sizeof rows, report); }

static struct {
    const char *name;
    void (*call)(void);
    size_t most;
} calls[] = {{"read", call_read, 0},
             {"check", call_check, 0},
             {"report", call_report, 0},
             {"bound", call_bound, 0},
             {"fresh", call_fresh, 0},
             {"post", call_post, 0},
             {"run", call_run, 0},
             {"step", call_step, 0},
             {"run on", call_run_on, 0},
             {"write", call_write, 0},
             {"size", call_size, 0},
             {"rows", call_rows, 0},
             {"lines", call_lines, 0}};
#define CALLS (sizeof calls / sizeof *calls)

static uint8_t *stack;
static size_t used;

/* Fills what lies below, but for a margin, makes the call, and looks how far
   down it went. */
static void *made(void *call) {
    uint8_t here;
    size_t room = (size_t)((uintptr_t)&here - (uintptr_t)stack), untouched = 0;
    memset(stack, FILL, room - MARGIN);
    (*(void (**)(void))call)();
    while (untouched < room && stack[untouched] == FILL)
        untouched++;
    used = room - untouched;
    return NULL;
}

/* Makes the call on a stack of its own. */
static void make(void (*call)(void)) {
    pthread_t thread;
    pthread_attr_t attributes;
    if (pthread_attr_init(&attributes) != 0 || pthread_attr_setstack(&attributes, stack, ROOM) != 0
        || pthread_create(&thread, &attributes, made, &call) != 0 || pthread_join(thread, NULL) != 0)
        exit(2);
}

/* A mask as 4 bytes. */
static void put(uint8_t *bytes, uint32_t mask) {
    int i;
    for (i = 0; i < 4; i++)
        bytes[i] = (uint8_t)(mask >> (8 * i));
}

/* A staircase of 32 rules, each with as many tests, assignments and letters as
   may be: rule i watches all lower cells, adds 1 to itself and its next cells,
   if cell 0 is at least 0, and goes before the next rule. The editor's rows are
   the same. Its book is written into `book`. */
static void full_book(void) {
    uint32_t i, slot, writes;
    table[1] = table[2] = 32;
    for (i = 0; i < 32; i++) {
        uint8_t *rule = table + 4 + GWAUNIDOR_RULE_BYTES * i, *row = rows + GWAUNIDOR_RECORD_BYTES * i;
        uint8_t *assign = rule + 108;
        uint32_t below = ((uint32_t)1 << i) - 1, next = i < 31 ? (uint32_t)2 << i : 0;
        put(rule, below);
        put(rule + 4, next);
        rule[8] = 8;
        rule[9] = (uint8_t)(i < 24 ? 8 : 32 - i);
        rule[10] = 16;
        for (slot = 0; slot < 8; slot++)
            rule[12 + 12 * slot + 1] = 5;
        writes = 0;
        for (slot = 0; slot < rule[9]; slot++, assign += 20) {
            assign[0] = assign[2] = (uint8_t)(i + slot);
            assign[1] = assign[4] = 1;
            writes |= (uint32_t)1 << assign[0];
        }
        sprintf((char *)report, "the-full-rule-%02u", (unsigned)i);
        memcpy(rule + 268, report, 16);
        put(row, below);
        put(row + 4, writes | 1);
        put(row + 8, writes);
        put(row + 12, next);
    }
    if (gwaunidor_write(table, book, sizeof book, &number) != 0)
        exit(2);
    length = number;
}

/* All calls, one after another; whether one is not done. */
static int measured(const char *name) {
    size_t i;
    int failed = 0;
    for (i = 0; i < CALLS; i++) {
        make(calls[i].call);
        if (used > calls[i].most)
            calls[i].most = used;
        if (code != 0) {
            printf("%s on %s: %lu\n", calls[i].name, name, (unsigned long)code);
            failed = 1;
        }
    }
    return failed;
}

int main(int count, char **words) {
    size_t i;
    int failed, word;
    void *room;
    if (posix_memalign(&room, 65536, ROOM) != 0)
        return 2;
    stack = room;
    full_book();
    failed = measured("the full book");
    for (word = 1; word < count; word++) {
        FILE *file = fopen(words[word], "rb");
        if (file == NULL)
            return 2;
        length = fread(book, 1, sizeof book, file);
        fclose(file);
        failed |= measured(words[word]);
    }
    for (i = 0; i < CALLS; i++) {
        int above = calls[i].most > LIMIT;
        printf("%-8s%7lu%s\n", calls[i].name, (unsigned long)calls[i].most, above ? "  above the limit" : "");
        failed |= above;
    }
    return failed;
}
