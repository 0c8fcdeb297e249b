/*
 * The border from C, by the header, over the archive that is delivered: takes
 * calls from standard input and writes what they give to standard output, until
 * the input ends. tests/suite/delivered.rs asks.
 *
 * A call is a byte, a length of 4 bytes and so many bytes. After 'r' for read or
 * 'c' for check they are a book or a table, and the answer is the returned
 * number, 4 bytes, and the bytes of the table as the call left it. After the
 * letter of another call on a table they are the table, the memory that the call
 * writes, 256 bytes of amounts, a number of 4 bytes and a value of 8; the answer
 * is the returned number, the number behind the pointer, and that memory. After
 * 'l' for lines or 'e' for the editor's row they are the length of the memory
 * that the call writes, 4 bytes, and the book or the row, and the answer is the
 * same.
 */
#include "gwaunidor.h"

/* POSIX, declared here: a compiler for another processor may lack its headers. */
extern long read(int file, void *bytes, size_t count);
extern long write(int file, const void *bytes, size_t count);

#define GUARD 64
#define GUARD_BYTE 0x5A
#define OLD_BYTE 0xA5
#define MOST_BYTES 32768
#define REST_BYTES (GWAUNIDOR_AMOUNTS_BYTES + 4 + 8)

static uint8_t given[MOST_BYTES];
static uint8_t kept[MOST_BYTES];
static uint8_t lent[GUARD + GWAUNIDOR_TABLE_BYTES + GUARD];
static uint8_t *const table = lent + GUARD;
static uint8_t lent_out[GUARD + MOST_BYTES + GUARD];
static uint8_t *const out = lent_out + GUARD;

/* Takes so many bytes; 0 where the input ends first. */
static int take(uint8_t *bytes, size_t count) {
    while (count > 0) {
        long taken = read(0, bytes, count);
        if (taken <= 0)
            return 0;
        bytes += taken;
        count -= (size_t)taken;
    }
    return 1;
}

static int give(const uint8_t *bytes, size_t count) {
    while (count > 0) {
        long given = write(1, bytes, count);
        if (given <= 0)
            return 0;
        bytes += given;
        count -= (size_t)given;
    }
    return 1;
}

static void fill(uint8_t *bytes, size_t count, uint8_t byte) {
    size_t i;
    for (i = 0; i < count; i++)
        bytes[i] = byte;
}

static void copy(uint8_t *to, const uint8_t *from, size_t count) {
    size_t i;
    for (i = 0; i < count; i++)
        to[i] = from[i];
}

static int same(const uint8_t *left, const uint8_t *right, size_t count) {
    size_t i;
    for (i = 0; i < count; i++)
        if (left[i] != right[i])
            return 0;
    return 1;
}

/* Whether the guards on both sides of so many lent bytes are whole. */
static int guards_are_whole(const uint8_t *bytes, size_t count) {
    size_t i;
    for (i = 0; i < GUARD; i++)
        if (bytes[i - GUARD] != GUARD_BYTE || bytes[count + i] != GUARD_BYTE)
            return 0;
    return 1;
}

static uint32_t number_at(const uint8_t *bytes) {
    return bytes[0] | (uint32_t)bytes[1] << 8 | (uint32_t)bytes[2] << 16 | (uint32_t)bytes[3] << 24;
}

static int give_number(uint32_t number) {
    uint8_t told[4];
    int i;
    for (i = 0; i < 4; i++)
        told[i] = (uint8_t)(number >> 8 * i);
    return give(told, 4);
}

/* A read or a check, and its answer. */
static int answer_with_table(uint8_t kind, size_t length) {
    uint32_t code;
    if (kind == 'r') {
        fill(table, GWAUNIDOR_TABLE_BYTES, OLD_BYTE);
        code = gwaunidor_read(given, length, table);
    } else {
        copy(table, given, GWAUNIDOR_TABLE_BYTES);
        code = gwaunidor_check(table);
    }
    return guards_are_whole(table, GWAUNIDOR_TABLE_BYTES) && give_number(code)
        && give(table, GWAUNIDOR_TABLE_BYTES);
}

/* The call of that letter, on the lent table and memory. */
static uint32_t call(uint8_t kind, size_t size, const uint8_t *rest, uint32_t *word) {
    uint32_t number = number_at(rest + GWAUNIDOR_AMOUNTS_BYTES);
    uint64_t low = number_at(rest + GWAUNIDOR_AMOUNTS_BYTES + 4);
    uint64_t high = number_at(rest + GWAUNIDOR_AMOUNTS_BYTES + 8);
    switch (kind) {
    case 'j':
        return gwaunidor_report(table, out);
    case 'b':
        return gwaunidor_bound(table, number, word);
    case 'f':
        return gwaunidor_fresh(table, rest, out);
    case 's':
        return gwaunidor_step(table, out, number);
    case 'p':
        return gwaunidor_post(table, out, number, (int64_t)(high << 32 | low));
    case 'n':
        return gwaunidor_run(table, out, number, word);
    case 'w':
        return gwaunidor_write(table, out, size, word);
    default:
        return gwaunidor_size(table, word);
    }
}

/* Another call on a table, and its answer; the table is as it was. */
static int answer_on_table(uint8_t kind, size_t length) {
    size_t size = length - GWAUNIDOR_TABLE_BYTES - REST_BYTES;
    const uint8_t *memory = given + GWAUNIDOR_TABLE_BYTES;
    uint32_t word = 0xA5A5A5A5u, code;
    fill(lent_out, sizeof lent_out, GUARD_BYTE);
    copy(table, given, GWAUNIDOR_TABLE_BYTES);
    copy(out, memory, size);
    code = call(kind, size, memory + size, &word);
    return same(table, given, GWAUNIDOR_TABLE_BYTES) && guards_are_whole(table, GWAUNIDOR_TABLE_BYTES)
        && guards_are_whole(out, size) && give_number(code) && give_number(word) && give(out, size);
}

/* Lines or the report on a row, and its answer; what was given is as it was. */
static int answer_with_bytes(uint8_t kind, size_t length) {
    size_t size = number_at(given);
    uint32_t word = 0xA5A5A5A5u, code;
    if (size > (kind == 'l' ? MOST_BYTES : GWAUNIDOR_REPORT_BYTES))
        return 0;
    fill(lent_out, sizeof lent_out, GUARD_BYTE);
    fill(out, size, OLD_BYTE);
    copy(kept, given, length);
    if (kind == 'l')
        code = gwaunidor_lines(given + 4, length - 4, out, size, &word);
    else
        code = gwaunidor_rows(given + 4, length - 4, out);
    return same(given, kept, length) && guards_are_whole(out, size) && give_number(code) && give_number(word)
        && give(out, size);
}

/* One call and its answer; 0 where the input has ended or the call is none. */
static int answer(void) {
    uint8_t head[5];
    uint32_t length;
    if (!take(head, 5))
        return 0;
    length = number_at(head + 1);
    if (length > MOST_BYTES || !take(given, length))
        return 0;
    fill(lent, sizeof lent, GUARD_BYTE);
    if (head[0] == 'r' || (head[0] == 'c' && length == GWAUNIDOR_TABLE_BYTES))
        return answer_with_table(head[0], length);
    if ((head[0] == 'l' || head[0] == 'e') && length >= 4)
        return answer_with_bytes(head[0], length);
    if (length < GWAUNIDOR_TABLE_BYTES + REST_BYTES)
        return 0;
    return answer_on_table(head[0], length);
}

int main(void) {
    while (answer()) {
    }
    return 0;
}
