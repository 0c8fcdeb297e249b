/*
 * Rule books for C and C++: the proved library's calls, on bytes and numbers.
 *
 * Every call returns a 32-bit number: 0 when done, else number + 256 x place,
 * with the number and the place of the table "Numbers given back" (1 to 18;
 * the place is the rule's number for 5 to 9, else 255). GWAUNIDOR_NUMBER and
 * GWAUNIDOR_PLACE take it apart.
 *
 * Memory. The caller owns all of it. A call uses what it is lent until it
 * returns and keeps no pointer; it allocates nothing, calls nothing back and
 * has no state of its own, so threads may call at the same time on memory of
 * their own. No pointer may be null, not even with length 0. What a call
 * writes may overlap nothing else that it is lent. Beside what is said here
 * no byte is written. A call takes at most 8 kilobytes of stack (measured, where
 * all else here is proved).
 *
 * Numbers in lent bytes are little-endian; constants and amounts are 64-bit
 * two's complement. A number behind a pointer is the processor's own uint32_t.
 */
#ifndef GWAUNIDOR_H
#define GWAUNIDOR_H

#include <stddef.h>
#include <stdint.h>

#ifdef __cplusplus
extern "C" {
#endif

/* The largest book, in bytes. A longer one is refused by 1. */
#define GWAUNIDOR_BOOK_BYTES 9220

/*
 * A table in memory, in bytes. Byte 0 and byte 3 are not looked at (set 0),
 * byte 1 is n, byte 2 is k; then 32 rules of GWAUNIDOR_RULE_BYTES each, laid
 * out like a body with every slot present: watch (4), precedes (4), t, a, m,
 * the fourth count byte, 8 tests of 12 bytes, 8 assignments of 20, 16 letters.
 * Slots past a count, and rules from n up, are all zero.
 */
#define GWAUNIDOR_TABLE_BYTES 9092
#define GWAUNIDOR_RULE_BYTES 284

/*
 * A report, in bytes: 0 number, 1 place (255 when done), 2 verdict (1 cleared,
 * 0 not), 3 zero, 4 to 7 the mask of faulty rules, 8 and 9 the count of failing
 * pairs, 10 and 11 the first failing pair, 12 and 13 its culprits, 14 and 15
 * zero, 16 to 511 a mark for each pair (0,1), (0,2) .. (30,31), row by row: 0
 * ordered or absent, 1 passes, 2 fails.
 */
#define GWAUNIDOR_REPORT_BYTES 512

/* 32 amounts, in bytes: one of 8 bytes for each cell, 0 from cell k up. */
#define GWAUNIDOR_AMOUNTS_BYTES 256

/*
 * A state, in bytes: the 32 amounts, then the mask of waiting rules (4) and the
 * mask of fault marks (4). Any bytes may be lent; a state that does not fit the
 * table is refused by 11.
 */
#define GWAUNIDOR_STATE_BYTES 264

/* A record of the editor, in bytes: four masks. */
#define GWAUNIDOR_RECORD_BYTES 16

/* A buffer of so many bytes is long enough for a book's lines. */
#define GWAUNIDOR_LINES_BYTES 512

/* The number and the place of what a call returned; done is 0 with place 0. */
#define GWAUNIDOR_NUMBER(code) ((code) % 256u)
#define GWAUNIDOR_PLACE(code) ((code) / 256u)

/*
 * Reads a book of `length` bytes into a table.
 *
 * book    `length` bytes, read only. Any length; any bytes.
 * table   GWAUNIDOR_TABLE_BYTES, all of them written, bytes 0 and 3 with 0.
 *         A refused read leaves zeros in all of them.
 *
 * Gives 0, or refuses by 1 to 10.
 */
uint32_t gwaunidor_read(const uint8_t *book, size_t length, uint8_t *table);

/*
 * Checks a table, as every call on a table does first.
 *
 * table   GWAUNIDOR_TABLE_BYTES, read only. Any bytes.
 *
 * Gives 0, or refuses by 3, 5 to 9 (7 also for a rule slot past n, the place
 * being that slot) or 10.
 */
uint32_t gwaunidor_check(const uint8_t *table);

/*
 * The report on a table: whether it is cleared, and what stands in the way.
 *
 * table   GWAUNIDOR_TABLE_BYTES, read only. Any bytes.
 * out     GWAUNIDOR_REPORT_BYTES, all of them written. A refused report has
 *         zeros from byte 2 on.
 *
 * Gives 0, cleared or not, or refuses as gwaunidor_check does.
 */
uint32_t gwaunidor_report(const uint8_t *table, uint8_t *out);

/*
 * The step bound of a set of rules.
 *
 * table   GWAUNIDOR_TABLE_BYTES, read only. Any bytes.
 * set     a mask of 32 bits: bit i is rule i.
 * bound   one number, written; 0 where refused.
 *
 * Gives 0, or refuses as gwaunidor_check does, by 11 (a bit from n up) or by
 * 17.
 */
uint32_t gwaunidor_bound(const uint8_t *table, uint32_t set, uint32_t *bound);

/*
 * A fresh state: these amounts, nothing waiting and no fault marks.
 *
 * table   GWAUNIDOR_TABLE_BYTES, read only. Any bytes.
 * amounts GWAUNIDOR_AMOUNTS_BYTES, read only. Any bytes.
 * state   GWAUNIDOR_STATE_BYTES, all of them written; zeros where refused.
 *
 * Gives 0, or refuses as gwaunidor_check does or by 11.
 */
uint32_t gwaunidor_fresh(const uint8_t *table, const uint8_t *amounts,
                         uint8_t *state);

/*
 * One step on a rule.
 *
 * table   GWAUNIDOR_TABLE_BYTES, read only. Any bytes.
 * state   GWAUNIDOR_STATE_BYTES, changed on the spot; untouched where refused.
 * rule    the rule's number; any number of 32 bits (256 is not 0).
 *
 * Gives 0, also where a test is false or the rule gets a fault mark, or refuses
 * as gwaunidor_check does or by 11 to 14.
 */
uint32_t gwaunidor_step(const uint8_t *table, uint8_t *state, uint32_t rule);

/*
 * Posts a value to a cell.
 *
 * table   GWAUNIDOR_TABLE_BYTES, read only. Any bytes.
 * state   GWAUNIDOR_STATE_BYTES, changed on the spot; untouched where refused.
 * cell    the cell's number; any number of 32 bits (256 is not 0).
 * value   any number of 64 bits.
 *
 * Gives 0, or refuses as gwaunidor_check does, by 11 or by 16.
 */
uint32_t gwaunidor_post(const uint8_t *table, uint8_t *state, uint32_t cell,
                        int64_t value);

/*
 * Runs: steps the lowest-numbered eligible rule until none waits or the budget
 * is used.
 *
 * table   GWAUNIDOR_TABLE_BYTES, read only. Any bytes.
 * state   GWAUNIDOR_STATE_BYTES, changed on the spot; untouched where refused.
 * budget  the most steps to take, 0 to 4,294,967,295.
 * steps   one number, written: the steps taken; 0 where refused.
 *
 * Gives 0 when none waits, or 15 with place 255 when the budget is used while
 * rules wait; 15 is no refusal: state and steps are those reached. Refuses as
 * gwaunidor_check does or by 11.
 */
uint32_t gwaunidor_run(const uint8_t *table, uint8_t *state, uint32_t budget,
                       uint32_t *steps);

/*
 * Writes a table as a book.
 *
 * table   GWAUNIDOR_TABLE_BYTES, read only. Any bytes.
 * out     `out_len` bytes, the first of them written with the book; the bytes
 *         after the book, and all of them where refused, are untouched.
 * written one number, written: the book's length; 0 where refused.
 *
 * Gives 0, or refuses as gwaunidor_check does or by 18. A buffer of
 * GWAUNIDOR_BOOK_BYTES is enough for every book.
 */
uint32_t gwaunidor_write(const uint8_t *table, uint8_t *out, size_t out_len,
                         uint32_t *written);

/*
 * How long a table's book is.
 *
 * table   GWAUNIDOR_TABLE_BYTES, read only. Any bytes.
 * size    one number, written: the book's length; 0 where refused.
 *
 * Gives 0, or refuses as gwaunidor_check does.
 */
uint32_t gwaunidor_size(const uint8_t *table, uint32_t *size);

/*
 * What the report program prints for a book: four lines, or one that begins
 * with `refused`, in ASCII, each ended by a newline and none by a zero byte.
 *
 * book    `length` bytes, read only. Any length; any bytes.
 * out     `out_len` bytes, the first of them written with the lines; the bytes
 *         after them are untouched. A buffer that is too short for all of the
 *         lines is left as it was.
 * written one number, written: the lines' length; 0 where the buffer is too
 *         short.
 *
 * Gives what gwaunidor_read gives for the book; the lines are written also
 * where it is refused. A buffer of GWAUNIDOR_LINES_BYTES is always enough.
 */
uint32_t gwaunidor_lines(const uint8_t *book, size_t length, uint8_t *out,
                         size_t out_len, uint32_t *written);

/*
 * The report on a row of the editor's records.
 *
 * rows    `length` bytes, read only: GWAUNIDOR_RECORD_BYTES for each record, the
 *         masks watch, reads, writes and precedes of 4 bytes each. Any bytes;
 *         those after the last whole record are not looked at.
 * out     GWAUNIDOR_REPORT_BYTES, all of them written. A refused report has
 *         zeros from byte 2 on.
 *
 * Gives 0, cleared or not, or refuses by 3 (more than 32 records), by 6 (a
 * precedes bit beyond the row; the place is the record's number) or by 10. All
 * 32 bits of watch, reads and writes are taken as cells.
 */
uint32_t gwaunidor_rows(const uint8_t *rows, size_t length, uint8_t *out);

#ifdef __cplusplus
}
#endif

#endif
