/* The proved library's C interface. Link libnokchbem.a, which the build of rust/nokchbem writes to target/staticlib. */
#ifndef NOKCHBEM_H
#define NOKCHBEM_H

#include <stddef.h>
#include <stdint.h>

#ifdef __cplusplus
extern "C" {
#endif

/* A refusal is returned as number * 2^32 + line * 2^16 + col; its number is never 0. */
#define NOKCHBEM_NUMBER(result) ((uint16_t)((uint64_t)(result) >> 32))
#define NOKCHBEM_LINE(result) ((uint16_t)((uint64_t)(result) >> 16))
#define NOKCHBEM_COL(result) ((uint16_t)(result))

/* Puts statements into an order in which every name has a value when it is read.
 *
 * `definitions` are rows of ten words: a statement below `statements`, the name that it defines
 * (0 is the empty name, at most 511), and the eight words of the set of names that it uses (name n
 * is bit n % 64 of word n / 64). `order` receives the statements in order, `reached` a mark for each
 * statement; both hold zeros after the first `statements` entries.
 *
 * Returns 1 if all statements were placed, 0 if not: then `order` is the written one. Refuses with
 * number 8, and zeros both buffers, where the definitions are not whole rows or more than 640,
 * where there are more than 128 statements, where a definition's statement or name is out of
 * bounds, or where a buffer is shorter than `statements`. Any other input is taken.
 *
 * Each slice is a pointer to that many elements; the two written ones must not overlap anything. */
uint64_t nokchbem_schedule(const uint64_t *definitions, size_t definitions_len, size_t statements,
                           uint16_t *order, size_t order_len, uint16_t *reached,
                           size_t reached_len);

/* A definition as a record: a statement, the name that it defines, and the set of names that it
 * uses, each as in a row of ten words. */
struct nokchbem_definition {
    uint16_t statement;
    uint16_t name;
    uint64_t used[8];
};

/* As nokchbem_schedule, but the definitions are records: returns and leaves what that does for
 * their rows. More than 640 records are refused with number 8. */
uint64_t nokchbem_schedule_records(const struct nokchbem_definition *records, size_t records_len,
                                   size_t statements, uint16_t *order, size_t order_len,
                                   uint16_t *reached, size_t reached_len);

/* The entries that `tables` and `work` have at least. */
#define NOKCHBEM_TABLES_LENGTH 8192
#define NOKCHBEM_WORK_LENGTH 24576

/* Reads a sheet into tables, and asks whether all of it is as it should be.
 *
 * Returns 0 if it is. The tables then start with how many names, built-ins, expressions, statements
 * and queries there are, and the rows of the names `_`, `input` and `data`, 0 for one that is not
 * there. Row r of a section, counted from 1, stands at
 *
 *     built-ins    8 + 4 * r       arity first second third
 *     expressions  268 + 8 * r     kind name line col first second third next
 *     statements   4372 + 7 * r    form first second third query with next
 *     queries      5275 + r        statement
 *
 * and every other entry is 0. Refuses, and zeros the tables, with the first of these numbers that
 * applies, and the first line of the sheet at fault (0 for 1 and 2); the column is 0.
 *
 *     1  `tables` has fewer than 8,192 entries, or `work` fewer than 24,576
 *     2  the sheet has more than 32,768 bytes
 *     3  it has not the form of five sections
 *     4  a name is none, or not above the one before it
 *     5  there are more than 511 names, 64 built-ins, 512 expressions, 128 statements or 32 queries,
 *        or there is no query
 *     6  a field or the nesting is not as it should be
 *
 * `work` is zeros afterwards, whatever is returned. Any input is taken, buffers of no length too.
 *
 * Each slice is a pointer to that many elements; the two written ones must not overlap anything. */
uint64_t nokchbem_read(const uint8_t *sheet, size_t sheet_len, uint16_t *tables, size_t tables_len,
                       uint64_t *work, size_t work_len);

/* Analyses the queries of a sheet: which names each has, and in which order its statements can run.
 *
 * Returns 0 if they are analysed. `answer` then holds a text, and zeros behind it. The text has
 * three sections, each a line of names, a line of decimal values for each row, and an empty line:
 *
 *     query placed input          placed is 1 if all statements were placed, 0 if not, 2 if the
 *                                 query is never analysed; input is 1 if it uses `input`
 *     query place index reached   the statements in order, each by its index in the query, from 0
 *     query set name line col     set is 1 for locals, with their position, 2 for unscoped names,
 *                                 3 for inputs
 *
 * Refuses, and zeros `answer`, with the first of these numbers that applies:
 *
 *     1 to 6  as nokchbem_read, with the line of the sheet
 *     11      an undefined variable, with its line and column in the query
 *     12      a variable used before its definition, with the line and column of the use
 *     13      arrays whose lengths differ, with the line and column of the right-hand one
 *     14      an index variable inside a some-in pattern
 *     7       the text is longer than `answer`
 *
 * `tables` has at least 8,192 entries and `work` at least 24,576; both are zeros afterwards, whatever
 * is returned. Any input is taken, buffers of no length too.
 *
 * Each slice is a pointer to that many elements; the three that are written must not overlap
 * anything. */
uint64_t nokchbem_analyze(const uint8_t *sheet, size_t sheet_len, uint16_t *tables,
                          size_t tables_len, uint64_t *work, size_t work_len, uint8_t *answer,
                          size_t answer_len);

#ifdef __cplusplus
}
#endif

#endif
