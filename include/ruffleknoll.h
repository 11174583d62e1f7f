/* The calls of Ruffleknoll, for C and for Rust on x86-64 Linux. `tools/staticlib` proves them and writes
 * target/staticlib/libruffleknoll.a; it needs memcpy and memset of the program that links it, and nothing else.
 *
 * Every call answers for any bytes, any numbers and any lengths, and keeps nothing between calls.
 *
 * A slice is a pointer and a length in elements. An empty slice may come with any pointer, null too. One rule is
 * left to the caller: a written buffer (a pointer without const) overlaps no other buffer of the call. Read-only
 * ones may overlap, or be the same.
 *
 * Cells, columns and conditions are those of document 01. `used` is the mark: the bytes of `text` below it are stored,
 * those from it on are room for new text, and no answer depends on what lay there. A refused call leaves the output
 * and the text below the mark as they were. An accepted one writes its result at the start of the output and nothing
 * after it.
 */
#ifndef RUFFLEKNOLL_H
#define RUFFLEKNOLL_H

#include <stdint.h>

#ifdef __cplusplus
extern "C" {
#endif

/* The answer of every call but row and earlier. */
struct ruffleknoll_answer {
    uint64_t number; /* 0: accepted; else the refusal's, 1 to 15 */
    uint64_t place;  /* the refusal's place; 0 if accepted */
    uint64_t value;  /* what the call says below; 0 if refused */
    uint64_t used;   /* the mark after the call; as lent if refused */
};

/* A part of the rows that were lent, in words; 0 and 0 for the empty part. */
struct ruffleknoll_part {
    uint64_t start;
    uint64_t length;
};

/* ---- one row, two rows ---- */

/* The row of a number, from 0: its part of the rows. The empty part if the number is too large, the column count not
 * 1 to 32 or the length no multiple of it. */
struct ruffleknoll_part ruffleknoll_row(
    const uint64_t *rows, uint64_t rows_length,
    uint64_t column_count,
    uint64_t row_number);

/* The earlier of two rows by key: 1 the first, also if the keys are equal; 2 the second; 0 (the empty part) where a
 * length isn't the column count, or 10, 8 or 3 would be given. */
uint64_t ruffleknoll_earlier(
    const uint64_t *columns, uint64_t columns_length,
    const uint8_t *text, uint64_t text_length, uint64_t used,
    const uint64_t *first, uint64_t first_length,
    const uint64_t *second, uint64_t second_length);

/* ---- conditions ---- */

/* A bound condition on one row. value: the cell's word. used: as lent. Writes text at or above the mark only; a text
 * that the condition computed lies there. */
struct ruffleknoll_answer ruffleknoll_evaluate(
    const uint8_t *condition, uint64_t condition_length,
    const uint64_t *row, uint64_t row_length,
    uint8_t *text, uint64_t text_length, uint64_t used);

/* Operators over literals replaced by their values. value: bytes written. used: the mark after the texts that were
 * appended at the old one. */
struct ruffleknoll_answer ruffleknoll_fold(
    const uint8_t *condition, uint64_t condition_length,
    uint8_t *text, uint64_t text_length, uint64_t used,
    uint8_t *output, uint64_t output_length);

/* Column names of a named condition replaced by column numbers. value: bytes written. used: as lent. */
struct ruffleknoll_answer ruffleknoll_bind(
    const uint8_t *condition, uint64_t condition_length,
    const uint64_t *columns, uint64_t columns_length,
    const uint8_t *text, uint64_t text_length, uint64_t used,
    uint8_t *output, uint64_t output_length);

/* AND of an old condition, which may be empty, and a new one. value: bytes written. used: as lent. */
struct ruffleknoll_answer ruffleknoll_with(
    const uint8_t *old_condition, uint64_t old_length,
    const uint8_t *new_condition, uint64_t new_length,
    const uint8_t *text, uint64_t text_length, uint64_t used,
    uint8_t *output, uint64_t output_length);

/* A named condition as text. value: bytes written. used: as lent. */
struct ruffleknoll_answer ruffleknoll_print(
    const uint8_t *condition, uint64_t condition_length,
    const uint8_t *text, uint64_t text_length, uint64_t used,
    uint8_t *output, uint64_t output_length);

/* ---- the columns of a join ---- */

/* value: words written, two a column. used: the mark after the names that were appended at the old one. */
struct ruffleknoll_answer ruffleknoll_inner_join_columns(
    const uint8_t *left_name, uint64_t left_name_length,
    const uint64_t *left_columns, uint64_t left_columns_length,
    const uint8_t *right_name, uint64_t right_name_length,
    const uint64_t *right_columns, uint64_t right_columns_length,
    uint8_t *text, uint64_t text_length, uint64_t used,
    uint64_t *output, uint64_t output_length);

/* The same, and the right columns become nullable. */
struct ruffleknoll_answer ruffleknoll_left_join_columns(
    const uint8_t *left_name, uint64_t left_name_length,
    const uint64_t *left_columns, uint64_t left_columns_length,
    const uint8_t *right_name, uint64_t right_name_length,
    const uint64_t *right_columns, uint64_t right_columns_length,
    uint8_t *text, uint64_t text_length, uint64_t used,
    uint64_t *output, uint64_t output_length);

/* ---- rows: value is the rows written, used is as lent; text is written at or above the mark only, and not at all
 * where the condition is empty ---- */

/* The rows of which the condition is true (all, where it is empty), with the listed columns (all, for an empty list). */
struct ruffleknoll_answer ruffleknoll_select(
    const uint64_t *columns, uint64_t columns_length,
    const uint64_t *rows, uint64_t rows_length,
    const uint64_t *column_list, uint64_t column_list_length,
    const uint8_t *condition, uint64_t condition_length,
    uint8_t *text, uint64_t text_length, uint64_t used,
    uint64_t *output, uint64_t output_length);

/* The pairs of which the condition is true, left row by left row, right rows in order: the left row's words, then the
 * right row's. The condition is bound to the joined columns, left then right; a join needs one. Places of words count
 * left columns, right columns, left rows, right rows; a pair's place is left row x right rows + right row. */
struct ruffleknoll_answer ruffleknoll_inner_join(
    const uint64_t *left_columns, uint64_t left_columns_length,
    const uint64_t *left_rows, uint64_t left_rows_length,
    const uint64_t *right_columns, uint64_t right_columns_length,
    const uint64_t *right_rows, uint64_t right_rows_length,
    const uint8_t *condition, uint64_t condition_length,
    uint8_t *text, uint64_t text_length, uint64_t used,
    uint64_t *output, uint64_t output_length);

/* The same, and for a left row that has no such pair one row with Null on the right. */
struct ruffleknoll_answer ruffleknoll_left_join(
    const uint64_t *left_columns, uint64_t left_columns_length,
    const uint64_t *left_rows, uint64_t left_rows_length,
    const uint64_t *right_columns, uint64_t right_columns_length,
    const uint64_t *right_rows, uint64_t right_rows_length,
    const uint8_t *condition, uint64_t condition_length,
    uint8_t *text, uint64_t text_length, uint64_t used,
    uint64_t *output, uint64_t output_length);

/* The rows of which it is not true: none, where it is empty. */
struct ruffleknoll_answer ruffleknoll_delete(
    const uint64_t *columns, uint64_t columns_length,
    const uint64_t *rows, uint64_t rows_length,
    const uint8_t *condition, uint64_t condition_length,
    uint8_t *text, uint64_t text_length, uint64_t used,
    uint64_t *output, uint64_t output_length);

/* All rows, those of which it is true with the sets applied; a set is a column number and a cell. */
struct ruffleknoll_answer ruffleknoll_update(
    const uint64_t *columns, uint64_t columns_length,
    const uint64_t *rows, uint64_t rows_length,
    const uint64_t *sets, uint64_t sets_length,
    const uint8_t *condition, uint64_t condition_length,
    uint8_t *text, uint64_t text_length, uint64_t used,
    uint64_t *output, uint64_t output_length);

/* Old and new rows in key order; no key columns: all keys are equal. Text is only read. */
struct ruffleknoll_answer ruffleknoll_insert(
    const uint64_t *columns, uint64_t columns_length,
    const uint64_t *old_rows, uint64_t old_rows_length,
    const uint64_t *new_rows, uint64_t new_rows_length,
    const uint8_t *text, uint64_t text_length, uint64_t used,
    uint64_t *output, uint64_t output_length);

#ifdef __cplusplus
}
#endif

#endif
