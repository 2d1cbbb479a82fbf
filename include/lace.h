/* lace for the bench: one step and one grade of a table. Link target/staticlib/liblace.a, which `bench/library.sh lace_c liblace.a` writes.
 *
 * A table is its rows as bytes, a state count and the number m of its letters. A row stands for a state and is 1 + 2 * m bytes long: the state's
 * grade, then for each letter the next state in two bytes, high first. Bytes after the last row are not read, and nothing is ever written.
 * Every call answers, whatever it is passed: where something is wrong it answers a reserved number. It needs no other call before it. */
#ifndef LACE_H
#define LACE_H

#include <stddef.h>
#include <stdint.h>

/* The numbers that a table is held to. */
#define LACE_STATES 4096 /* the greatest state count; the least is 1 */
#define LACE_LETTERS 16  /* the greatest m; the least is 1 */
#define LACE_GRADES 16   /* a grade is below this */

/* What a step answers where it answers no state. A state is below LACE_STATES, so it is never one of these. */
#define LACE_STEP_BAD_LETTER 65534 /* refusal 8: the letter is m or more */
#define LACE_STEP_BAD_TABLE 65535  /* refusal 9: see below */

/* What a grade answers where it answers no grade. A grade is below LACE_GRADES, so it is never this. */
#define LACE_GRADE_BAD_TABLE 255 /* refusal 9: see below */

/* Refusal 9 stands for any of these: count is 0 or over LACE_STATES; m is 0 or over LACE_LETTERS; rows_len is under count * (1 + 2 * m); state is
 * count or more; the row of that state has a grade of LACE_GRADES or more, or, for any letter, a next state of count or more. Other rows are not looked at. */

/* The next state from a state by a letter, or LACE_STEP_BAD_TABLE or LACE_STEP_BAD_LETTER. A bad size or state is told before a bad letter, and
 * a bad letter before a bad row. After a refusal the bench stays at the state it was at; it begins at state 0.
 *   rows      the rows; not NULL, also where rows_len is 0
 *   rows_len  how many bytes of rows there are
 *   count     the state count
 *   m         the number of letters
 *   state     the state to step from
 *   letter    the letter, from 0 */
uint16_t lace_step(const uint8_t *rows, size_t rows_len, size_t count, size_t m, size_t state, size_t letter);

/* The grade of a state, or LACE_GRADE_BAD_TABLE. The parameters are those of lace_step. */
uint8_t lace_grade(const uint8_t *rows, size_t rows_len, size_t count, size_t m, size_t state);

#endif
