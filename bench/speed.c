/* Times one step of the library against a bare look-up that checks nothing and against the same checks written by hand in C: same tables, same words,
 * round after round side by side, the least time of all rounds. It prints times and ratios and judges nothing. */
#define _POSIX_C_SOURCE 200809L
#include <stdio.h>
#include <stdlib.h>
#include <time.h>

#include "lace.h"

enum { LETTERS_READ = 1 << 16, ROUNDS = 200 };

/* Both are kept out of line, as the library's call is. */
__attribute__((noinline)) static uint16_t bare_step(const uint8_t *rows, size_t m, size_t state, size_t letter)
{
    const uint8_t *at = rows + state * (1 + 2 * m) + 1 + 2 * letter;
    return (uint16_t)(at[0] * 256 + at[1]);
}

__attribute__((noinline)) static uint16_t checked_step(const uint8_t *rows, size_t rows_len, size_t count, size_t m, size_t state, size_t letter)
{
    if (count < 1 || count > LACE_STATES || m < 1 || m > LACE_LETTERS || rows_len < count * (1 + 2 * m) || state >= count)
        return LACE_STEP_BAD_TABLE;
    if (letter >= m)
        return LACE_STEP_BAD_LETTER;
    const uint8_t *row = rows + state * (1 + 2 * m);
    if (row[0] >= LACE_GRADES)
        return LACE_STEP_BAD_TABLE;
    for (size_t x = 0; x < m; x++)
        if ((size_t)(row[1 + 2 * x] * 256 + row[2 + 2 * x]) >= count)
            return LACE_STEP_BAD_TABLE;
    return (uint16_t)(row[1 + 2 * letter] * 256 + row[2 + 2 * letter]);
}

static uint64_t seed = 1;

static size_t below(size_t n)
{
    seed = seed * 6364136223846793005u + 1442695040888963407u;
    return (size_t)(seed >> 33) % n;
}

static double now(void)
{
    struct timespec t;
    clock_gettime(CLOCK_MONOTONIC, &t);
    return (double)t.tv_sec * 1e9 + (double)t.tv_nsec;
}

static void least(double *best, double began)
{
    double took = (now() - began) / LETTERS_READ;
    if (took < *best)
        *best = took;
}

static uint8_t word[LETTERS_READ];

static void draw_word(size_t m)
{
    for (size_t i = 0; i < LETTERS_READ; i++)
        word[i] = (uint8_t)below(m);
}

static void draw_row(uint8_t *row, size_t count, size_t m)
{
    row[0] = (uint8_t)below(LACE_GRADES);
    for (size_t x = 0; x < m; x++) {
        size_t next = below(count);
        row[1 + 2 * x] = (uint8_t)(next / 256);
        row[2 + 2 * x] = (uint8_t)(next % 256);
    }
}

static void draw_rows(uint8_t *rows, size_t count, size_t m)
{
    for (size_t s = 0; s < count; s++)
        draw_row(rows + s * (1 + 2 * m), count, m);
}

/* The state after the word, by each kind of step. */
static size_t bare_walk(const uint8_t *rows, size_t m)
{
    size_t state = 0;
    for (size_t i = 0; i < LETTERS_READ; i++)
        state = bare_step(rows, m, state, word[i]);
    return state;
}

static size_t checked_walk(const uint8_t *rows, size_t len, size_t count, size_t m)
{
    size_t state = 0;
    for (size_t i = 0; i < LETTERS_READ; i++)
        state = checked_step(rows, len, count, m, state, word[i]);
    return state;
}

static size_t lace_walk(const uint8_t *rows, size_t len, size_t count, size_t m)
{
    size_t state = 0;
    for (size_t i = 0; i < LETTERS_READ; i++)
        state = lace_step(rows, len, count, m, state, word[i]);
    return state;
}

/* Nanoseconds a step, the least so far. */
struct times {
    double bare, checked, lace;
};

static void time_round(const uint8_t *rows, size_t len, size_t count, size_t m, struct times *best)
{
    double began = now();
    size_t a = bare_walk(rows, m);
    least(&best->bare, began);
    began = now();
    size_t b = checked_walk(rows, len, count, m);
    least(&best->checked, began);
    began = now();
    size_t c = lace_walk(rows, len, count, m);
    least(&best->lace, began);
    if (a != b || b != c) {
        fprintf(stderr, "the three walks end in different states\n");
        exit(1);
    }
}

static void time_table(size_t count, size_t m)
{
    size_t len = count * (1 + 2 * m);
    uint8_t *rows = malloc(len);
    struct times best = {1e9, 1e9, 1e9};
    if (!rows)
        exit(2);
    draw_word(m);
    draw_rows(rows, count, m);
    for (int round = 0; round < ROUNDS; round++)
        time_round(rows, len, count, m, &best);
    free(rows);
    printf("%6zu %4zu %10.2f %12.2f %10.2f %12.2f %15.2f\n", count, m, best.bare, best.checked, best.lace, best.lace / best.bare, best.lace / best.checked);
}

int main(void)
{
    static const size_t sizes[][2] = {{3, 2}, {40, 2}, {300, 4}, {1000, 8}, {4096, 16}};
    printf("nanoseconds a step\n%6s %4s %10s %12s %10s %12s %15s\n", "states", "m", "bare", "checked in C", "lace_step", "lace / bare", "lace / checked");
    for (size_t i = 0; i < sizeof sizes / sizeof sizes[0]; i++)
        time_table(sizes[i][0], sizes[i][1]);
    return 0;
}
