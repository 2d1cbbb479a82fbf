/* Asks the library what bench/cases.txt asks, and compares the answers. bench/expect.py says what the lines mean and works out the answers.
 * Exit status: 0 all answers are as stored, 1 some differ, 2 the file cannot be read. */
#define _POSIX_C_SOURCE 200809L
#include <stdio.h>
#include <stdlib.h>
#include <string.h>

#include "lace.h"

static unsigned char *rows;
static size_t rows_len;
static long asked, differ, line_number;

static void bad_file(const char *what)
{
    fprintf(stderr, "cases, line %ld: %s\n", line_number, what);
    exit(2);
}

static int digit(char c)
{
    if (c >= '0' && c <= '9')
        return c - '0';
    if (c >= 'a' && c <= 'f')
        return c - 'a' + 10;
    bad_file("not a hexadecimal digit");
    return 0;
}

/* The bytes that a word of the file says. The buffer has room for one byte more, so that it is never NULL. */
static unsigned char *bytes_of(const char *text, size_t *len)
{
    const char *star = strchr(text, '*');
    size_t digits = star ? (size_t)(star - text) : strcmp(text, "-") == 0 ? 0 : strlen(text);
    size_t times = star ? strtoull(star + 1, NULL, 10) : 1;
    size_t one = digits / 2;
    unsigned char *bytes = malloc(one * times + 1);
    if (!bytes || digits % 2)
        bad_file("bytes that cannot be held");
    for (size_t i = 0; i < one * times; i++) {
        const char *at = text + 2 * (i % one);
        bytes[i] = (unsigned char)(digit(at[0]) * 16 + digit(at[1]));
    }
    *len = one * times;
    return bytes;
}

static char *word_of(char **rest)
{
    char *word = strtok_r(NULL, " \n", rest);
    if (!word)
        bad_file("too few words");
    return word;
}

static size_t number_of(char **rest)
{
    return strtoull(word_of(rest), NULL, 10);
}

static void compare(const char *what, size_t answer, size_t expected)
{
    asked++;
    if (answer != expected) {
        differ++;
        printf("line %ld: %s is %zu and should be %zu\n", line_number, what, answer, expected);
    }
}

/* Reads a word as the bench does: a refused letter leaves the state as it was. */
static void walk(char **rest)
{
    size_t count = number_of(rest), m = number_of(rest), len, state = 0, refused = 0;
    unsigned char *word = bytes_of(word_of(rest), &len);
    for (size_t i = 0; i < len; i++) {
        uint16_t next = lace_step(rows, rows_len, count, m, state, word[i]);
        if (next == LACE_STEP_BAD_LETTER || next == LACE_STEP_BAD_TABLE)
            refused++;
        else
            state = next;
    }
    free(word);
    compare("the number of refused letters", refused, number_of(rest));
    compare("the state after the word", state, number_of(rest));
    compare("the grade after the word", lace_grade(rows, rows_len, count, m, state), number_of(rest));
}

static void step(char **rest)
{
    size_t count = number_of(rest), m = number_of(rest), state = number_of(rest), letter = number_of(rest);
    compare("the step", lace_step(rows, rows_len, count, m, state, letter), number_of(rest));
}

static void grade(char **rest)
{
    size_t count = number_of(rest), m = number_of(rest), state = number_of(rest);
    compare("the grade", lace_grade(rows, rows_len, count, m, state), number_of(rest));
}

/* The rows as they were before the calls, to see that no call writes. */
static unsigned char *kept;

static void check_rows(void)
{
    if (rows && memcmp(rows, kept, rows_len + 1) != 0) {
        differ++;
        printf("line %ld: the rows were written to\n", line_number);
    }
}

static void lend(char **rest)
{
    check_rows();
    free(rows);
    free(kept);
    rows = bytes_of(word_of(rest), &rows_len);
    rows[rows_len] = 0;
    kept = malloc(rows_len + 1);
    if (!kept)
        bad_file("bytes that cannot be held");
    memcpy(kept, rows, rows_len + 1);
}

int main(int argc, char **argv)
{
    FILE *file = argc == 2 ? fopen(argv[1], "r") : NULL;
    char *line = NULL;
    size_t room = 0;
    if (!file) {
        fprintf(stderr, "usage: walk cases.txt\n");
        return 2;
    }
    while (getline(&line, &room, file) != -1) {
        char *rest, *kind = strtok_r(line, " \n", &rest);
        line_number++;
        if (!kind || strcmp(kind, "#") == 0)
            continue;
        if (strcmp(kind, "rows") == 0)
            lend(&rest);
        else if (!rows)
            bad_file("no rows yet");
        else if (strcmp(kind, "step") == 0)
            step(&rest);
        else if (strcmp(kind, "grade") == 0)
            grade(&rest);
        else if (strcmp(kind, "walk") == 0)
            walk(&rest);
        else
            bad_file("a line of no kind");
    }
    check_rows();
    printf("%ld answers compared, %ld differ\n", asked, differ);
    return asked == 0 ? 2 : differ != 0;
}
