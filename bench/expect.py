#!/usr/bin/env python3
"""Writes bench/cases.txt: tables, what the bench asks of them, and what it should be answered.

The answers are worked out here from document 01's sentences, with nothing of the library's code. Run it as
`python3 bench/expect.py > bench/cases.txt`; the numbers that it draws are the same in every run.

Lines of cases.txt (numbers are decimal, bytes are hexadecimal, `-` is no bytes, and `BYTES*TIMES` is BYTES again and again):
  # ..                                          a comment
  rows BYTES                                    the rows that the lines below are about
  step COUNT M STATE LETTER ANSWER              what one step answers
  grade COUNT M STATE ANSWER                    what one grade answers
  walk COUNT M WORD REFUSED STATE ANSWER        a word, a byte a letter, read from state 0: how many letters are refused, the state at the end, its grade
"""
import random

BAD_LETTER, BAD_TABLE, BAD_GRADE = 65534, 65535, 255
HUGE = 2 ** 64 - 1
# The table of document 01's chart E.
E = bytes.fromhex('0000010002' '0100010001' '0000020002')


def size_fits(rows, count, m):
    return 1 <= count <= 4096 and 1 <= m <= 16 and len(rows) >= count * (1 + 2 * m)


def row_of(rows, m, state):
    width = 1 + 2 * m
    row = rows[state * width:(state + 1) * width]
    return row[0], [row[1 + 2 * x] * 256 + row[2 + 2 * x] for x in range(m)]


def row_fits(rows, count, m, state):
    grade, nexts = row_of(rows, m, state)
    return grade <= 15 and all(s < count for s in nexts)


def step(rows, count, m, state, letter):
    if not size_fits(rows, count, m) or state >= count:
        return BAD_TABLE
    if letter >= m:
        return BAD_LETTER
    if not row_fits(rows, count, m, state):
        return BAD_TABLE
    return row_of(rows, m, state)[1][letter]


def grade(rows, count, m, state):
    if not size_fits(rows, count, m) or state >= count or not row_fits(rows, count, m, state):
        return BAD_GRADE
    return row_of(rows, m, state)[0]


def walk(rows, count, m, word):
    state, refused = 0, 0
    for letter in word:
        answer = step(rows, count, m, state, letter)
        if answer in (BAD_LETTER, BAD_TABLE):
            refused += 1
        else:
            state = answer
    return refused, state, grade(rows, count, m, state)


class Cases:
    def __init__(self):
        self.rows = b''

    def note(self, text):
        print('#', text)

    def lend(self, rows, times=1):
        self.rows = bytes(rows) * times
        print('rows', (bytes(rows).hex() or '-') + ('*%d' % times if times > 1 else ''))

    def step(self, count, m, state, letter):
        print('step', count, m, state, letter, step(self.rows, count, m, state, letter))

    def steps(self, count, m, state, letters):
        for letter in letters:
            self.step(count, m, state, letter)

    def grade(self, count, m, state):
        print('grade', count, m, state, grade(self.rows, count, m, state))

    def walk(self, count, m, word):
        print('walk', count, m, bytes(word).hex() or '-', *walk(self.rows, count, m, word))

    def walks(self, count, m, words):
        for word in words:
            self.walk(count, m, word)

    def all_of(self, count, m):
        for state in range(count):
            self.grade(count, m, state)
            self.steps(count, m, state, range(m))


def any_row(chance, count, m):
    grade = chance.randrange(16)
    return bytes([grade]) + b''.join(chance.randrange(count).to_bytes(2, 'big') for _ in range(m))


def any_table(chance, count, m):
    return b''.join(any_row(chance, count, m) for _ in range(count))


def any_words(chance, m, lengths):
    return [bytes(chance.randrange(m) for _ in range(n)) for n in lengths]


def with_bytes(rows, at, new):
    return rows[:at] + new + rows[at + len(new):]


def with_grade(rows, m, state, value):
    return with_bytes(rows, state * (1 + 2 * m), bytes([value]))


def with_next(rows, m, state, letter, value):
    return with_bytes(rows, state * (1 + 2 * m) + 1 + 2 * letter, value.to_bytes(2, 'big'))


def the_table_of_e(cases):
    cases.note("the table of document 01's chart E: three states, two letters")
    cases.lend(E)
    cases.all_of(3, 2)
    cases.walks(3, 2, (b'', b'\0', b'\1', b'\0\1', b'\1\0', b'\0\0\1\1\0', b'\1\2\0', b'\2\2', b'\0\xff\1'))


def bad_letters_and_states(cases):
    cases.note('letters that are not letters, states that are not states')
    cases.steps(3, 2, 1, (2, 3, 15, 16, 255, 256, 257, 65535, 65536, 2 ** 32, HUGE))
    for state in (3, 4, 255, 4095, 4096, 65534, 65535, 65536, 2 ** 32, HUGE):
        cases.steps(3, 2, state, (0, 2))
        cases.grade(3, 2, state)


def bad_sizes(cases):
    cases.note('counts and letter numbers out of range, and products that would not fit a machine word')
    for count, m in ((0, 2), (4097, 2), (3, 0), (3, 17), (0, 0), (HUGE, 16), (HUGE, 2), (3, HUGE), (2 ** 63, 2), (2 ** 63, 2 ** 63), (HUGE, HUGE)):
        cases.steps(count, m, 0, (0, 2, 255))
        cases.grade(count, m, 0)
        cases.walk(count, m, b'\0\1')


def other_shapes(cases):
    cases.note('the same bytes read as another shape')
    for count, m in ((1, 2), (2, 2), (4, 2), (5, 1), (1, 7), (1, 8), (15, 1)):
        cases.step(count, m, 0, 0)
        cases.grade(count, m, 0)


def no_bytes(cases):
    cases.note('no bytes at all')
    cases.lend(b'')
    for count, m in ((0, 0), (1, 1), (3, 2), (4096, 16)):
        cases.steps(count, m, 0, (0, 255))
        cases.grade(count, m, 0)
    cases.walk(1, 1, b'\0\0')


def bytes_too_few_or_more(cases):
    cases.note('one byte too few, and bytes after the last row, which are not read')
    cases.lend(E[:-1])
    cases.steps(3, 2, 0, (0, 9))
    cases.grade(3, 2, 0)
    cases.walk(3, 2, b'\0\1')
    cases.step(2, 2, 0, 0)
    for extra in (b'\0', b'\xff' * 7, b'\xff' * 100):
        cases.lend(E + extra)
        cases.step(3, 2, 1, 1)
        cases.grade(3, 2, 1)
        cases.walk(3, 2, b'\0\1\0')
        cases.step(4, 2, 3, 0)


def damages():
    """Each a state, and E's table with a grade or a next state of it out of range."""
    grades = [(state, with_grade(E, 2, state, value)) for state in (0, 2) for value in (16, 255)]
    places = ((0, 0), (0, 1), (1, 1), (2, 1))
    return grades + [(state, with_next(E, 2, state, letter, value)) for state, letter in places for value in (3, 4, 256, 65534, 65535)]


def damaged_rows(cases):
    cases.note("damage in the row that is used, in its last letter's next state, and in another row")
    for state, rows in damages():
        cases.lend(rows)
        cases.step(3, 2, 0, 0)
        cases.step(3, 2, 2, 1)
        cases.step(3, 2, 0, 2)
        cases.grade(3, 2, state)
        cases.grade(3, 2, (state + 1) % 3)
        cases.walk(3, 2, b'\0\1\0\1')


def the_greatest_entries(cases):
    cases.note('the greatest grade and the last state are in order')
    cases.lend(with_next(with_grade(E, 2, 1, 15), 2, 0, 0, 2))
    cases.all_of(3, 2)


def the_greatest_tables(cases):
    cases.note('the greatest tables')
    cases.lend(bytes((7, 0x0f, 0xff)), 4096)
    for state in (0, 4095, 4096):
        cases.step(4096, 1, state, 0)
        cases.grade(4096, 1, state)
    cases.step(4095, 1, 0, 0)
    cases.step(4097, 1, 0, 0)
    cases.walk(4096, 1, b'\0\0\0\1')
    cases.lend(bytes([0] + [0x0f, 0xff] * 16), 4096)
    cases.steps(4096, 16, 4095, (15, 16))
    cases.step(4096, 17, 0, 0)
    cases.grade(4096, 16, 4095)
    cases.lend(bytes((7, 0x0f, 0xff)), 4097)
    cases.step(4097, 1, 4096, 0)
    cases.step(4096, 1, 4095, 0)


def of_a_sound_table(cases, chance, rows, count, m):
    cases.lend(rows)
    # the last word may have letters that are none
    cases.walks(count, m, any_words(chance, m, (1, 7, 40)) + any_words(chance, m + 2, (30,)))
    for _ in range(3):
        cases.step(count, m, chance.randrange(count), chance.randrange(m))


def of_a_damaged_table(cases, chance, rows, count, m):
    at = chance.randrange(count)
    cases.lend(with_next(rows, m, at, m - 1, count))
    cases.step(count, m, at, 0)
    cases.grade(count, m, at)
    cases.step(count, m, (at + 1) % count, m - 1)
    cases.walks(count, m, any_words(chance, m, (40, 200)))


def tables_of_all_sizes(cases):
    cases.note('tables of all sizes with words, sound and damaged')
    chance = random.Random(1)
    for count, m in ((1, 1), (1, 16), (2, 3), (7, 16), (16, 5), (40, 2), (255, 1), (256, 1), (257, 2), (300, 3), (700, 1)):
        rows = any_table(chance, count, m)
        of_a_sound_table(cases, chance, rows, count, m)
        of_a_damaged_table(cases, chance, rows, count, m)


def main():
    cases = Cases()
    the_table_of_e(cases)
    bad_letters_and_states(cases)
    bad_sizes(cases)
    other_shapes(cases)
    no_bytes(cases)
    bytes_too_few_or_more(cases)
    damaged_rows(cases)
    the_greatest_entries(cases)
    the_greatest_tables(cases)
    tables_of_all_sizes(cases)


main()
