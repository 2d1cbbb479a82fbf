//! Tables: their check, one step, one grade, a word's grade, the cap.

use crate::chart::Chart;
use crate::refusal::Refusal;
use crate::vectors::Grades;
use crate::MOST_STATES;

/// Grades of a table that no chart stands beside are 0 to 15.
const GRADES_ALONE: usize = 16;

/// The next state in a row: two bytes, high first.
pub(crate) fn next_of(row: &[u8], letter: usize) -> usize {
    usize::from(u16::from_be_bytes([row[1 + 2 * letter], row[2 + 2 * letter]]))
}

pub(crate) fn write_next(row: &mut [u8], letter: usize, next: usize) {
    row[1 + 2 * letter..3 + 2 * letter].copy_from_slice(&(next as u16).to_be_bytes());
}

/// A table of right size; its rows may still be wrong.
#[derive(Clone, Copy)]
pub(crate) struct Table<'a> {
    rows: &'a [u8],
    pub count: usize,
    pub m: usize,
}

impl<'a> Table<'a> {
    /// Refuses a count or m out of range, and too few bytes.
    pub fn sized(rows: &'a [u8], count: usize, m: usize) -> Result<Self, Refusal> {
        let in_range = (1..=MOST_STATES).contains(&count) && (1..=16).contains(&m);
        if !in_range || rows.len() < count * (1 + 2 * m) {
            return Err(Refusal::table());
        }
        Ok(Table { rows, count, m })
    }

    /// Refuses what [`Table::sized`] refuses, and any wrong row.
    pub fn whole(rows: &'a [u8], count: usize, m: usize, grades: usize) -> Result<Self, Refusal> {
        let table = Table::sized(rows, count, m)?;
        for state in 0..count {
            table.fine_row(state, grades)?;
        }
        Ok(table)
    }

    pub fn beside(chart: &Chart, rows: &'a [u8], count: usize, m: usize) -> Result<Self, Refusal> {
        if m != chart.shape.m {
            return Err(Refusal::table());
        }
        Table::whole(rows, count, m, chart.shape.k)
    }

    /// The row of a state below the count.
    pub fn row(&self, state: usize) -> &'a [u8] {
        let row_len = 1 + 2 * self.m;
        &self.rows[state * row_len..][..row_len]
    }

    fn fine_row(&self, state: usize, grades: usize) -> Result<&'a [u8], Refusal> {
        let row = self.row(state);
        let fine = usize::from(row[0]) < grades && (0..self.m).all(|letter| next_of(row, letter) < self.count);
        fine.then_some(row).ok_or_else(Refusal::table)
    }

    fn has(&self, state: usize) -> Result<(), Refusal> {
        (state < self.count).then_some(()).ok_or_else(Refusal::table)
    }
}

/// Refusal 9 for a table on its own.
pub fn check_table(rows: &[u8], count: usize, m: usize) -> Result<(), Refusal> {
    Table::whole(rows, count, m, GRADES_ALONE).map(|_| ())
}

/// The chart's refusals, then 9 for a table beside it.
pub fn check_table_beside(chart: &[u8], rows: &[u8], count: usize, m: usize) -> Result<(), Refusal> {
    let chart = Chart::checked(chart)?;
    Table::beside(&chart, rows, count, m).map(|_| ())
}

/// The next state. Size and state come first, then the letter, then the row used.
pub fn step(rows: &[u8], count: usize, m: usize, state: usize, letter: usize) -> Result<usize, Refusal> {
    let table = Table::sized(rows, count, m)?;
    table.has(state)?;
    if letter >= m {
        return Err(Refusal::letter(0));
    }
    let row = table.fine_row(state, GRADES_ALONE)?;
    Ok(next_of(row, letter))
}

/// The grade of a state.
pub fn grade(rows: &[u8], count: usize, m: usize, state: usize) -> Result<u8, Refusal> {
    let table = Table::sized(rows, count, m)?;
    table.has(state)?;
    Ok(table.fine_row(state, GRADES_ALONE)?[0])
}

/// The grade of a word: first the whole table, then all letters, then the walk.
pub fn grade_word(rows: &[u8], count: usize, m: usize, word: &[u8]) -> Result<u8, Refusal> {
    let table = Table::whole(rows, count, m, GRADES_ALONE)?;
    if let Some(place) = word.iter().position(|&letter| usize::from(letter) >= m) {
        return Err(Refusal::letter(place));
    }
    let last = word.iter().fold(0, |state, &letter| next_of(table.row(state), usize::from(letter)));
    Ok(table.row(last)[0])
}

/// The join of the grades of all states.
pub fn cap(chart: &[u8], rows: &[u8], count: usize, m: usize) -> Result<u8, Refusal> {
    let chart = Chart::checked(chart)?;
    let table = Table::beside(&chart, rows, count, m)?;
    Ok(cap_of(&chart, &table))
}

pub(crate) fn cap_of(chart: &Chart, table: &Table) -> u8 {
    let grades = Grades::of(chart);
    (0..table.count).fold(0, |best, state| grades.join(best, table.row(state)[0]))
}
