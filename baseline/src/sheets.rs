//! The sheet check: pairs of table state and vector that show a table to grade as its chart does.

use crate::chart::Chart;
use crate::refusal::Refusal;
use crate::tables::{next_of, Table};
use crate::vectors::{combine, row_times, Grades};
use crate::MOST_LINES;
use std::collections::HashSet;

/// The chart's refusals, 9, 10, 11, then 12 and 13 line by line.
pub fn check_sheet(
    chart: &[u8],
    rows: &[u8],
    count: usize,
    m: usize,
    sheet: &[u8],
    lines: usize,
) -> Result<(), Refusal> {
    let chart = Chart::checked(chart)?;
    let table = Table::beside(&chart, rows, count, m)?;
    let sheet = Sheet::formed(&chart, count, sheet, lines)?;
    sheet.accepted(&chart, &table)
}

/// A sheet of right form. A pair is named by its line's bytes: the state, high first, then the vector.
struct Sheet<'a> {
    pairs: Vec<&'a [u8]>,
    known: HashSet<&'a [u8]>,
}

impl<'a> Sheet<'a> {
    fn formed(chart: &Chart, count: usize, sheet: &'a [u8], lines: usize) -> Result<Self, Refusal> {
        let line_len = 2 + chart.shape.n;
        if lines > MOST_LINES || sheet.len() < lines * line_len {
            return Err(Refusal::sheet());
        }
        let pairs: Vec<&[u8]> = sheet.chunks_exact(line_len).take(lines).collect();
        let fine = |pair: &&[u8]| state_of(pair) < count && pair[2..].iter().all(|&g| usize::from(g) < chart.shape.k);
        if !pairs.iter().all(fine) {
            return Err(Refusal::sheet());
        }
        Ok(Sheet { known: pairs.iter().copied().collect(), pairs })
    }

    fn accepted(&self, chart: &Chart, table: &Table) -> Result<(), Refusal> {
        if !self.known.contains(pair(0, chart.start()).as_slice()) {
            return Err(Refusal::start_pair());
        }
        let grades = Grades::of(chart);
        (0..self.pairs.len()).try_for_each(|line| self.line_accepted(chart, &grades, table, line))
    }

    /// 12, then 13 letter by letter.
    fn line_accepted(&self, chart: &Chart, grades: &Grades, table: &Table, line: usize) -> Result<(), Refusal> {
        let held = self.pairs[line];
        let (row, vector) = (table.row(state_of(held)), &held[2..]);
        if row[0] != combine(grades, vector, chart.end()) {
            return Err(Refusal::line_grade(line));
        }
        for letter in 0..table.m {
            let mut next = pair(next_of(row, letter), vector);
            row_times(grades, vector, chart.matrix(letter), &mut next[2..]);
            if !self.known.contains(next.as_slice()) {
                return Err(Refusal::next_pair(line, letter));
            }
        }
        Ok(())
    }
}

fn state_of(pair: &[u8]) -> usize {
    usize::from(u16::from_be_bytes([pair[0], pair[1]]))
}

/// The bytes of one line.
pub(crate) fn pair(state: usize, vector: &[u8]) -> Vec<u8> {
    let mut line = (state as u16).to_be_bytes().to_vec();
    line.extend_from_slice(vector);
    line
}
