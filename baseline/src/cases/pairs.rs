//! Sheets for tables: the pairs of table state and vector that words reach together.

use crate::chart::Chart;
use crate::sheets::pair;
use crate::tables::next_of;
use crate::vectors::{row_times, Grades};
use std::collections::HashSet;

/// The sheet's bytes and its number of lines: every pair that some word reaches, by first word. Nothing where there are
/// more pairs than `most`. The chart and the table must be ones that get no refusal.
pub fn reached_pairs(chart: &[u8], rows: &[u8], m: usize, most: usize) -> Option<(Vec<u8>, usize)> {
    let chart = Chart::checked(chart).expect("a sound chart");
    let grades = Grades::of(&chart);
    let row_len = 1 + 2 * m;
    let mut lines = vec![pair(0, chart.start())];
    let mut known: HashSet<Vec<u8>> = lines.iter().cloned().collect();
    let mut line = 0;
    while line < lines.len() {
        if lines.len() > most {
            return None;
        }
        let held = lines[line].clone();
        let row = &rows[usize::from(u16::from_be_bytes([held[0], held[1]])) * row_len..][..row_len];
        let next = |letter: usize| {
            let mut next = pair(next_of(row, letter), &held[2..]);
            row_times(&grades, &held[2..], chart.matrix(letter), &mut next[2..]);
            next
        };
        lines.extend((0..m).map(next).filter(|next| known.insert(next.clone())));
        line += 1;
    }
    Some((lines.concat(), lines.len()))
}
