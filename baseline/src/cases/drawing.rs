//! A chart in parts, its bytes and its text.

use super::grades::{self, GradeTables};
use super::rng::Rng;
use crate::text::line_of;

/// A chart in parts; the parts may be out of range once damaged.
#[derive(Clone, Debug)]
pub struct Drawing {
    pub grades: GradeTables,
    pub n: usize,
    pub m: usize,
    pub start: Vec<u8>,
    pub end: Vec<u8>,
    pub matrices: Vec<u8>,
}

/// How matrix entries are chosen.
#[derive(Clone, Copy, Debug)]
enum Style {
    /// Any grade anywhere.
    Dense,
    /// Any grade, on about one to three entries of a row.
    Sparse,
    /// Only grade 0 and the unit, sparse.
    Plain,
    /// One entry of each row is the unit.
    Map,
    /// Entries on the diagonal and just right of it.
    Path,
}

const STYLES: [Style; 5] = [Style::Dense, Style::Sparse, Style::Plain, Style::Map, Style::Path];

impl Drawing {
    /// A sound chart of mixed size; large ones tend to be sparse, so that many tables stay within small rooms.
    pub fn random(rng: &mut Rng) -> Self {
        let grades = grades::sound(rng);
        let n = match rng.below(10) {
            0..=4 => rng.range(1, 4),
            5..=7 => rng.range(5, 9),
            8 => rng.range(10, 23),
            _ => 24,
        };
        let m = match rng.below(10) {
            0..=6 => rng.range(1, 3),
            7 | 8 => rng.range(4, 9),
            _ => rng.range(10, 16),
        };
        Self::with_sizes(rng, grades, n, m)
    }

    /// A sound chart over given grades and sizes.
    pub fn with_sizes(rng: &mut Rng, grades: GradeTables, n: usize, m: usize) -> Self {
        let style = rng.pick(&STYLES);
        let few = few_grades(rng, &grades);
        let start = vector(rng, &few, n);
        let end = vector(rng, &few, n);
        let matrices = (0..m).flat_map(|_| matrix(rng, &grades, &few, n, style)).collect();
        Drawing { grades, n, m, start, end, matrices }
    }

    /// The chart with all sizes at their largest.
    pub fn largest(rng: &mut Rng) -> Self {
        let grades = if rng.chance(1, 2) { grades::relations() } else { grades::power_set(4) };
        Self::with_sizes(rng, grades, 24, 16)
    }

    pub fn head(&self) -> [u8; 4] {
        [self.grades.k, self.grades.e, self.n, self.m].map(|size| size as u8)
    }

    /// The chart's bytes.
    pub fn bytes(&self) -> Vec<u8> {
        let parts: [&[u8]; 6] =
            [&self.head(), &self.grades.join, &self.grades.product, &self.start, &self.end, &self.matrices];
        parts.concat()
    }

    /// The chart's text, one entry a line, each with its newline.
    pub fn lines(&self) -> Vec<Vec<u8>> {
        let (k, n) = (self.grades.k, self.n);
        let parts: [(u8, &[u8], usize); 6] = [
            (0x01, &self.head(), 4),
            (0x02, &self.grades.join, k),
            (0x03, &self.grades.product, k),
            (0x04, &self.start, n),
            (0x05, &self.end, n),
            (0x06, &self.matrices, n),
        ];
        let lines_of = |&(kind, part, len): &(u8, &[u8], usize)| {
            part.chunks(len).map(|payload| line_of(kind, payload)).collect::<Vec<_>>()
        };
        parts.iter().flat_map(lines_of).collect()
    }

    pub fn text(&self) -> Vec<u8> {
        self.lines().concat()
    }
}

/// Some of the grades, among them 0 and the unit: charts with few different entries have smaller tables.
fn few_grades(rng: &mut Rng, grades: &GradeTables) -> Vec<u8> {
    let all: Vec<u8> = (0..grades.k as u8).collect();
    if rng.chance(1, 2) {
        return all;
    }
    let mut few = vec![0, grades.e as u8];
    for _ in 0..rng.below(3) {
        few.push(rng.pick(&all));
    }
    few
}

/// Mostly with an entry above 0, since a vector of zeros makes for a table of one state.
fn vector(rng: &mut Rng, few: &[u8], n: usize) -> Vec<u8> {
    let zero_chance = rng.below(4);
    let mut vector: Vec<u8> = (0..n).map(|_| if rng.chance(zero_chance, 4) { 0 } else { rng.pick(few) }).collect();
    if rng.chance(9, 10) {
        vector[rng.below(n)] = rng.pick(&few[1..]);
    }
    vector
}

fn matrix(rng: &mut Rng, grades: &GradeTables, few: &[u8], n: usize, style: Style) -> Vec<u8> {
    let e = grades.e as u8;
    let near = rng.range(1, 3);
    let mut entries = Vec::new();
    for p in 0..n {
        let on = rng.below(n);
        entries.extend((0..n).map(|q| match style {
            Style::Dense => rng.pick(few),
            Style::Sparse if rng.chance(near, n) => rng.pick(few),
            Style::Plain if rng.chance(near, n) => e,
            Style::Map if q == on => e,
            Style::Path if q == p || q == p + 1 => rng.pick(few),
            _ => 0,
        }));
    }
    entries
}
