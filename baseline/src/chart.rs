//! The chart's bytes: layout, accessors, and the check that every other call with a chart begins with.

use crate::laws;
use crate::refusal::Refusal;

/// Bytes of the head: k, e, n, m.
pub const HEAD: usize = 4;
/// Bytes of the longest chart: 16 grades, 24 states, 16 letters.
pub const LONGEST: usize = 9780;

/// The four sizes at the head of a chart.
#[derive(Clone, Copy, Debug, PartialEq, Eq)]
pub struct Shape {
    pub k: usize,
    pub e: usize,
    pub n: usize,
    pub m: usize,
}

impl Shape {
    /// The sizes named by the head's bytes, whatever they are.
    pub fn of_head(head: &[u8]) -> Shape {
        let [k, e, n, m] = [0, 1, 2, 3].map(|i| usize::from(head[i]));
        Shape { k, e, n, m }
    }

    pub fn in_range(&self) -> bool {
        (2..=16).contains(&self.k) && self.e < self.k && (1..=24).contains(&self.n) && (1..=16).contains(&self.m)
    }

    /// Bytes of the whole chart.
    pub fn chart_len(&self) -> usize {
        self.matrices_at() + self.m * self.n * self.n
    }

    /// Bytes of one table row: the grade, then two for each letter.
    pub fn row_len(&self) -> usize {
        1 + 2 * self.m
    }

    fn product_at(&self) -> usize {
        HEAD + self.k * self.k
    }

    fn start_at(&self) -> usize {
        self.product_at() + self.k * self.k
    }

    fn end_at(&self) -> usize {
        self.start_at() + self.n
    }

    fn matrices_at(&self) -> usize {
        self.end_at() + self.n
    }
}

/// A view of chart bytes whose sizes and length are right.
#[derive(Clone, Copy, Debug)]
pub struct Chart<'a> {
    bytes: &'a [u8],
    pub shape: Shape,
}

impl<'a> Chart<'a> {
    /// The chart in these bytes, where [`check`] finds nothing to refuse.
    pub fn checked(bytes: &'a [u8]) -> Result<Chart<'a>, Refusal> {
        let chart = Chart::sized(bytes)?;
        if chart.grade_bytes().iter().any(|&g| usize::from(g) >= chart.shape.k) {
            return Err(Refusal::chart_grade());
        }
        match laws::first_broken(&chart) {
            Some([law, a, b, c]) => Err(Refusal::law(law, a, b, c)),
            None => Ok(chart),
        }
    }

    /// The head is looked at before the length, since the head decides the length.
    fn sized(bytes: &'a [u8]) -> Result<Chart<'a>, Refusal> {
        if bytes.len() < HEAD {
            return Err(Refusal::short_chart());
        }
        let shape = Shape::of_head(bytes);
        if !shape.in_range() {
            return Err(Refusal::size());
        }
        if bytes.len() < shape.chart_len() {
            return Err(Refusal::short_chart());
        }
        Ok(Chart { bytes: &bytes[..shape.chart_len()], shape })
    }

    /// Every byte after the head is a grade.
    fn grade_bytes(&self) -> &'a [u8] {
        &self.bytes[HEAD..]
    }

    pub fn join_table(&self) -> &'a [u8] {
        &self.bytes[HEAD..self.shape.product_at()]
    }

    pub fn product_table(&self) -> &'a [u8] {
        &self.bytes[self.shape.product_at()..self.shape.start_at()]
    }

    pub fn start(&self) -> &'a [u8] {
        &self.bytes[self.shape.start_at()..self.shape.end_at()]
    }

    pub fn end(&self) -> &'a [u8] {
        &self.bytes[self.shape.end_at()..self.shape.matrices_at()]
    }

    /// The matrix of a letter, by rows.
    pub fn matrix(&self, letter: usize) -> &'a [u8] {
        let square = self.shape.n * self.shape.n;
        let at = self.shape.matrices_at() + letter * square;
        &self.bytes[at..at + square]
    }
}

/// Refusals 2, 1, 2, 3, 4 in that order, or the chart's sizes.
pub fn check(bytes: &[u8]) -> Result<Shape, Refusal> {
    Chart::checked(bytes).map(|chart| chart.shape)
}
