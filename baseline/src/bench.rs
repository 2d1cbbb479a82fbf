//! The bench: a reader that holds its table and present state, and the numbers its C program gets.

use crate::refusal::Refusal;
use crate::tables::{grade, step};

/// Holds the lent table and the present state.
#[derive(Clone, Debug)]
pub struct Reader<'a> {
    rows: &'a [u8],
    count: usize,
    m: usize,
    state: usize,
}

impl<'a> Reader<'a> {
    /// Starts at state 0 and refuses nothing.
    pub fn new(rows: &'a [u8], count: usize, m: usize) -> Self {
        Reader { rows, count, m, state: 0 }
    }

    pub fn state(&self) -> usize {
        self.state
    }

    /// Takes one letter; a refused one leaves the state as it was.
    pub fn step(&mut self, letter: usize) -> Result<usize, Refusal> {
        self.state = step(self.rows, self.count, self.m, self.state, letter)?;
        Ok(self.state)
    }

    /// The grade of the present state.
    pub fn grade(&self) -> Result<u8, Refusal> {
        grade(self.rows, self.count, self.m, self.state)
    }
}

/// A step as the C program sees it: the next state, 65,535 for refusal 9, 65,534 for refusal 8.
pub fn c_step(rows: &[u8], count: usize, m: usize, state: usize, letter: usize) -> u16 {
    match step(rows, count, m, state, letter) {
        Ok(next) => next as u16,
        Err(Refusal { number: 8, .. }) => 65534,
        Err(_) => 65535,
    }
}

/// A grade as the C program sees it: the grade, or 255 for refusal 9.
pub fn c_grade(rows: &[u8], count: usize, m: usize, state: usize) -> u8 {
    grade(rows, count, m, state).unwrap_or(255)
}
