//! Refusals and replies: the paper's number with its values.

use crate::chart::Shape;

/// A refusal's number, 1 to 14, and the values the paper names for it.
#[derive(Clone, Debug, PartialEq, Eq)]
pub struct Refusal {
    pub number: u8,
    pub values: Vec<usize>,
}

impl Refusal {
    fn bare(number: u8) -> Self {
        Refusal { number, values: Vec::new() }
    }

    /// 1: k, e, n or m is out of range.
    pub fn size() -> Self {
        Self::bare(1)
    }

    /// 2: too few chart bytes.
    pub fn short_chart() -> Self {
        Self::bare(2)
    }

    /// 3: a grade in the chart is k or more.
    pub fn chart_grade() -> Self {
        Self::bare(3)
    }

    /// 4: a broken law and its first a, b, c.
    pub fn law(law: usize, a: usize, b: usize, c: usize) -> Self {
        Refusal { number: 4, values: vec![law, a, b, c] }
    }

    /// 5: a room out of range, or a lent buffer too short.
    pub fn lent() -> Self {
        Self::bare(5)
    }

    /// 6: the reverse vectors outnumber R.
    pub fn reverse_room() -> Self {
        Self::bare(6)
    }

    /// 7: the states outnumber C.
    pub fn state_room() -> Self {
        Self::bare(7)
    }

    /// 8: the first place in the word whose letter is m or more.
    pub fn letter(place: usize) -> Self {
        Refusal { number: 8, values: vec![place] }
    }

    /// 9: the table.
    pub fn table() -> Self {
        Self::bare(9)
    }

    /// 10: the sheet's form.
    pub fn sheet() -> Self {
        Self::bare(10)
    }

    /// 11: the start pair isn't on the sheet.
    pub fn start_pair() -> Self {
        Self::bare(11)
    }

    /// 12: a line's grade.
    pub fn line_grade(line: usize) -> Self {
        Refusal { number: 12, values: vec![line] }
    }

    /// 13: a line's next pair isn't on the sheet.
    pub fn next_pair(line: usize, letter: usize) -> Self {
        Refusal { number: 13, values: vec![line, letter] }
    }

    /// 14: the text's first wrong line, or 0 for text over the limit.
    pub fn text(line: usize) -> Self {
        Refusal { number: 14, values: vec![line] }
    }
}

/// What a call says: number 0 with the values asked for, or the refusal's number with its values.
#[derive(Clone, Debug, PartialEq, Eq)]
pub struct Reply {
    pub number: u8,
    pub values: Vec<usize>,
}

/// The numbers in an answer, for [`Reply`].
pub trait Values {
    fn values(self) -> Vec<usize>;
}

impl Values for () {
    fn values(self) -> Vec<usize> {
        Vec::new()
    }
}

impl Values for Vec<usize> {
    fn values(self) -> Vec<usize> {
        self
    }
}

impl Values for usize {
    fn values(self) -> Vec<usize> {
        vec![self]
    }
}

impl Values for u8 {
    fn values(self) -> Vec<usize> {
        vec![usize::from(self)]
    }
}

impl Values for (usize, usize) {
    fn values(self) -> Vec<usize> {
        vec![self.0, self.1]
    }
}

impl Values for Shape {
    fn values(self) -> Vec<usize> {
        vec![self.k, self.e, self.n, self.m]
    }
}

impl<T: Values> From<Result<T, Refusal>> for Reply {
    fn from(answer: Result<T, Refusal>) -> Self {
        match answer {
            Ok(values) => Reply { number: 0, values: values.values() },
            Err(refusal) => Reply { number: refusal.number, values: refusal.values },
        }
    }
}
