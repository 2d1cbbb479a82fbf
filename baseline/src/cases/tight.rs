//! Charts whose counts are known, to hit a room exactly or miss it by one. Entries are grade 0 and the unit alone, which
//! behave as no and yes over any grades.

use super::drawing::Drawing;
use super::grades::GradeTables;
use std::ops::Range;

/// The rooms of the programs, one less and one more, for forward and reverse vectors.
pub const NEAR_ROOMS: [usize; 6] = [127, 128, 129, 63, 64, 65];

/// One letter that turns cycles of the given lengths and shifts a path of the given length into nothing. There are
/// as many vectors, and as many reverse vectors, as the least common multiple of the cycles plus the path.
pub fn turning(grades: GradeTables, cycles: &[usize], path: usize) -> Drawing {
    let n = path + cycles.iter().sum::<usize>();
    let mut drawing = blank(grades, n, 1);
    drawing.put_path(0, 0..path);
    if path > 0 {
        drawing.mark(0, path - 1);
    }
    let mut at = path;
    for &len in cycles {
        drawing.put_path(0, at..at + len);
        drawing.put(0, at + len - 1, at);
        drawing.mark(at, at);
        at += len;
    }
    drawing
}

/// A turning chart with exactly this many vectors and reverse vectors; one of [`NEAR_ROOMS`].
pub fn with_vectors(grades: GradeTables, count: usize) -> Drawing {
    let (cycles, turns): (&[usize], usize) = if count > 126 { (&[2, 7, 9], 126) } else { (&[3, 4, 5], 60) };
    turning(grades, cycles, count - turns)
}

/// Words over two letters by whether their letter number `back` from the end, at least 2, is letter 1: two to the power
/// `back` smallest states and few reverse vectors. With `apart` the empty word and the word of one letter 0 get the unit
/// too. That makes one state more: what the register grades after one letter more doesn't depend on that letter.
pub fn remembering(grades: GradeTables, back: usize, apart: bool) -> Drawing {
    let mut drawing = blank(grades, back + 1 + 2 * usize::from(apart), 2);
    for letter in 0..2 {
        drawing.put(letter, 0, 0);
        drawing.put_path(letter, 1..back + 1);
    }
    drawing.put(1, 0, 1);
    drawing.mark(0, back);
    if apart {
        drawing.put(0, back + 1, back + 2);
        drawing.mark(back + 1, back + 1);
        drawing.mark(back + 1, back + 2);
    }
    drawing
}

/// A register of a word's last `back` letters, each by whether its number is odd, in the last places of n; every place before it holds the unit.
/// So there are two to the power `back` vectors, alike but in those places. A word's grade says whether letter number `seen` from its
/// end, from 1, is odd.
pub fn register(grades: GradeTables, [n, m]: [usize; 2], back: usize, seen: usize) -> Drawing {
    let mut drawing = blank(grades, n, m);
    let held = n - back;
    for letter in 0..m {
        (0..held).for_each(|p| drawing.put(letter, p, p));
        drawing.put_path(letter, held..n);
        if letter % 2 == 1 {
            drawing.put(letter, held - 1, held);
        }
    }
    (0..held).for_each(|p| drawing.mark(p, held + seen - 1));
    drawing
}

fn blank(mut grades: GradeTables, n: usize, m: usize) -> Drawing {
    grades.name = format!("tight-{}", grades.name);
    Drawing { grades, n, m, start: vec![0; n], end: vec![0; n], matrices: vec![0; m * n * n] }
}

impl Drawing {
    /// The unit from p to q under a letter.
    fn put(&mut self, letter: usize, p: usize, q: usize) {
        self.matrices[(letter * self.n + p) * self.n + q] = self.grades.e as u8;
    }

    /// The unit from each of the states to the next of them.
    fn put_path(&mut self, letter: usize, states: Range<usize>) {
        (states.start + 1..states.end).for_each(|q| self.put(letter, q - 1, q));
    }

    /// The unit at one state of the start vector and at one of the end vector.
    fn mark(&mut self, start: usize, end: usize) {
        self.start[start] = self.grades.e as u8;
        self.end[end] = self.grades.e as u8;
    }
}
