//! The three constructions: Nerode, reduced Nerode and Brzozowski.

use crate::chart::Chart;
use crate::listing::{list, Construction, Lent};
use crate::refusal::Refusal;
use crate::tables::next_of;
use crate::vectors::{combine, row_times, times_col, Grades};
use crate::{MOST_REVERSE, MOST_STATES};

/// The Nerode table and its vectors; answers the state count.
pub fn nerode(chart: &[u8], room: usize, table: &mut [u8], vectors: &mut [u8]) -> Result<usize, Refusal> {
    let chart = Chart::checked(chart)?;
    forward(&chart, &Nerode(Operands::of(chart)), room, table, vectors)
}

/// The reduced Nerode table and the vectors of its states' first words; answers the state count.
pub fn reduced(chart: &[u8], room: usize, table: &mut [u8], vectors: &mut [u8]) -> Result<usize, Refusal> {
    let chart = Chart::checked(chart)?;
    forward(&chart, &Reduced(Operands::of(chart)), room, table, vectors)
}

fn forward(
    chart: &Chart,
    construction: &impl Construction,
    room: usize,
    table: &mut [u8],
    vectors: &mut [u8],
) -> Result<usize, Refusal> {
    let n = chart.shape.n;
    if !(1..=MOST_STATES).contains(&room)
        || table.len() < room * chart.shape.row_len()
        || vectors.len() < (room + 1) * n
    {
        return Err(Refusal::lent());
    }
    let lent = Lent { table: &mut *table, places: &mut *vectors, stride: n, width: n, room };
    match list(construction, lent) {
        Some(count) => Ok(count),
        None => {
            zero([table, vectors]);
            Err(Refusal::state_room())
        }
    }
}

/// The smallest table, with the reverse vectors, the reverse table and the rows it comes from; answers the state count
/// and the reverse count.
pub fn brzozowski(
    chart: &[u8],
    room: usize,
    reverse_room: usize,
    table: &mut [u8],
    reverse_table: &mut [u8],
    reverse_vectors: &mut [u8],
    rows: &mut [u8],
) -> Result<(usize, usize), Refusal> {
    let chart = Chart::checked(chart)?;
    let (n, row_len) = (chart.shape.n, chart.shape.row_len());
    if !(1..=MOST_STATES).contains(&room)
        || !(1..=MOST_REVERSE).contains(&reverse_room)
        || table.len() < room * row_len
        || reverse_table.len() < reverse_room * row_len
        || reverse_vectors.len() < (reverse_room + 1) * n
        || rows.len() < (room + 1) * reverse_room
    {
        return Err(Refusal::lent());
    }
    let lent =
        Lent { table: &mut *reverse_table, places: &mut *reverse_vectors, stride: n, width: n, room: reverse_room };
    let Some(reverse_count) = list(&Reverse(Operands::of(chart)), lent) else {
        zero([table, reverse_table, reverse_vectors, rows]);
        return Err(Refusal::reverse_room());
    };
    let construction = Rows::of(&reverse_table[..reverse_count * row_len], chart.shape.m);
    let lent = Lent { table: &mut *table, places: &mut *rows, stride: reverse_room, width: reverse_count, room };
    let Some(count) = list(&construction, lent) else {
        zero([table, reverse_table, reverse_vectors, rows]);
        return Err(Refusal::state_room());
    };
    Ok((count, reverse_count))
}

/// Refusals 6 and 7 fill every lent output buffer, to its last byte.
fn zero<const N: usize>(buffers: [&mut [u8]; N]) {
    for buffer in buffers {
        buffer.fill(0);
    }
}

/// A checked chart with its grade tables laid out for look-up.
struct Operands<'a> {
    chart: Chart<'a>,
    grades: Grades,
}

impl<'a> Operands<'a> {
    fn of(chart: Chart<'a>) -> Self {
        Operands { chart, grades: Grades::of(&chart) }
    }

    fn after(&self, vector: &[u8], letter: usize, to: &mut [u8]) {
        row_times(&self.grades, vector, self.chart.matrix(letter), to);
    }

    fn ended(&self, vector: &[u8]) -> u8 {
        combine(&self.grades, vector, self.chart.end())
    }
}

/// Vectors, told apart by themselves.
struct Nerode<'a>(Operands<'a>);

impl Construction for Nerode<'_> {
    fn letters(&self) -> usize {
        self.0.chart.shape.m
    }

    fn first(&self, value: &mut [u8]) {
        value.copy_from_slice(self.0.chart.start());
    }

    fn next(&self, from: &[u8], letter: usize, to: &mut [u8]) {
        self.0.after(from, letter, to);
    }

    fn grade(&self, value: &[u8]) -> u8 {
        self.0.ended(value)
    }
}

/// Vectors, told apart by what each letter makes of them and by their grade.
struct Reduced<'a>(Operands<'a>);

impl Construction for Reduced<'_> {
    fn letters(&self) -> usize {
        self.0.chart.shape.m
    }

    fn first(&self, value: &mut [u8]) {
        value.copy_from_slice(self.0.chart.start());
    }

    fn next(&self, from: &[u8], letter: usize, to: &mut [u8]) {
        self.0.after(from, letter, to);
    }

    fn grade(&self, value: &[u8]) -> u8 {
        self.0.ended(value)
    }

    fn key<'v>(&self, value: &'v [u8], scratch: &'v mut Vec<u8>) -> &'v [u8] {
        scratch.resize(self.letters() * value.len() + 1, 0);
        let (grade, after) = scratch.split_last_mut().unwrap();
        for (letter, part) in after.chunks_exact_mut(value.len()).enumerate() {
            self.0.after(value, letter, part);
        }
        *grade = self.0.ended(value);
        scratch
    }
}

/// Reverse vectors: from the end vector, each letter's matrix times the column.
struct Reverse<'a>(Operands<'a>);

impl Construction for Reverse<'_> {
    fn letters(&self) -> usize {
        self.0.chart.shape.m
    }

    fn first(&self, value: &mut [u8]) {
        value.copy_from_slice(self.0.chart.end());
    }

    fn next(&self, from: &[u8], letter: usize, to: &mut [u8]) {
        times_col(&self.0.grades, self.0.chart.matrix(letter), from, to);
    }

    fn grade(&self, value: &[u8]) -> u8 {
        combine(&self.0.grades, self.0.chart.start(), value)
    }
}

/// Brzozowski's rows, worked out from the reverse table alone.
struct Rows {
    first: Vec<u8>,
    /// For each letter, the reverse vector that each reverse vector leads to.
    next: Vec<Vec<usize>>,
}

impl Rows {
    fn of(reverse_table: &[u8], m: usize) -> Self {
        let rows = || reverse_table.chunks_exact(1 + 2 * m);
        Rows {
            first: rows().map(|row| row[0]).collect(),
            next: (0..m).map(|letter| rows().map(|row| next_of(row, letter)).collect()).collect(),
        }
    }
}

impl Construction for Rows {
    fn letters(&self) -> usize {
        self.next.len()
    }

    fn first(&self, value: &mut [u8]) {
        value.copy_from_slice(&self.first);
    }

    fn next(&self, from: &[u8], letter: usize, to: &mut [u8]) {
        for (entry, &leads_to) in to.iter_mut().zip(&self.next[letter]) {
            *entry = from[leads_to];
        }
    }

    /// The end vector is reverse vector 0.
    fn grade(&self, value: &[u8]) -> u8 {
        value[0]
    }
}
