//! What the three programs do: a chart text in, a table or one refusal line out.

use crate::builders::{brzozowski, nerode, reduced};
use crate::chart::{check, Shape, LONGEST};
use crate::refusal::Refusal;
use crate::text::{print_refusal, print_table, read_chart, LONGEST_TEXT};
use std::io::{self, Read, Write};

/// State room and reverse room.
#[derive(Clone, Copy, Debug)]
pub(crate) struct Rooms {
    pub states: usize,
    pub reverse: usize,
}

/// The programs' rooms.
const ROOMS: Rooms = Rooms { states: 128, reverse: 64 };
/// Bytes of the longest printed table and of a refusal line.
const LONGEST_TABLE_TEXT: usize = 13 + (9 + 4 * 16) * ROOMS.states + 9;
const REFUSAL_TEXT: usize = 9;

#[derive(Clone, Copy, Debug, PartialEq, Eq)]
pub enum Build {
    Nerode,
    Reduced,
    Brzozowski,
}

/// Reads standard input and writes the answer to standard output. One byte over the limit is enough to refuse the rest.
pub fn run(build: Build) -> io::Result<()> {
    let mut input = Vec::new();
    io::stdin().lock().take(LONGEST_TEXT as u64 + 1).read_to_end(&mut input)?;
    io::stdout().lock().write_all(&answer(build, &input))
}

/// The bytes a program prints for an input.
pub fn answer(build: Build, input: &[u8]) -> Vec<u8> {
    printed(build, input).unwrap_or_else(|refusal| {
        let mut text = vec![0; REFUSAL_TEXT];
        print_refusal(refusal.number, &mut text).expect("the buffer holds one refusal line");
        text
    })
}

fn printed(build: Build, input: &[u8]) -> Result<Vec<u8>, Refusal> {
    let mut chart = vec![0; LONGEST];
    let len = read_chart(input, &mut chart)?;
    chart.truncate(len);
    let shape = check(&chart)?;
    let mut table = vec![0; ROOMS.states * shape.row_len()];
    let count = built(build, &chart, shape, ROOMS, &mut table)?;
    let mut text = vec![0; LONGEST_TABLE_TEXT];
    let len = print_table(&chart, &table, count, shape.m, &mut text)?;
    text.truncate(len);
    Ok(text)
}

/// Builds a table in `rooms.states` rows; the rest of what a builder is lent is made here and dropped.
pub(crate) fn built(
    build: Build,
    chart: &[u8],
    shape: Shape,
    rooms: Rooms,
    table: &mut [u8],
) -> Result<usize, Refusal> {
    let mut vectors = vec![0; (rooms.states + 1) * shape.n];
    match build {
        Build::Nerode => nerode(chart, rooms.states, table, &mut vectors),
        Build::Reduced => reduced(chart, rooms.states, table, &mut vectors),
        Build::Brzozowski => smallest(chart, shape, rooms, table),
    }
}

fn smallest(chart: &[u8], shape: Shape, rooms: Rooms, table: &mut [u8]) -> Result<usize, Refusal> {
    let Rooms { states, reverse } = rooms;
    let mut reverse_table = vec![0; reverse * shape.row_len()];
    let mut reverse_vectors = vec![0; (reverse + 1) * shape.n];
    let mut rows = vec![0; (states + 1) * reverse];
    let (count, _) = brzozowski(chart, states, reverse, table, &mut reverse_table, &mut reverse_vectors, &mut rows)?;
    Ok(count)
}
