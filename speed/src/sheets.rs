//! Times the proved sheet check beside the plain one, which looks pairs up in a hash set.

use crate::{median, report, ROOM};
use baseline::cases::{grades, tight, Drawing, GradeTables, House, SheetCase};
use baseline::check_sheet;
use baseline::programs::Build;
use std::hint::black_box;

extern "C" {
    #[rustfmt::skip]
    fn yard_check_sheet(
        chart: *const u8, len: usize, rows: *const u8, rows_len: usize, count: usize, m: usize, sheet: *const u8, sheet_len: usize, lines: usize,
    ) -> u8;
}

fn proved_sheet(made: &SheetCase) -> u8 {
    let (chart, rows, sheet) = (&made.chart, &made.table.rows, &made.sheet);
    let (count, m) = (made.table.count, made.table.m);
    // any bytes and numbers may be passed
    unsafe { yard_check_sheet(chart.as_ptr(), chart.len(), rows.as_ptr(), rows.len(), count, m, sheet.as_ptr(), sheet.len(), made.lines) }
}

fn plain_sheet(made: &SheetCase) -> u8 {
    check_sheet(&made.chart, &made.table.rows, made.table.count, made.table.m, &made.sheet, made.lines).map_or_else(|refusal| refusal.number, |()| 0)
}

pub fn ratio(name: &str, made: &SheetCase) -> f64 {
    assert_eq!((proved_sheet(made), plain_sheet(made)), (0, 0), "{name}");
    let proved = median(1, || assert_eq!(proved_sheet(black_box(made)), 0));
    let plain = median(1, || assert_eq!(plain_sheet(black_box(made)), 0));
    report(&format!("sheet {name}, {} states, {} lines", made.table.count, made.lines), proved, plain)
}

/// The pairs that one of a chart's tables reaches.
fn honest(drawing: Drawing, build: Build) -> SheetCase {
    let chart = drawing.bytes();
    let table = House::built(build, &chart, ROOM).expect("a table within the room");
    SheetCase::honest(chart, table).expect("pairs within a sheet")
}

/// The sheet has 4,096 vectors that differ in their last places only. Every letter leads to the vector of zeros, which is on the last line; so no search ends before.
fn all_to_the_last_line() -> SheetCase {
    let mut drawing = tight::register(grades::chain(2), [24, 16], 12, 12);
    drawing.end.fill(0);
    drawing.matrices.fill(0);
    drawing.start = vector_of(1);
    let mut made = honest(drawing, Build::Brzozowski);
    made.lines = ROOM;
    made.sheet = (1..ROOM).chain([0]).flat_map(|number| [vec![0; 2], vector_of(number)].concat()).collect();
    made
}

/// The bits of a number as a vector of 24 grades, the lowest last.
fn vector_of(number: usize) -> Vec<u8> {
    (0..24).rev().map(|bit| (number >> bit & 1) as u8).collect()
}

/// A sheet with what it is called.
type Named = (String, SheetCase);

fn remembering(name: &str, tables: &GradeTables, back: usize) -> Named {
    (format!("{name}, remembering {back}"), honest(tight::remembering(tables.clone(), back, true), Build::Nerode))
}

/// 4,096 lines: with a table state a line, with two table states, and with one.
fn registers(name: &str, tables: &GradeTables) -> [Named; 3] {
    let register = |seen| tight::register(tables.clone(), [24, 16], 12, seen);
    let mut blind = register(12);
    blind.end.fill(0);
    let made = [honest(register(12), Build::Nerode), honest(register(1), Build::Brzozowski), honest(blind, Build::Brzozowski)];
    made.map(|made| (format!("{name}, n 24, m 16"), made))
}

/// Sheets of few lines and of 4,096.
pub fn samples() -> Vec<Named> {
    let mut sheets = Vec::new();
    for (name, tables) in [("chain 2", grades::chain(2)), ("relations", grades::relations())] {
        sheets.extend([6, 9].map(|back| remembering(name, &tables, back)));
        sheets.extend(registers(name, &tables));
    }
    sheets.push(("all to the last line, n 24, m 16".into(), all_to_the_last_line()));
    sheets
}
