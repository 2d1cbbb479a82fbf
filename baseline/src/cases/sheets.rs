//! Sheets, sound and damaged, each with its chart and table, and with the refusal it must get where the way it was made fixes it.

use super::charts::{chart_with, ChartFault};
use super::grades;
use super::house::House;
use super::pairs::reached_pairs;
use super::rng::Rng;
use super::stored::Stored;
use super::{by_hand, tight, Expected};
use crate::programs::Build;
use crate::refusal::Reply;
use crate::sheets::{check_sheet, pair};
use crate::{MOST_LINES, MOST_STATES};

/// What is done to a sheet that has exactly the reached pairs, or to what stands beside it.
#[derive(Clone, Copy, Debug, PartialEq, Eq)]
pub enum SheetFault {
    None,
    Lines(LineFault),
    Form(FormFault),
    Table(TableChange),
    Chart(ChartFault),
}

#[derive(Clone, Copy, Debug, PartialEq, Eq)]
pub enum LineFault {
    Shuffled,
    Doubled,
    FirstMissing,
    OtherMissing,
    /// A pair that no word need reach.
    Extra,
    OtherState,
    OtherGrade,
    StateIsCount,
    StateFar,
    GradeIsK,
}

#[derive(Clone, Copy, Debug, PartialEq, Eq)]
pub enum FormFault {
    /// Bytes after the lines, which aren't read.
    BytesAfter,
    NoLines,
    OneLineMore,
    /// A number of lines with which the byte count would wrap and seem small enough.
    Wraps,
    /// A number of lines that a narrower number would hold as the right one.
    Above,
    /// The start pair is missing besides: the form comes first.
    FirstMissing,
}

#[derive(Clone, Copy, Debug, PartialEq, Eq)]
pub enum TableChange {
    /// Other tables that grade as the chart does, with the pairs that they reach.
    Renumbered,
    Twin,
    Unreached,
    /// Another grade at some state.
    Grade,
    /// Another next state; the pairs are those of the right table.
    Next,
    /// Another next state, with the pairs that this table reaches.
    NextWithPairs,
    /// As the two above, at the last state of a chart that has it only after a long word.
    DeepGrade,
    DeepNextWithPairs,
    OtherLetters,
    GradeIsK,
    NextIsCount,
    NoStates,
    Cut,
    /// A sheet of wrong form besides: the table comes first.
    CutAndForm,
}

pub const SHEET_FAULTS: [SheetFault; 46] = [
    SheetFault::None,
    SheetFault::Lines(LineFault::Shuffled),
    SheetFault::Lines(LineFault::Doubled),
    SheetFault::Lines(LineFault::FirstMissing),
    SheetFault::Lines(LineFault::OtherMissing),
    SheetFault::Lines(LineFault::Extra),
    SheetFault::Lines(LineFault::OtherState),
    SheetFault::Lines(LineFault::OtherGrade),
    SheetFault::Lines(LineFault::StateIsCount),
    SheetFault::Lines(LineFault::StateFar),
    SheetFault::Lines(LineFault::GradeIsK),
    SheetFault::Form(FormFault::BytesAfter),
    SheetFault::Form(FormFault::NoLines),
    SheetFault::Form(FormFault::OneLineMore),
    SheetFault::Form(FormFault::Wraps),
    SheetFault::Form(FormFault::Above),
    SheetFault::Form(FormFault::FirstMissing),
    SheetFault::Table(TableChange::Renumbered),
    SheetFault::Table(TableChange::Twin),
    SheetFault::Table(TableChange::Unreached),
    SheetFault::Table(TableChange::Grade),
    SheetFault::Table(TableChange::Next),
    SheetFault::Table(TableChange::NextWithPairs),
    SheetFault::Table(TableChange::DeepGrade),
    SheetFault::Table(TableChange::DeepNextWithPairs),
    SheetFault::Table(TableChange::OtherLetters),
    SheetFault::Table(TableChange::GradeIsK),
    SheetFault::Table(TableChange::NextIsCount),
    SheetFault::Table(TableChange::NoStates),
    SheetFault::Table(TableChange::Cut),
    SheetFault::Table(TableChange::CutAndForm),
    SheetFault::Chart(ChartFault::LongerBuffer),
    SheetFault::Chart(ChartFault::UnderFour),
    SheetFault::Chart(ChartFault::Short),
    SheetFault::Chart(ChartFault::Head),
    SheetFault::Chart(ChartFault::HeadAndShort),
    SheetFault::Chart(ChartFault::Grade),
    SheetFault::Chart(ChartFault::GradeAndLaw),
    SheetFault::Chart(ChartFault::Law(1)),
    SheetFault::Chart(ChartFault::Law(2)),
    SheetFault::Chart(ChartFault::Law(3)),
    SheetFault::Chart(ChartFault::Law(4)),
    SheetFault::Chart(ChartFault::Law(5)),
    SheetFault::Chart(ChartFault::Law(6)),
    SheetFault::Chart(ChartFault::Law(7)),
    SheetFault::Chart(ChartFault::Law(8)),
];

#[derive(Clone, Debug)]
pub struct SheetCase {
    pub chart: Vec<u8>,
    pub table: House,
    pub sheet: Vec<u8>,
    pub lines: usize,
    /// What the way it was made fixes of the reply.
    pub expected: Option<Expected>,
}

/// The sheet case of this number. The first are P9 to P12, then come a sheet as long as may be, one that is longer, and two long ones
/// that fail late.
pub fn sheet_case(seed: u64, case: u64) -> SheetCase {
    let mut rng = Rng::for_case(seed, case);
    match case {
        0..=3 => by_hand::e_sheet(case),
        4 => full(12),
        5 => too_long(),
        6 => full(10).without_last(),
        7 => full(10).with_last_regraded(&mut rng),
        _ => sheet_with(&mut rng, SHEET_FAULTS[case as usize % SHEET_FAULTS.len()]),
    }
}

/// Every pair of a chart of two to the power `back` vectors.
fn full(back: usize) -> SheetCase {
    let chart = tight::remembering(grades::chain(2), back, false).bytes();
    let table = House::built(Build::Nerode, &chart, MOST_STATES).expect("it has so many states");
    SheetCase::honest(chart, table).expect("it has so many pairs")
}

/// A small table's start pair, one time too often.
fn too_long() -> SheetCase {
    let mut made = by_hand::e_sheet(0);
    made.lines = MOST_LINES + 1;
    made.sheet = made.sheet[..made.line_len()].repeat(made.lines);
    SheetCase { expected: Some(Expected::refusal(10)), ..made }
}

pub fn sheet_with(rng: &mut Rng, fault: SheetFault) -> SheetCase {
    let mut made = match fault {
        SheetFault::Table(TableChange::DeepGrade | TableChange::DeepNextWithPairs) => deep(rng),
        _ => SheetCase::random(rng),
    };
    made.expected = match fault {
        SheetFault::None => Some(Expected::GOOD),
        SheetFault::Lines(fault) => made.spoil_lines(rng, fault),
        SheetFault::Form(fault) => made.spoil_form(rng, fault),
        SheetFault::Table(change) => made.change_table(rng, change),
        SheetFault::Chart(fault) => made.spoil_chart(rng, fault),
    };
    made
}

/// A chart of one letter whose last states are reached by words of more than 60 letters alone.
fn deep(rng: &mut Rng) -> SheetCase {
    let path = rng.range(3, 9);
    let chart = tight::turning(grades::sound(rng), &[3, 4, 5], path).bytes();
    let build = rng.pick(&[Build::Nerode, Build::Reduced, Build::Brzozowski]);
    let table = House::built(build, &chart, 99).expect("it has 60 states and the path's");
    SheetCase::honest(chart, table).expect("it has as many pairs")
}

/// Another grade than the one given.
fn other_grade(rng: &mut Rng, k: usize, than: u8) -> u8 {
    ((usize::from(than) + rng.range(1, k - 1)) % k) as u8
}

impl SheetCase {
    pub fn reply(&self) -> Reply {
        let House { rows, count, m } = &self.table;
        check_sheet(&self.chart, rows, *count, *m, &self.sheet, self.lines).into()
    }

    /// The chart, the table and the sheet, and what the check answers.
    pub fn store(&self, stored: &mut Stored) {
        stored.part(&self.chart);
        stored.part(&self.table.rows);
        stored.number(self.table.count);
        stored.number(self.table.m);
        stored.part(&self.sheet);
        stored.number(self.lines);
        stored.reply(&self.reply());
    }

    /// The pairs that the table reaches, where a sheet can hold them.
    pub fn honest(chart: Vec<u8>, table: House) -> Option<SheetCase> {
        let (sheet, lines) = reached_pairs(&chart, &table.rows, table.m, MOST_LINES)?;
        Some(SheetCase { chart, table, sheet, lines, expected: Some(Expected::GOOD) })
    }

    /// A random chart with a table and two lines or more.
    fn random(rng: &mut Rng) -> SheetCase {
        loop {
            let (chart, table) = House::with_chart(rng, 30);
            let made = SheetCase::honest(chart, table);
            if let Some(made) = made.filter(|made| (2..=40).contains(&made.lines)) {
                return made;
            }
        }
    }

    fn without_last(mut self) -> SheetCase {
        self.edit(|lines| drop(lines.pop()));
        SheetCase { expected: Some(Expected::refusal(13)), ..self }
    }

    fn with_last_regraded(mut self, rng: &mut Rng) -> SheetCase {
        self.expected = self.regrade(rng, Some(self.table.count - 1));
        self
    }

    fn k(&self) -> usize {
        usize::from(self.chart[0])
    }

    fn line_len(&self) -> usize {
        2 + usize::from(self.chart[2])
    }

    fn any_pair(&self, rng: &mut Rng) -> Vec<u8> {
        let vector: Vec<u8> = (2..self.line_len()).map(|_| rng.below(self.k()) as u8).collect();
        pair(rng.below(self.table.count), &vector)
    }

    fn set_state(&mut self, line: usize, state: usize) {
        let at = line * self.line_len();
        self.sheet[at..at + 2].copy_from_slice(&(state as u16).to_be_bytes());
    }

    fn edit(&mut self, change: impl FnOnce(&mut Vec<Vec<u8>>)) {
        let mut lines = self.sheet.chunks(self.line_len()).map(Vec::from).collect();
        change(&mut lines);
        self.lines = lines.len();
        self.sheet = lines.concat();
    }

    /// Answers what must come of it; so do the three below.
    fn spoil_lines(&mut self, rng: &mut Rng, fault: LineFault) -> Option<Expected> {
        let (line, later, to) = (rng.below(self.lines), rng.range(1, self.lines - 1), rng.below(self.lines + 1));
        let grade_at = rng.range(line * self.line_len() + 2, (line + 1) * self.line_len() - 1);
        let count = self.table.count;
        match fault {
            LineFault::Shuffled => self.edit(|lines| rng.shuffle(lines)),
            LineFault::Doubled => self.edit(|lines| lines.insert(to, lines[line].clone())),
            LineFault::FirstMissing => self.edit(|lines| drop(lines.remove(0))),
            LineFault::OtherMissing => self.edit(|lines| drop(lines.remove(later))),
            LineFault::Extra => {
                let extra = self.any_pair(rng);
                self.edit(|lines| lines.insert(to, extra));
            }
            LineFault::OtherState => self.set_state(line, rng.below(count)),
            LineFault::OtherGrade => self.sheet[grade_at] = other_grade(rng, self.k(), self.sheet[grade_at]),
            LineFault::StateIsCount => self.set_state(line, count),
            LineFault::StateFar => self.set_state(line, rng.pick(&[256 + count, 4096, 65535])),
            LineFault::GradeIsK => self.sheet[grade_at] = rng.pick(&[self.chart[0], 255]),
        }
        match fault {
            LineFault::Shuffled | LineFault::Doubled => Some(Expected::GOOD),
            LineFault::FirstMissing => Some(Expected::refusal(11)),
            LineFault::OtherMissing => Some(Expected::refusal(13)),
            LineFault::StateIsCount | LineFault::StateFar | LineFault::GradeIsK => Some(Expected::refusal(10)),
            LineFault::Extra | LineFault::OtherState | LineFault::OtherGrade => None,
        }
    }

    fn spoil_form(&mut self, rng: &mut Rng, fault: FormFault) -> Option<Expected> {
        let wrapping = usize::MAX / self.line_len() + 1;
        match fault {
            FormFault::BytesAfter => self.sheet.extend([255; 30]),
            FormFault::NoLines => self.lines = 0,
            FormFault::OneLineMore => self.lines += 1,
            FormFault::Wraps => self.lines = rng.pick(&[wrapping, wrapping, 1 << 63, usize::MAX]),
            FormFault::Above => self.lines += rng.pick(&[1 << 16, 1 << 32]),
            FormFault::FirstMissing => {
                self.edit(|lines| drop(lines.remove(0)));
                self.lines += 1;
            }
        }
        Some(match fault {
            FormFault::BytesAfter => Expected::GOOD,
            FormFault::NoLines => Expected::refusal(11),
            _ => Expected::refusal(10),
        })
    }

    /// Another table, with the pairs that it reaches.
    fn pair_with(&mut self, table: House) {
        *self = SheetCase::honest(self.chart.clone(), table).expect("a small table has few pairs");
    }

    fn change_table(&mut self, rng: &mut Rng, change: TableChange) -> Option<Expected> {
        match change {
            TableChange::Renumbered => self.pair_with(self.table.renumbered(rng)),
            TableChange::Twin => self.pair_with(self.table.with_twin(rng)),
            TableChange::Unreached => self.pair_with(self.table.with_unreached(rng)),
            _ => return self.spoil_table(rng, change),
        }
        Some(Expected::GOOD)
    }

    fn spoil_table(&mut self, rng: &mut Rng, change: TableChange) -> Option<Expected> {
        match change {
            TableChange::Grade => return self.regrade(rng, None),
            TableChange::DeepGrade => return self.regrade(rng, Some(self.table.count - 1)),
            TableChange::Next => {
                self.lead_elsewhere(rng, None);
                return None;
            }
            TableChange::NextWithPairs | TableChange::DeepNextWithPairs => {
                let deep = change == TableChange::DeepNextWithPairs;
                self.lead_elsewhere(rng, deep.then_some(self.table.count - 1));
                self.pair_with(self.table.clone());
                return None;
            }
            _ => self.spoil_table_form(rng, change),
        }
        Some(Expected::refusal(9))
    }

    /// Every state of a built table is on some line, so the first such line is refused.
    fn regrade(&mut self, rng: &mut Rng, state: Option<usize>) -> Option<Expected> {
        let state = state.unwrap_or_else(|| rng.below(self.table.count));
        let grade = other_grade(rng, self.k(), self.table.grade(state));
        self.table.set_grade(state, grade);
        let held = (state as u16).to_be_bytes();
        let line = self.sheet.chunks(self.line_len()).position(|line| line[..2] == held);
        Some(Expected { number: 12, first: line })
    }

    fn lead_elsewhere(&mut self, rng: &mut Rng, state: Option<usize>) {
        let House { count, m, .. } = self.table;
        let state = state.unwrap_or_else(|| rng.below(count));
        self.table.set_next(state, rng.below(m), rng.below(count));
    }

    fn spoil_table_form(&mut self, rng: &mut Rng, change: TableChange) {
        let House { count, m, .. } = self.table;
        let (state, letter) = (rng.below(count), rng.below(m));
        match change {
            TableChange::OtherLetters => self.table = House::anything(rng, count, m % 16 + 1, self.k()),
            TableChange::GradeIsK => self.table.set_grade(state, self.chart[0]),
            TableChange::NextIsCount => self.table.set_next(state, letter, count),
            TableChange::NoStates => self.table.count = 0,
            TableChange::Cut => drop(self.table.rows.pop()),
            _ => {
                self.table.rows.pop();
                self.lines = MOST_LINES + 1;
            }
        }
    }

    /// Bytes after the chart aren't read; any other fault brings a chart that is refused whatever stands beside it.
    fn spoil_chart(&mut self, rng: &mut Rng, fault: ChartFault) -> Option<Expected> {
        if fault == ChartFault::LongerBuffer {
            self.chart.extend([255; 9]);
            return Some(Expected::GOOD);
        }
        let refused = chart_with(rng, fault);
        self.chart = refused.bytes;
        Some(refused.expected)
    }
}
