//! Tables, sound and damaged, with walks over them.

use super::by_hand;
use super::house::House;
use super::rng::Rng;
use super::stored::Stored;
use crate::bench::Reader;
use crate::refusal::Reply;
use crate::tables::{check_table, grade, grade_word, step};
use crate::vectors::vector_at;
use crate::MOST_STATES;

/// What is done to a table of a random chart.
#[derive(Clone, Copy, Debug, PartialEq, Eq)]
pub enum TableFault {
    None,
    Renumbered,
    Twin,
    Unreached,
    /// Not of a chart: any grades to 15, any next states.
    Anything,
    /// Bytes after the rows, which aren't read.
    BytesAfter,
    /// A grade above 15.
    Grade,
    /// A next state that is the count.
    NextIsCount,
    /// A next state far above the count.
    NextFar,
    Cut,
    NoStates,
    NoLetters,
    Letters17,
    /// A count with which the byte count would wrap and seem small enough.
    CountWraps,
    /// An m with which the row's length would wrap and seem right.
    LettersWrap,
    /// A count that a narrower number would hold as the right one.
    CountAbove,
    /// An m that a narrower number would hold as the right one.
    LettersAbove,
}

/// Those that the table check must accept.
pub const SOUND: [TableFault; 6] = [
    TableFault::None,
    TableFault::Renumbered,
    TableFault::Twin,
    TableFault::Unreached,
    TableFault::Anything,
    TableFault::BytesAfter,
];

pub const DAMAGED: [TableFault; 11] = [
    TableFault::Grade,
    TableFault::NextIsCount,
    TableFault::NextFar,
    TableFault::Cut,
    TableFault::NoStates,
    TableFault::NoLetters,
    TableFault::Letters17,
    TableFault::CountWraps,
    TableFault::LettersWrap,
    TableFault::CountAbove,
    TableFault::LettersAbove,
];

/// A state, for one step, its grade and the vector behind it, and a word, for its grade.
#[derive(Clone, Debug, Default)]
pub struct Walk {
    pub state: usize,
    pub letter: usize,
    pub word: Vec<u8>,
    /// The first place whose letter is bad, by the way the word was made.
    pub bad_at: Option<usize>,
}

#[derive(Clone, Debug)]
pub struct TableCase {
    pub table: House,
    pub walks: Vec<Walk>,
    /// Whether the table check must accept the table, by the way it was made.
    pub sound: bool,
}

/// The replies to one walk.
#[derive(Clone, Debug)]
pub struct Walked {
    pub step: Reply,
    pub grade: Reply,
    pub word: Reply,
    /// The word read letter by letter: a refused letter leaves the reader's state as it was.
    pub read: Reply,
    /// The table's bytes taken for vectors of m bytes.
    pub vector: Reply,
}

impl TableCase {
    pub fn check(&self) -> Reply {
        check_table(&self.table.rows, self.table.count, self.table.m).into()
    }

    pub fn walk(&self, walk: &Walk) -> Walked {
        let House { rows, count, m } = &self.table;
        Walked {
            step: step(rows, *count, *m, walk.state, walk.letter).into(),
            grade: grade(rows, *count, *m, walk.state).into(),
            word: grade_word(rows, *count, *m, &walk.word).into(),
            read: self.read(&walk.word),
            vector: Reply {
                number: 0,
                values: vector_at(rows, *m, *count, walk.state).iter().map(|&byte| usize::from(byte)).collect(),
            },
        }
    }

    fn read(&self, word: &[u8]) -> Reply {
        let mut reader = Reader::new(&self.table.rows, self.table.count, self.table.m);
        word.iter().for_each(|&letter| drop(reader.step(usize::from(letter))));
        reader.grade().into()
    }

    /// The table and its walks, and what each call answers.
    pub fn store(&self, stored: &mut Stored) {
        stored.part(&self.table.rows);
        stored.number(self.table.count);
        stored.number(self.table.m);
        stored.number(self.walks.len());
        stored.reply(&self.check());
        self.walks.iter().for_each(|walk| self.store_walk(stored, walk));
    }

    fn store_walk(&self, stored: &mut Stored, walk: &Walk) {
        stored.number(walk.state);
        stored.number(walk.letter);
        stored.part(&walk.word);
        let Walked { step, grade, word, read, vector } = self.walk(walk);
        [step, grade, word, read, vector].iter().for_each(|reply| stored.reply(reply));
    }
}

/// The table case of this number; every second one is sound. The first is E's table, then come the largest tables and one of a state too
/// many.
pub fn table_case(seed: u64, case: u64) -> TableCase {
    let mut rng = Rng::for_case(seed, case);
    let half = case as usize / 2;
    match (case, case % 2) {
        (0, _) => by_hand::e_walks(),
        (1, _) => large(&mut rng, MOST_STATES, 16),
        (2, _) => large(&mut rng, MOST_STATES, 1),
        (3, _) => large(&mut rng, MOST_STATES + 1, 1),
        (_, 0) => table_with(&mut rng, SOUND[half % SOUND.len()]),
        _ => table_with(&mut rng, DAMAGED[half % DAMAGED.len()]),
    }
}

fn large(rng: &mut Rng, count: usize, m: usize) -> TableCase {
    let table = House::anything(rng, count, m, 16);
    let walks = walks(rng, &table, count - 1);
    TableCase { table, walks, sound: count <= MOST_STATES }
}

pub fn table_with(rng: &mut Rng, fault: TableFault) -> TableCase {
    let (_, mut table) = House::with_chart(rng, 60);
    let spoiled = rng.below(table.count);
    spoil(rng, &mut table, fault, spoiled);
    let walks = walks(rng, &table, spoiled);
    TableCase { table, walks, sound: SOUND.contains(&fault) }
}

/// Faults of one row are put at the state `at`.
fn spoil(rng: &mut Rng, table: &mut House, fault: TableFault, at: usize) {
    let letter = rng.below(table.m);
    let same = table.count;
    match fault {
        TableFault::None => {}
        TableFault::Renumbered => *table = table.renumbered(rng),
        TableFault::Twin => *table = table.with_twin(rng),
        TableFault::Unreached => *table = table.with_unreached(rng),
        TableFault::Anything => *table = anything(rng, at + 1),
        TableFault::BytesAfter => table.rows.extend([255; 40]),
        TableFault::Grade => table.set_grade(at, rng.pick(&[16, 17, 128, 255])),
        TableFault::NextIsCount => table.set_next(at, letter, same),
        TableFault::NextFar => table.set_next(at, letter, rng.pick(&[same + 256, 4096, 32768, 65535])),
        TableFault::Cut => table.rows.truncate(rng.pick(&[0, 1, table.rows.len() - 1])),
        TableFault::NoStates => table.count = 0,
        TableFault::NoLetters => table.m = 0,
        TableFault::Letters17 => *table = House::anything(rng, 3, 17, 16),
        _ => table_numbers(rng, table, fault),
    }
}

/// Faults of the two numbers alone.
fn table_numbers(rng: &mut Rng, table: &mut House, fault: TableFault) {
    let House { count, m, .. } = *table;
    let half = 1 << 63;
    let wrapping = usize::MAX / table.row_len() + 1;
    match fault {
        TableFault::CountWraps => table.count = rng.pick(&[wrapping, wrapping, half, half + count, usize::MAX]),
        TableFault::LettersWrap => table.m = rng.pick(&[half + m, half + m, half, half - 1, usize::MAX]),
        TableFault::CountAbove => table.count = count + rng.pick(&[1 << 16, 1 << 32]),
        _ => table.m = m + rng.pick(&[1 << 8, 1 << 16, 1 << 32]),
    }
}

fn anything(rng: &mut Rng, least: usize) -> House {
    let (count, m) = (rng.range(least, 90), rng.range(1, 16));
    House::anything(rng, count, m, 16)
}

/// Walks that may go well, from any state and from the one given, and walks with a bad state, letter or word.
fn walks(rng: &mut Rng, table: &House, from: usize) -> Vec<Walk> {
    let (count, m) = (table.count.clamp(1, MOST_STATES), table.m.clamp(1, 16));
    let (any, letter) = (rng.below(count), rng.below(m));
    let (bad_state, bad_letter) = (beyond(rng, table.count), beyond(rng, table.m));
    let fine = |state, letter, word| Walk { state, letter, word, bad_at: None };
    let (word, bad_at) = bad_word(rng, m);
    vec![
        fine(any, letter, fine_word(rng, m)),
        fine(from, letter, Vec::new()),
        fine(bad_state, letter, fine_word(rng, m)),
        Walk { state: from, letter: bad_letter, word, bad_at: Some(bad_at) },
        fine(bad_state, bad_letter, fine_word(rng, m)),
    ]
}

/// A number that is at least `bound`, just so or by far, and may look like a smaller one to a narrower number.
fn beyond(rng: &mut Rng, bound: usize) -> usize {
    let by = rng.pick(&[0, 0, 1, 256, 65535, 1 << 16, 1 << 32, 1 << 63]);
    bound.saturating_add(by)
}

fn fine_word(rng: &mut Rng, m: usize) -> Vec<u8> {
    let (short, long) = (rng.range(2, 12), rng.range(13, 300));
    let len = rng.pick(&[0, 1, short, short, long]);
    (0..len).map(|_| rng.below(m) as u8).collect()
}

/// A word with a bad letter, and its place; any letters may come after.
fn bad_word(rng: &mut Rng, m: usize) -> (Vec<u8>, usize) {
    let mut word = fine_word(rng, m);
    let place = word.len();
    word.push(rng.pick(&[m as u8, m as u8, m as u8 + 1, 255]));
    word.extend((0..rng.below(9)).map(|i| i as u8 * 30));
    (word, place)
}
