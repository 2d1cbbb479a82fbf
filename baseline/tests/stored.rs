//! The stored cases: that the files are what the programs write, that every reply occurs, and that cases get what they were made for.

mod common;

use baseline::cases::by_hand::{E_CHART, E_SHEET, E_TABLE};
use baseline::cases::tables::{Walk, Walked};
use baseline::cases::{chart_case, sheet_case, table_case, text_case, SheetCase, Stored, TableCase};
use baseline::programs::{answer, Build};
use baseline::{check, Reply};
use common::Plain;
use std::collections::BTreeMap;
use std::path::PathBuf;

const SEED: u64 = 1;
const TABLES: u64 = 340;
const SHEETS: u64 = 414;

fn table_cases() -> impl Iterator<Item = TableCase> {
    (0..TABLES).map(|case| table_case(SEED, case))
}

fn sheet_cases() -> impl Iterator<Item = SheetCase> {
    (0..SHEETS).map(|case| sheet_case(SEED, case))
}

fn walks(case: &TableCase) -> impl Iterator<Item = (&Walk, Walked)> {
    case.walks.iter().map(|walk| (walk, case.walk(walk)))
}

fn reply(number: u8, values: &[usize]) -> Reply {
    Reply { number, values: values.to_vec() }
}

/// How often each number was answered.
fn tally(replies: impl Iterator<Item = Reply>) -> BTreeMap<u8, usize> {
    let mut counts = BTreeMap::new();
    replies.for_each(|reply| *counts.entry(reply.number).or_default() += 1);
    counts
}

/// The numbers that must occur are those that do, each so many times or more.
fn assert_occur(what: &str, replies: impl Iterator<Item = Reply>, least: &[(u8, usize)]) {
    let counts = tally(replies);
    assert!(counts.keys().eq(least.iter().map(|(number, _)| number)), "{what}: {counts:?}");
    assert!(least.iter().all(|(number, least)| counts[number] >= *least), "{what}: {counts:?}");
}

/// A file of the repository.
fn held(path: &str) -> Vec<u8> {
    std::fs::read(PathBuf::from(env!("CARGO_MANIFEST_DIR")).join("..").join(path)).unwrap()
}

fn assert_stored(name: &str, made: Stored) {
    for (file, bytes) in [("stdin", made.input), ("stdout", made.output)] {
        assert!(held(&format!("crates/{name}/{file}")) == bytes, "{name}/{file} is not what the program {name} writes");
    }
}

fn assert_printed(build: Build, chart: &str, table: &str) {
    assert!(held(table) == answer(build, &held(chart)), "{table} is not what is printed for {chart}");
}

#[test]
fn stored_files_are_what_the_programs_write() {
    assert_stored("check_cases", Stored::of(400, |stored, case| chart_case(SEED, case).store(stored)));
    assert_stored("text_cases", Stored::of(300, |stored, case| text_case(SEED, case).store(stored)));
    assert_stored("table_cases", Stored::of(TABLES, |stored, case| table_case(SEED, case).store(stored)));
    assert_stored("sheet_cases", Stored::of(SHEETS, |stored, case| sheet_case(SEED, case).store(stored)));
}

#[test]
fn stored_tables_of_e_are_what_the_programs_print() {
    for (build, name) in [(Build::Nerode, "nerode"), (Build::Reduced, "reduced"), (Build::Brzozowski, "brz")] {
        let (input, output) = (format!("crates/{name}/stdin"), format!("crates/{name}/stdout"));
        assert!(held(&input) == held("charts/e.chart"), "{input} is not charts/e.chart");
        assert_printed(build, &input, &output);
    }
    assert_printed(Build::Brzozowski, "charts/e.chart", "charts/e.brz");
}

#[test]
fn numbers_parts_and_replies_as_stored() {
    let stored = Stored::of(2, |stored, case| {
        stored.part(&[7, 8][..case as usize]);
        stored.number(usize::MAX - 1);
        stored.reply(&reply(13, &[3, 1]));
    });
    let input = [[0, 0, 0, 0, 0, 0, 0, 2], [0; 8], [255, 255, 255, 255, 255, 255, 255, 254]].concat();
    let more = [&[0, 0, 0, 0, 0, 0, 0, 1, 7][..], &[255, 255, 255, 255, 255, 255, 255, 254]].concat();
    assert_eq!(stored, Stored { input: [input, more].concat(), output: b"13 3 1\n13 3 1\n".to_vec() });
}

#[test]
fn every_reply_on_tables_occurs() {
    assert_occur("check", table_cases().map(|case| case.check()), &[(0, 150), (9, 150)]);
    let walked = || table_cases().flat_map(|case| walks(&case).map(|(_, walked)| walked).collect::<Vec<_>>());
    assert_occur("step", walked().map(|walked| walked.step), &[(0, 300), (8, 150), (9, 600)]);
    assert_occur("grade", walked().map(|walked| walked.grade), &[(0, 400), (9, 600)]);
    assert_occur("word", walked().map(|walked| walked.word), &[(0, 600), (8, 150), (9, 600)]);
    assert_occur("read", walked().map(|walked| walked.read), &[(0, 600), (9, 600)]);
    let (empty, whole): (Vec<Reply>, Vec<Reply>) =
        walked().map(|walked| walked.vector).partition(|vector| vector.values.is_empty());
    assert!(empty.len() >= 300 && whole.len() >= 300, "vector: {} empty, {} whole", empty.len(), whole.len());
}

#[test]
fn every_reply_of_the_sheet_check_occurs() {
    let least = [(0, 80), (1, 10), (2, 10), (3, 10), (4, 60), (9, 50), (10, 50), (11, 15), (12, 25), (13, 20)];
    assert_occur("sheet", sheet_cases().map(|case| case.reply()), &least);
    for law in 1..=8 {
        let broken = sheet_cases().map(|case| case.reply()).filter(|reply| reply.number == 4 && reply.values[0] == law);
        assert!(broken.count() >= 5, "law {law}");
    }
}

#[test]
fn tables_get_the_replies_they_were_made_for() {
    for (number, case) in table_cases().enumerate() {
        assert_eq!(case.check().number == 0, case.sound, "case {number}");
        walks(&case).for_each(|(walk, walked)| assert_walked(number, &case, walk, &walked));
    }
}

fn assert_walked(number: usize, case: &TableCase, walk: &Walk, walked: &Walked) {
    let expected = match (case.sound, walk.bad_at) {
        (false, _) => (9, &[][..]),
        (true, Some(place)) => (8, &[place][..]),
        (true, None) => (0, &walked.word.values[..]),
    };
    assert_eq!(walked.word, reply(expected.0, expected.1), "case {number}");
    assert!(walk.state < case.table.count || walked.grade == reply(9, &[]), "case {number}");
    assert!(walk.letter < case.table.m || walked.step.number >= 8, "case {number}");
}

#[test]
fn sheets_get_the_replies_they_were_made_for() {
    for (number, case) in sheet_cases().enumerate() {
        let (reply, expected) = (case.reply(), case.expected);
        assert!(expected.is_none_or(|expected| expected.number == reply.number), "case {number}: {reply:?}");
        let first = expected.and_then(|expected| expected.first);
        assert!(first.is_none_or(|first| first == reply.values[0]), "case {number}: {reply:?}");
    }
}

/// Of sheets that get no refusal up to 10, whatever the baseline's own sums and search say.
#[test]
fn sheets_get_the_replies_that_the_definition_gives() {
    let read = sheet_cases().filter(|case| case.lines <= 1024 && [0, 11, 12, 13].contains(&case.reply().number));
    let replies: Vec<(Reply, Reply)> = read.map(|case| (case.reply(), plain_reply(&case))).collect();
    assert!(replies.len() > 150);
    assert!(replies.iter().all(|(reply, plain)| reply == plain));
}

/// 11, then 12 and 13 line by line, each pair looked for among all lines.
fn plain_reply(case: &SheetCase) -> Reply {
    let plain = Plain::of(&case.chart);
    let sheet: Vec<Vec<usize>> = case.sheet.chunks(2 + plain.n).take(case.lines).map(plain_pair).collect();
    if !sheet.contains(&[vec![0], plain.start()].concat()) {
        return reply(11, &[]);
    }
    let wrong = sheet.iter().enumerate().find_map(|(line, pair)| wrong_line(case, &plain, &sheet, line, pair));
    wrong.unwrap_or(reply(0, &[]))
}

/// The state as one number, then the vector.
fn plain_pair(line: &[u8]) -> Vec<usize> {
    let state = usize::from(line[0]) * 256 + usize::from(line[1]);
    std::iter::once(state).chain(line[2..].iter().map(|&grade| usize::from(grade))).collect()
}

fn wrong_line(case: &SheetCase, plain: &Plain, sheet: &[Vec<usize>], line: usize, pair: &[usize]) -> Option<Reply> {
    let row = &case.table.rows[pair[0] * (1 + 2 * plain.m)..];
    if usize::from(row[0]) != plain.combine(&pair[1..], &plain.end()) {
        return Some(reply(12, &[line]));
    }
    let next = |x: usize| {
        let column = |q: usize| (0..plain.n).map(|p| plain.entry(x, p, q)).collect::<Vec<_>>();
        let state = usize::from(row[1 + 2 * x]) * 256 + usize::from(row[2 + 2 * x]);
        std::iter::once(state).chain((0..plain.n).map(|q| plain.combine(&pair[1..], &column(q)))).collect::<Vec<_>>()
    };
    (0..plain.m).find(|&x| !sheet.contains(&next(x))).map(|x| reply(13, &[line, x]))
}

#[test]
fn walks_over_the_table_of_e() {
    let case = table_case(SEED, 0);
    assert_eq!((&case.table.rows[..], case.check()), (&E_TABLE[..], reply(0, &[])));
    // State, letter and word of each walk, then the five replies, read off E's table and P3.
    let by_hand: [(usize, usize, &[u8], [Reply; 5]); 6] = [
        (0, 0, &[], [reply(0, &[1]), reply(0, &[0]), reply(0, &[0]), reply(0, &[0]), reply(0, &[0, 0])]),
        (0, 1, &[0], [reply(0, &[2]), reply(0, &[0]), reply(0, &[1]), reply(0, &[1]), reply(0, &[0, 0])]),
        (1, 0, &[1], [reply(0, &[1]), reply(0, &[1]), reply(0, &[0]), reply(0, &[0]), reply(0, &[1, 0])]),
        (2, 1, &[0, 1], [reply(0, &[2]), reply(0, &[0]), reply(0, &[1]), reply(0, &[1]), reply(0, &[2, 1])]),
        (3, 0, &[1, 0], [reply(9, &[]), reply(9, &[]), reply(0, &[0]), reply(0, &[0]), reply(0, &[])]),
        (1, 2, &[0, 1, 2, 0, 3], [reply(8, &[0]), reply(0, &[1]), reply(8, &[2]), reply(0, &[1]), reply(0, &[1, 0])]),
    ];
    assert_eq!(case.walks.len(), by_hand.len());
    for ((walk, walked), (state, letter, word, replies)) in walks(&case).zip(by_hand) {
        assert_eq!((walk.state, walk.letter, &walk.word[..]), (state, letter, word));
        assert_eq!([walked.step, walked.grade, walked.word, walked.read, walked.vector], replies);
    }
}

#[test]
fn sheets_of_e() {
    assert_eq!(check(&E_CHART).map(|shape| (shape.k, shape.e, shape.n, shape.m)), Ok((3, 2, 2, 2)));
    assert_eq!(sheet_case(SEED, 0).sheet, E_SHEET);
    let by_hand = [reply(0, &[]), reply(13, &[3, 1]), reply(11, &[]), reply(12, &[1])];
    for (case, expected) in sheet_cases().zip(by_hand) {
        assert_eq!(case.reply(), expected);
    }
}

/// A chart of 4,096 vectors: all pairs are taken, and one line more is not. Of 1,024 lines the last is missing, or has the wrong grade.
#[test]
fn long_sheets() {
    let long: Vec<(usize, Reply)> = (4..8).map(|case| sheet_case(SEED, case)).map(|c| (c.lines, c.reply())).collect();
    assert_eq!(long[0], (4096, reply(0, &[])));
    assert_eq!(long[1], (4097, reply(10, &[])));
    // Line i holds the register of the binary number i; letter 1 leads from 511 to 1,023, and from no line before.
    assert_eq!(long[2], (1023, reply(13, &[511, 1])));
    assert_eq!(long[3], (1024, reply(12, &[1023])));
}
