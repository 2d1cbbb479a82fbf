//! The small chart E and the figures P1 to P13 of document 01.

mod common;

use baseline::cases::by_hand::{E_SHEET, E_TABLE};
use baseline::programs::{answer, Build};
use baseline::{
    brzozowski, cap, check, check_sheet, combine, grade_word, nerode, read_chart, reduced, row_times, vector_at, Chart,
    Grades, Reply,
};
use common::{forward, refused, smallest};

const E_TEXT: &str = "\
01000403020202
020003000102
020003010102
020003020202
030003000000
030003000001
030003000102
0400020200
0500020002
0600020201
0600020002
0600020100
0600020002
";

const E_TABLE_TEXT: &str = "\
110003000302
1200050000010002
1200050100010001
1200050000020002
13000101
";

fn e_chart() -> Vec<u8> {
    let mut chart = vec![0; 9780];
    let len = read_chart(E_TEXT.as_bytes(), &mut chart).unwrap();
    chart.truncate(len);
    chart
}

fn counts(chart: &[u8]) -> [usize; 3] {
    let (count, _) = smallest(chart, 128, 64).answer.unwrap();
    [forward(nerode, chart, 128).answer.unwrap(), forward(reduced, chart, 128).answer.unwrap(), count]
}

/// Join the larger, product the smaller, unit the greatest.
fn chain_chart(k: u8, n: u8, start: &[u8], end: &[u8], matrices: &[&[u8]]) -> Vec<u8> {
    let pairs = || (0..k).flat_map(|a| (0..k).map(move |b| (a, b)));
    let mut chart = vec![k, k - 1, n, matrices.len() as u8];
    chart.extend(pairs().map(|(a, b)| a.max(b)));
    chart.extend(pairs().map(|(a, b)| a.min(b)));
    chart.extend_from_slice(start);
    chart.extend_from_slice(end);
    chart.extend(matrices.concat());
    chart
}

#[test]
fn e_prints_its_smallest_table() {
    assert_eq!((E_TEXT.len(), E_TABLE_TEXT.len()), (159, 73));
    let printed = answer(Build::Brzozowski, E_TEXT.as_bytes());
    assert_eq!(String::from_utf8(printed).unwrap(), E_TABLE_TEXT);
}

#[test]
fn e_as_bytes() {
    let head_and_tables = [3, 2, 2, 2, 0, 1, 2, 1, 1, 2, 2, 2, 2, 0, 0, 0, 0, 0, 1, 0, 1, 2];
    let vectors_and_matrices = [2, 0, 0, 2, 2, 1, 0, 2, 1, 0, 0, 2];
    assert_eq!(e_chart(), [&head_and_tables[..], &vectors_and_matrices].concat());
    assert_eq!(Reply::from(check(&e_chart())), Reply { number: 0, values: vec![3, 2, 2, 2] });
}

#[test]
fn p1_start_times_letter_0() {
    let bytes = e_chart();
    let chart = Chart::checked(&bytes).unwrap();
    let mut next = [9; 2];
    row_times(&Grades::of(&chart), chart.start(), chart.matrix(0), &mut next);
    assert_eq!(next, [2, 1]);
}

#[test]
fn p2_reverse_vectors() {
    let built = smallest(&e_chart(), 8, 8);
    let (_, reverse) = built.answer.clone().unwrap();
    assert_eq!(reverse, 2);
    assert_eq!(vector_at(&built.reverse_vectors, 2, reverse, 0), [0, 2]);
    assert_eq!(vector_at(&built.reverse_vectors, 2, reverse, 1), [1, 2]);
    assert!(vector_at(&built.reverse_vectors, 2, reverse, 2).is_empty());
}

#[test]
fn p3_grades_of_words() {
    let bytes = e_chart();
    let chart = Chart::checked(&bytes).unwrap();
    let grades = Grades::of(&chart);
    let words: [(&[u8], u8); 5] = [(&[], 0), (&[0], 1), (&[1], 0), (&[0, 1], 1), (&[1, 0], 0)];
    for (word, grade) in words {
        assert_eq!(grade_word(&E_TABLE, 3, 2, word), Ok(grade), "{word:?} by table");
        let vector = word.iter().fold(chart.start().to_vec(), |v, &x| {
            let mut next = vec![0; 2];
            row_times(&grades, &v, chart.matrix(usize::from(x)), &mut next);
            next
        });
        assert_eq!(combine(&grades, &vector, chart.end()), grade, "{word:?} by chart");
    }
}

#[test]
fn p4_counts() {
    assert_eq!(counts(&e_chart()), [6, 6, 3]);
}

#[test]
fn p5_state_room() {
    assert_eq!(forward(nerode, &e_chart(), 6).answer, Ok(6));
    assert_eq!(forward(nerode, &e_chart(), 5).answer, Err(refused(7, &[])));
}

#[test]
fn p6_reverse_room() {
    assert_eq!(smallest(&e_chart(), 3, 2).answer, Ok((3, 2)));
    assert_eq!(smallest(&e_chart(), 3, 1).answer, Err(refused(6, &[])));
}

#[test]
fn p7_document_000_example_3_2() {
    let chart = chain_chart(2, 3, &[1, 0, 0], &[0, 0, 1], &[&[0, 1, 0, 0, 0, 1, 1, 0, 1]]);
    assert_eq!(counts(&chart), [5, 4, 3]);
}

#[test]
fn p8_document_001_example_2() {
    let chart = chain_chart(3, 2, &[2, 0], &[2, 1], &[&[1, 1, 0, 2], &[1, 2, 0, 1]]);
    assert_eq!(forward(nerode, &chart, 8).answer, Ok(3));
    assert_eq!(smallest(&chart, 8, 8).answer, Ok((2, 2)));
}

#[test]
fn p9_sheet_accepted() {
    assert_eq!(check_sheet(&e_chart(), &E_TABLE, 3, 2, &E_SHEET, 6), Ok(()));
}

#[test]
fn p10_last_line_missing() {
    let short = &E_SHEET[..20];
    assert_eq!(check_sheet(&e_chart(), &E_TABLE, 3, 2, short, 5), Err(refused(13, &[3, 1])));
}

#[test]
fn p11_no_lines() {
    assert_eq!(check_sheet(&e_chart(), &E_TABLE, 3, 2, &[], 0), Err(refused(11, &[])));
}

#[test]
fn p12_grade_changed() {
    let mut table = E_TABLE;
    table[5] = 0;
    assert_eq!(check_sheet(&e_chart(), &table, 3, 2, &E_SHEET, 6), Err(refused(12, &[1])));
}

#[test]
fn p13_product_always_0() {
    let chart = [2, 1, 1, 1, 0, 1, 1, 1, 0, 0, 0, 0, 1, 1, 1];
    assert_eq!(check(&chart), Err(refused(4, &[6, 1, 0, 0])));
}

#[test]
fn e_table_bytes_and_cap() {
    let built = smallest(&e_chart(), 3, 2);
    assert_eq!(built.table[..15], E_TABLE);
    // The reverse table: letter 0 leads from both vectors to (1,2), letter 1 from both to (0,2).
    assert_eq!(built.reverse_table[..10], [0, 0, 1, 0, 0, 1, 0, 1, 0, 0]);
    assert_eq!(cap(&e_chart(), &E_TABLE, 3, 2), Ok(1));
}

#[test]
fn forward_rooms_and_buffers_are_refused_untouched() {
    let chart = e_chart();
    for (room, table_len, vectors_len) in [(0, 99, 99), (4097, 99999, 99999), (6, 29, 14), (6, 30, 13)] {
        let (mut table, mut vectors) = (vec![7; table_len], vec![7; vectors_len]);
        assert_eq!(nerode(&chart, room, &mut table, &mut vectors), Err(refused(5, &[])));
        assert_eq!(reduced(&chart, room, &mut table, &mut vectors), Err(refused(5, &[])));
        assert!(common::all_are(&table, 7) && common::all_are(&vectors, 7));
    }
}

#[test]
fn brzozowski_rooms_and_buffers_are_refused_untouched() {
    let chart = e_chart();
    let fine = [3, 2, 15, 10, 6, 8];
    for spoiled in [
        [0, 2, 15, 10, 6, 8],
        [4097, 2, 99999, 10, 6, 99999],
        [3, 0, 15, 10, 6, 8],
        [3, 129, 15, 9999, 9999, 9999],
        [3, 2, 14, 10, 6, 8],
        [3, 2, 15, 9, 6, 8],
        [3, 2, 15, 10, 5, 8],
        [3, 2, 15, 10, 6, 7],
    ] {
        assert_eq!(brz_with(&chart, spoiled), (Err(refused(5, &[])), true));
    }
    assert_eq!(brz_with(&chart, fine), (Ok((3, 2)), false));
}

/// Rooms C and R, then the lengths of table, reverse table, reverse vectors and rows. Answers also whether all lent
/// bytes are as at entry.
fn brz_with(chart: &[u8], sizes: [usize; 6]) -> (Result<(usize, usize), baseline::Refusal>, bool) {
    let [room, reverse_room, rest @ ..] = sizes;
    let mut lent = rest.map(|len| vec![7; len]);
    let [table, reverse_table, reverse_vectors, rows] = &mut lent;
    let answer = brzozowski(chart, room, reverse_room, table, reverse_table, reverse_vectors, rows);
    (answer, lent.iter().all(|buffer| common::all_are(buffer, 7)))
}
