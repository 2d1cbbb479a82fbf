//! Document 01's small chart E, its table and its sheet, for the cases whose answers the paper gives.

use super::house::House;
use super::sheets::SheetCase;
use super::tables::{TableCase, Walk};
use super::Expected;

/// Head; join; product; start and end; two matrices.
pub const E_CHART: [u8; 34] =
    [3, 2, 2, 2, 0, 1, 2, 1, 1, 2, 2, 2, 2, 0, 0, 0, 0, 0, 1, 0, 1, 2, 2, 0, 0, 2, 2, 1, 0, 2, 1, 0, 0, 2];

/// E's smallest table.
pub const E_TABLE: [u8; 15] = [0, 0, 1, 0, 2, 1, 0, 1, 0, 1, 0, 0, 2, 0, 2];

/// P9.
pub const E_SHEET: [u8; 24] = [0, 0, 2, 0, 0, 1, 2, 1, 0, 2, 1, 0, 0, 1, 1, 1, 0, 2, 0, 0, 0, 1, 0, 1];

fn e_table() -> House {
    House { rows: E_TABLE.to_vec(), count: 3, m: 2 }
}

/// Walks over E's table: the words of P3, a word with a bad letter, a bad state and a bad letter.
pub fn e_walks() -> TableCase {
    let walk = |state, letter, word: &[u8]| Walk { state, letter, word: word.to_vec(), bad_at: None };
    let walks = vec![
        walk(0, 0, &[]),
        walk(0, 1, &[0]),
        walk(1, 0, &[1]),
        walk(2, 1, &[0, 1]),
        walk(3, 0, &[1, 0]),
        Walk { bad_at: Some(2), ..walk(1, 2, &[0, 1, 2, 0, 3]) },
    ];
    TableCase { table: e_table(), walks, sound: true }
}

/// P9 to P12, in that order.
pub fn e_sheet(figure: u64) -> SheetCase {
    let whole = SheetCase {
        chart: E_CHART.to_vec(),
        table: e_table(),
        sheet: E_SHEET.to_vec(),
        lines: 6,
        expected: Some(Expected::GOOD),
    };
    let refused = |number| Some(Expected::refusal(number));
    match figure {
        0 => whole,
        1 => SheetCase { lines: 5, expected: refused(13), ..whole },
        2 => SheetCase { lines: 0, expected: refused(11), ..whole },
        _ => {
            let mut table = e_table();
            table.set_grade(1, 0);
            SheetCase { table, expected: refused(12), ..whole }
        }
    }
}
