//! Chart texts, sound and damaged, each with the refusal it must get.

use super::charts::{drawing_with, ChartFault};
use super::drawing::Drawing;
use super::rng::Rng;
use super::stored::Stored;
use super::{tight, Expected};
use crate::programs::{answer, Build};
use crate::text::LONGEST_TEXT;

/// What is wrong with a chart's text.
#[derive(Clone, Copy, Debug, PartialEq, Eq)]
pub enum TextFault {
    None,
    /// All sizes at their largest, so the text is as long as may be.
    Longest,
    UpperCase,
    NoNewline,
    MissingLine,
    ExtraLine,
    CarriageReturn,
    WrongCount,
    WrongKind,
    NotHex,
    Space,
    Cut,
    After,
    OverLong,
    Empty,
    /// A frame whose sizes are out of range; later lines don't matter.
    Head,
    Grade,
    Law(usize),
}

pub const TEXT_FAULTS: [TextFault; 25] = [
    TextFault::None,
    TextFault::Longest,
    TextFault::UpperCase,
    TextFault::NoNewline,
    TextFault::MissingLine,
    TextFault::ExtraLine,
    TextFault::CarriageReturn,
    TextFault::WrongCount,
    TextFault::WrongKind,
    TextFault::NotHex,
    TextFault::Space,
    TextFault::Cut,
    TextFault::After,
    TextFault::OverLong,
    TextFault::Empty,
    TextFault::Head,
    TextFault::Grade,
    TextFault::Law(1),
    TextFault::Law(2),
    TextFault::Law(3),
    TextFault::Law(4),
    TextFault::Law(5),
    TextFault::Law(6),
    TextFault::Law(7),
    TextFault::Law(8),
];

#[derive(Clone, Debug)]
pub struct TextCase {
    pub name: String,
    pub text: Vec<u8>,
    pub expected: Expected,
}

impl TextCase {
    /// The text, and what the three programs print for it.
    pub fn store(&self, stored: &mut Stored) {
        stored.part(&self.text);
        for build in [Build::Nerode, Build::Reduced, Build::Brzozowski] {
            stored.text(&answer(build, &self.text));
        }
    }
}

/// The text case of this number; two of three are sound.
pub fn text_case(seed: u64, case: u64) -> TextCase {
    let mut rng = Rng::for_case(seed, case);
    match case % 12 {
        6 => tight_case(&mut rng),
        2 | 5 | 8 | 11 => text_with(&mut rng, TEXT_FAULTS[(case / 3) as usize % TEXT_FAULTS.len()]),
        _ => text_with(&mut rng, TextFault::None),
    }
}

/// A sound chart whose counts hit the programs' rooms exactly, or miss them by one.
fn tight_case(rng: &mut Rng) -> TextCase {
    let grades = super::grades::sound(rng);
    let drawing = match rng.below(8) {
        6 => tight::remembering(grades, 7, false),
        7 => tight::remembering(grades, 7, true),
        i => tight::with_vectors(grades, tight::NEAR_ROOMS[i]),
    };
    TextCase { name: format!("{}-good", drawing.grades.name), text: drawing.text(), expected: Expected::GOOD }
}

pub fn text_with(rng: &mut Rng, fault: TextFault) -> TextCase {
    let (drawing, expected) = match fault {
        TextFault::Head => drawing_with(rng, ChartFault::Head),
        TextFault::Grade => drawing_with(rng, ChartFault::Grade),
        TextFault::Law(law) => drawing_with(rng, ChartFault::Law(law)),
        TextFault::Longest => (Drawing::largest(rng), Expected::GOOD),
        _ => (Drawing::random(rng), Expected::GOOD),
    };
    let name = format!("{}-{}", drawing.grades.name, fault_name(fault));
    let (text, line) = match fault {
        TextFault::Head => (head_then_anything(rng, &drawing), None),
        _ => spoiled(rng, drawing.lines(), fault),
    };
    TextCase { name, text, expected: line.map_or(expected, Expected::line) }
}

fn fault_name(fault: TextFault) -> String {
    match fault {
        TextFault::None => "good".into(),
        TextFault::Law(law) => format!("law{law}"),
        _ => format!("{fault:?}").to_lowercase(),
    }
}

/// A head line that is a frame, and after it nothing or something that is none.
fn head_then_anything(rng: &mut Rng, drawing: &Drawing) -> Vec<u8> {
    let mut text = crate::text::line_of(0x01, &drawing.head());
    text.extend_from_slice(rng.pick(&[&b""[..], b"x", b"020002\n", b"02000200 01\n"]));
    text
}

/// The text after the fault and, for a fault of text, the line that refusal 14 names.
fn spoiled(rng: &mut Rng, mut lines: Vec<Vec<u8>>, fault: TextFault) -> (Vec<u8>, Option<usize>) {
    let at = some_line(rng, &lines);
    let mut wrong = at + 1;
    match fault {
        TextFault::UpperCase => wrong = upper_case(rng, &mut lines) + 1,
        TextFault::NoNewline => drop(lines[at].pop()),
        TextFault::MissingLine => wrong = without_line(&mut lines, at) + 1,
        TextFault::ExtraLine => wrong = with_line_twice(&mut lines, at) + 1,
        TextFault::CarriageReturn => put_in_line(&mut lines[at], usize::MAX, b'\r'),
        TextFault::WrongCount => change(&mut lines[at], 5, rng),
        TextFault::WrongKind => change(&mut lines[at], 1, rng),
        TextFault::NotHex => not_hex(&mut lines[at], rng),
        TextFault::Space => {
            let before = rng.below(lines[at].len());
            put_in_line(&mut lines[at], before, b' ');
        }
        TextFault::Cut => return cut(rng, lines.concat()),
        TextFault::After => {
            wrong = lines.len() + 1;
            lines.push(rng.pick(&[&b"\n"[..], b"0", b"7f000100\n", b"\0", b" "]).to_vec());
        }
        TextFault::OverLong => {
            wrong = 0;
            over_long(rng, &mut lines);
        }
        TextFault::Empty => return (Vec::new(), Some(1)),
        TextFault::None | TextFault::Longest | TextFault::Head | TextFault::Grade | TextFault::Law(_) => {
            return (lines.concat(), None);
        }
    }
    (lines.concat(), Some(wrong))
}

/// Any line, the first and the last more often than chance would have it.
fn some_line(rng: &mut Rng, lines: &[Vec<u8>]) -> usize {
    let any = rng.below(lines.len());
    rng.pick(&[0, lines.len() - 1, any, any])
}

/// The last line of the same kind: a line missing or doubled shows only there, since lines of a kind look alike.
fn last_of_kind(lines: &[Vec<u8>], at: usize) -> usize {
    lines.iter().rposition(|line| line[..2] == lines[at][..2]).unwrap()
}

/// Takes a line out; answers the line where that shows.
fn without_line(lines: &mut Vec<Vec<u8>>, at: usize) -> usize {
    let shows = last_of_kind(lines, at);
    lines.remove(at);
    shows
}

/// Puts a line in twice; answers the line where that shows.
fn with_line_twice(lines: &mut Vec<Vec<u8>>, at: usize) -> usize {
    lines.insert(at, lines[at].clone());
    last_of_kind(lines, at)
}

/// Turns one letter digit upper case, or puts one in where there is none; answers its line.
fn upper_case(rng: &mut Rng, lines: &mut [Vec<u8>]) -> usize {
    let with_letter: Vec<usize> = (0..lines.len()).filter(|&i| lines[i].iter().any(u8::is_ascii_lowercase)).collect();
    if with_letter.is_empty() {
        let at = some_line(rng, lines);
        lines[at][7] = b'A';
        return at;
    }
    let at = rng.pick(&with_letter);
    let digit = lines[at].iter().position(u8::is_ascii_lowercase).unwrap();
    lines[at][digit].make_ascii_uppercase();
    at
}

/// Puts a byte before the given one, but not after the newline.
fn put_in_line(line: &mut Vec<u8>, before: usize, byte: u8) {
    line.insert(before.min(line.len() - 1), byte);
}

/// Puts a byte that is no digit in a digit's place.
fn not_hex(line: &mut [u8], rng: &mut Rng) {
    let digit = rng.range(0, line.len() - 2);
    line[digit] = rng.pick(b"gxG/:@`{\0\xff");
}

/// Changes one digit to another digit.
fn change(line: &mut [u8], digit: usize, rng: &mut Rng) {
    let others: Vec<u8> = b"0123456789abcdef".iter().copied().filter(|&d| d != line[digit]).collect();
    line[digit] = rng.pick(&others);
}

/// The text up to a random byte; the line that is cut, or missing after the cut, is the wrong one.
fn cut(rng: &mut Rng, mut text: Vec<u8>) -> (Vec<u8>, Option<usize>) {
    text.truncate(rng.below(text.len()));
    let whole = text.iter().filter(|&&byte| byte == b'\n').count();
    (text, Some(whole + 1))
}

/// Makes the text longer than the limit, by one byte or by many.
fn over_long(rng: &mut Rng, lines: &mut Vec<Vec<u8>>) {
    let len: usize = lines.iter().map(Vec::len).sum();
    let extra = rng.pick(&[1, 2, 5000]);
    lines.push(vec![rng.pick(b"\n0 "); LONGEST_TEXT - len + extra]);
}
