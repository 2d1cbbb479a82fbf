//! Text: the chart reader, the table printer, the refusal line.

use crate::chart::{check, Chart, Shape, HEAD, LONGEST};
use crate::refusal::Refusal;
use crate::tables::{cap_of, Table};

/// Bytes of the longest chart text.
pub const LONGEST_TEXT: usize = 22493;

const HEAD_KIND: u8 = 0x01;
const TABLE_KIND: u8 = 0x11;
const ROW_KIND: u8 = 0x12;
const CAP_KIND: u8 = 0x13;
const REFUSAL_KIND: u8 = 0x7f;

/// Reads a chart text into lent bytes and answers the chart's length. Refusal 5 leaves the bytes alone, every other one
/// fills them with zeros.
pub fn read_chart(text: &[u8], chart: &mut [u8]) -> Result<usize, Refusal> {
    if chart.len() < LONGEST {
        return Err(Refusal::lent());
    }
    match chart_of(text) {
        Ok(bytes) => {
            chart[..bytes.len()].copy_from_slice(&bytes);
            Ok(bytes.len())
        }
        Err(refusal) => {
            chart.fill(0);
            Err(refusal)
        }
    }
}

fn chart_of(text: &[u8]) -> Result<Vec<u8>, Refusal> {
    if text.len() > LONGEST_TEXT {
        return Err(Refusal::text(0));
    }
    let mut lines = Lines { rest: text, line: 1 };
    let mut chart = lines.take(HEAD_KIND, HEAD)?;
    let shape = Shape::of_head(&chart);
    if !shape.in_range() {
        return Err(Refusal::size());
    }
    for (kind, len) in frames_after_head(&shape) {
        chart.extend(lines.take(kind, len)?);
    }
    lines.ended()?;
    check(&chart)?;
    Ok(chart)
}

/// Kind and payload length of each line that follows the head.
fn frames_after_head(shape: &Shape) -> impl Iterator<Item = (u8, usize)> {
    let Shape { k, n, m, .. } = *shape;
    let frames = [(0x02, k, k), (0x03, k, k), (0x04, n, 1), (0x05, n, 1), (0x06, n, m * n)];
    frames.into_iter().flat_map(|(kind, len, times)| std::iter::repeat_n((kind, len), times))
}

/// Text still to be read, and the number of its first line.
struct Lines<'a> {
    rest: &'a [u8],
    line: usize,
}

impl Lines<'_> {
    /// The payload of the next line, which must be the frame due, byte by byte.
    fn take(&mut self, kind: u8, len: usize) -> Result<Vec<u8>, Refusal> {
        let (payload, rest) = frame(self.rest, kind, len).ok_or(Refusal::text(self.line))?;
        self.rest = rest;
        self.line += 1;
        Ok(payload)
    }

    fn ended(&self) -> Result<(), Refusal> {
        self.rest.is_empty().then_some(()).ok_or(Refusal::text(self.line))
    }
}

/// The payload of a frame of this kind and length at the front of the text, and the text after its newline.
fn frame(text: &[u8], kind: u8, len: usize) -> Option<(Vec<u8>, &[u8])> {
    let front = format!("{kind:02x}{len:04x}");
    let text = text.strip_prefix(front.as_bytes())?;
    let (digits, text) = text.split_at_checked(2 * len)?;
    let payload = digits.chunks_exact(2).map(byte_of).collect::<Option<Vec<u8>>>()?;
    Some((payload, text.strip_prefix(b"\n")?))
}

fn byte_of(digits: &[u8]) -> Option<u8> {
    Some(digit_of(digits[0])? * 16 + digit_of(digits[1])?)
}

fn digit_of(digit: u8) -> Option<u8> {
    match digit {
        b'0'..=b'9' => Some(digit - b'0'),
        b'a'..=b'f' => Some(digit - b'a' + 10),
        _ => None,
    }
}

/// One frame as a line of text.
pub(crate) fn line_of(kind: u8, payload: &[u8]) -> Vec<u8> {
    let mut line = format!("{kind:02x}{:04x}", payload.len());
    for byte in payload {
        line.push_str(&format!("{byte:02x}"));
    }
    line.push('\n');
    line.into_bytes()
}

/// Prints a table beside its chart and answers the text's length: the chart's refusals, then 5, then 9.
pub fn print_table(chart: &[u8], rows: &[u8], count: usize, m: usize, text: &mut [u8]) -> Result<usize, Refusal> {
    let chart = Chart::checked(chart)?;
    if printed_len(count, m).is_none_or(|len| text.len() < len) {
        return Err(Refusal::lent());
    }
    let table = Table::beside(&chart, rows, count, m)?;
    let mut printed = line_of(TABLE_KIND, &[(count >> 8) as u8, count as u8, m as u8]);
    for state in 0..count {
        printed.extend(line_of(ROW_KIND, table.row(state)));
    }
    printed.extend(line_of(CAP_KIND, &[cap_of(&chart, &table)]));
    Ok(write(&printed, text))
}

/// Bytes of a printed table, or nothing where no buffer could be so long. Count and m may still be out of range here,
/// since 5 comes before 9.
fn printed_len(count: usize, m: usize) -> Option<usize> {
    m.checked_mul(4)?.checked_add(9)?.checked_mul(count)?.checked_add(13 + 9)
}

/// Prints the one line that names a refusal and answers its length.
pub fn print_refusal(number: u8, text: &mut [u8]) -> Result<usize, Refusal> {
    let line = line_of(REFUSAL_KIND, &[number]);
    if text.len() < line.len() {
        return Err(Refusal::lent());
    }
    Ok(write(&line, text))
}

/// Bytes past the printed ones are as at entry.
fn write(printed: &[u8], text: &mut [u8]) -> usize {
    text[..printed.len()].copy_from_slice(printed);
    printed.len()
}
