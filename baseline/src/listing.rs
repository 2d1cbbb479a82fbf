//! The numbering by first word, shared by all constructions.

use crate::tables::write_next;
use std::collections::HashMap;
use std::hash::{BuildHasherDefault, Hasher};

/// What a construction lists: values reached from a first one by letters, told apart by a key.
pub trait Construction {
    fn letters(&self) -> usize;
    fn first(&self, value: &mut [u8]);
    fn next(&self, from: &[u8], letter: usize, to: &mut [u8]);
    fn grade(&self, value: &[u8]) -> u8;

    /// Values share a state exactly when their keys are equal. A key that has to be worked out may
    /// stand in the scratch bytes.
    fn key<'v>(&self, value: &'v [u8], _scratch: &'v mut Vec<u8>) -> &'v [u8] {
        value
    }
}

/// The memory one listing is written to: `room` table rows and `room + 1` places, `stride` bytes apart, of which a
/// value takes the first `width`.
pub struct Lent<'a> {
    pub table: &'a mut [u8],
    pub places: &'a mut [u8],
    pub stride: usize,
    pub width: usize,
    pub room: usize,
}

type Numbers = HashMap<Box<[u8]>, usize, BuildHasherDefault<Mix>>;

/// Lists all values with distinct keys and writes their table, answering how many there are, or nothing where they
/// outnumber the room. States are taken in the order of their numbers and letters in rising order, so a value is first
/// met at its first word.
pub fn list(construction: &impl Construction, mut lent: Lent) -> Option<usize> {
    let mut scratch = Vec::new();
    let mut numbers = Numbers::default();
    let first = &mut lent.places[..lent.width];
    construction.first(first);
    numbers.insert(construction.key(first, &mut scratch).into(), 0);
    let mut state = 0;
    while state < numbers.len() {
        expand(construction, &mut lent, &mut numbers, &mut scratch, state)?;
        state += 1;
    }
    lent.places[numbers.len() * lent.stride..(lent.room + 1) * lent.stride].fill(0);
    Some(numbers.len())
}

/// Writes a state's row and lists the new values that its letters lead to; nothing where they outnumber the room.
fn expand(
    construction: &impl Construction,
    lent: &mut Lent,
    numbers: &mut Numbers,
    scratch: &mut Vec<u8>,
    state: usize,
) -> Option<()> {
    let Lent { table, places, stride, width, room } = lent;
    let (stride, width) = (*stride, *width);
    let row_len = 1 + 2 * construction.letters();
    let row = &mut table[state * row_len..][..row_len];
    row[0] = construction.grade(&places[state * stride..][..width]);
    for letter in 0..construction.letters() {
        let (kept, free) = places.split_at_mut(numbers.len() * stride);
        construction.next(&kept[state * stride..][..width], letter, &mut free[..width]);
        let next = number_of(construction.key(&free[..width], scratch), numbers, *room)?;
        write_next(row, letter, next);
    }
    Some(())
}

/// The number of a key, a new one where it is not known yet; nothing where the room is full.
fn number_of(key: &[u8], numbers: &mut Numbers, room: usize) -> Option<usize> {
    let count = numbers.len();
    match numbers.get(key) {
        Some(&known) => Some(known),
        None if count == room => None,
        None => {
            numbers.insert(key.into(), count);
            Some(count)
        }
    }
}

/// A quick hash for short byte keys; nothing here needs protection against chosen keys.
#[derive(Default)]
struct Mix(u64);

impl Mix {
    fn add(&mut self, word: u64) {
        self.0 = (self.0.rotate_left(5) ^ word).wrapping_mul(0x9e37_79b9_7f4a_7c15);
    }
}

impl Hasher for Mix {
    fn write(&mut self, bytes: &[u8]) {
        let mut words = bytes.chunks_exact(8);
        for word in &mut words {
            self.add(u64::from_le_bytes(word.try_into().unwrap()));
        }
        let rest = words.remainder();
        if !rest.is_empty() {
            let mut word = [0; 8];
            word[..rest.len()].copy_from_slice(rest);
            self.add(u64::from_le_bytes(word));
        }
    }

    fn write_usize(&mut self, number: usize) {
        self.add(number as u64);
    }

    fn finish(&self) -> u64 {
        self.0 ^ (self.0 >> 32)
    }
}
