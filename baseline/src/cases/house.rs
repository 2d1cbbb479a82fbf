//! Tables as a house may make them: those of the builders, the same changed in ways that keep every word's grade, and others.

use super::drawing::Drawing;
use super::rng::Rng;
use crate::chart::check;
use crate::programs::{built, Build, Rooms};
use crate::tables::{next_of, write_next};
use crate::MOST_REVERSE;

/// A table's bytes with the numbers that go with them, which may be wrong once damaged.
#[derive(Clone, Debug, PartialEq, Eq)]
pub struct House {
    pub rows: Vec<u8>,
    pub count: usize,
    pub m: usize,
}

const BUILDS: [Build; 3] = [Build::Nerode, Build::Reduced, Build::Brzozowski];

impl House {
    /// A sound chart with one of its three tables, which has at most `most` states.
    pub fn with_chart(rng: &mut Rng, most: usize) -> (Vec<u8>, House) {
        loop {
            let build = rng.pick(&BUILDS);
            let chart = Drawing::random(rng).bytes();
            if let Some(house) = House::built(build, &chart, most) {
                return (chart, house);
            }
        }
    }

    /// The table of a sound chart, where it has at most `most` states.
    pub fn built(build: Build, chart: &[u8], most: usize) -> Option<House> {
        let shape = check(chart).expect("a sound chart");
        let mut rows = vec![0; most * shape.row_len()];
        let rooms = Rooms { states: most, reverse: MOST_REVERSE };
        let count = built(build, chart, shape, rooms, &mut rows).ok()?;
        rows.truncate(count * shape.row_len());
        Some(House { rows, count, m: shape.m })
    }

    /// A table of any grades below `k` and any next states.
    pub fn anything(rng: &mut Rng, count: usize, m: usize, k: usize) -> House {
        let rows = (0..count).flat_map(|_| any_row(rng, count, m, k)).collect();
        House { rows, count, m }
    }

    pub fn row_len(&self) -> usize {
        1 + 2 * self.m
    }

    pub fn set_grade(&mut self, state: usize, grade: u8) {
        let at = state * self.row_len();
        self.rows[at] = grade;
    }

    pub fn grade(&self, state: usize) -> u8 {
        self.rows[state * self.row_len()]
    }

    pub fn set_next(&mut self, state: usize, letter: usize, next: usize) {
        let at = state * self.row_len();
        write_next(&mut self.rows[at..], letter, next);
    }

    fn next(&self, state: usize, letter: usize) -> usize {
        next_of(&self.rows[state * self.row_len()..], letter)
    }

    fn ways(&self) -> impl Iterator<Item = (usize, usize)> {
        let m = self.m;
        (0..self.count).flat_map(move |state| (0..m).map(move |letter| (state, letter)))
    }

    /// The same table with its states after the first in another order.
    pub fn renumbered(&self, rng: &mut Rng) -> House {
        let mut to: Vec<usize> = (0..self.count).collect();
        rng.shuffle(&mut to[1..]);
        let mut house = self.clone();
        (0..self.count).for_each(|state| house.set_grade(to[state], self.grade(state)));
        for (state, letter) in self.ways() {
            house.set_next(to[state], letter, to[self.next(state, letter)]);
        }
        house
    }

    /// The same table with one state twice; about half the ways to it lead to the second.
    pub fn with_twin(&self, rng: &mut Rng) -> House {
        let (of, twin) = (rng.below(self.count), self.count);
        let mut house = self.clone();
        house.rows.extend_from_within(of * self.row_len()..(of + 1) * self.row_len());
        house.count += 1;
        for (state, letter) in house.ways() {
            if house.next(state, letter) == of && rng.chance(1, 2) {
                house.set_next(state, letter, twin);
            }
        }
        house
    }

    /// The same table with a state more that nothing leads to.
    pub fn with_unreached(&self, rng: &mut Rng) -> House {
        let mut house = self.clone();
        let row = any_row(rng, self.count + 1, self.m, 2);
        house.rows.extend(row);
        house.count += 1;
        house
    }
}

fn any_row(rng: &mut Rng, count: usize, m: usize, k: usize) -> Vec<u8> {
    let mut row = vec![0; 1 + 2 * m];
    row[0] = rng.below(k) as u8;
    (0..m).for_each(|letter| write_next(&mut row, letter, rng.below(count)));
    row
}
