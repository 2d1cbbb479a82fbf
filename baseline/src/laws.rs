//! The eight laws of the grade tables, in the paper's order.

use crate::chart::Chart;

/// Join and product of one chart, read straight from its tables.
struct Tables<'a> {
    k: usize,
    e: usize,
    join: &'a [u8],
    product: &'a [u8],
}

impl Tables<'_> {
    fn j(&self, a: usize, b: usize) -> usize {
        usize::from(self.join[a * self.k + b])
    }

    fn p(&self, a: usize, b: usize) -> usize {
        usize::from(self.product[a * self.k + b])
    }

    fn join_associates(&self, a: usize, b: usize, c: usize) -> bool {
        self.j(self.j(a, b), c) == self.j(a, self.j(b, c))
    }

    fn product_associates(&self, a: usize, b: usize, c: usize) -> bool {
        self.p(self.p(a, b), c) == self.p(a, self.p(b, c))
    }

    fn unit(&self, a: usize) -> bool {
        self.p(self.e, a) == a && self.p(a, self.e) == a
    }

    fn zero(&self, a: usize) -> bool {
        self.p(0, a) == 0 && self.p(a, 0) == 0
    }

    fn distributes(&self, a: usize, b: usize, c: usize) -> bool {
        let joined = self.j(b, c);
        self.p(a, joined) == self.j(self.p(a, b), self.p(a, c))
            && self.p(joined, a) == self.j(self.p(b, a), self.p(c, a))
    }
}

/// The first broken law with its first a, b, c; grades that the law doesn't use are 0.
pub fn first_broken(chart: &Chart) -> Option<[usize; 4]> {
    let k = chart.shape.k;
    let t = Tables { k, e: chart.shape.e, join: chart.join_table(), product: chart.product_table() };
    one(k, |a| t.j(a, a) == a)
        .map(|[a]| [1, a, 0, 0])
        .or_else(|| two(k, |a, b| t.j(a, b) == t.j(b, a)).map(|[a, b]| [2, a, b, 0]))
        .or_else(|| three(k, |a, b, c| t.join_associates(a, b, c)).map(|[a, b, c]| [3, a, b, c]))
        .or_else(|| one(k, |a| t.j(0, a) == a).map(|[a]| [4, a, 0, 0]))
        .or_else(|| three(k, |a, b, c| t.product_associates(a, b, c)).map(|[a, b, c]| [5, a, b, c]))
        .or_else(|| one(k, |a| t.unit(a)).map(|[a]| [6, a, 0, 0]))
        .or_else(|| one(k, |a| t.zero(a)).map(|[a]| [7, a, 0, 0]))
        .or_else(|| three(k, |a, b, c| t.distributes(a, b, c)).map(|[a, b, c]| [8, a, b, c]))
}

/// The first grade for which the law fails.
fn one(k: usize, holds: impl Fn(usize) -> bool) -> Option<[usize; 1]> {
    (0..k).find(|&a| !holds(a)).map(|a| [a])
}

/// The first pair for which the law fails, the second grade moving faster.
fn two(k: usize, holds: impl Fn(usize, usize) -> bool) -> Option<[usize; 2]> {
    (0..k).find_map(|a| one(k, |b| holds(a, b)).map(|[b]| [a, b]))
}

/// The first triple for which the law fails, the last grade moving fastest.
fn three(k: usize, holds: impl Fn(usize, usize, usize) -> bool) -> Option<[usize; 3]> {
    (0..k).find_map(|a| two(k, |b, c| holds(a, b, c)).map(|[b, c]| [a, b, c]))
}
