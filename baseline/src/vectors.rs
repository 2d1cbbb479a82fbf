//! Vectors of grades: times a matrix, times a column, combined; and the vector behind a state.

use crate::chart::Chart;

/// Rows of both grade tables stand 16 apart here, so that a shift finds an entry and no index can leave the table.
const ROW: usize = 16;

/// Join and product of a checked chart, laid out for quick look-up.
#[derive(Clone)]
pub struct Grades {
    join: [u8; ROW * ROW],
    product: [u8; ROW * ROW],
}

impl Grades {
    pub fn of(chart: &Chart) -> Grades {
        let k = chart.shape.k;
        Grades { join: spread(chart.join_table(), k), product: spread(chart.product_table(), k) }
    }

    pub fn join(&self, a: u8, b: u8) -> u8 {
        self.join[place(a, b)]
    }

    pub fn product(&self, a: u8, b: u8) -> u8 {
        self.product[place(a, b)]
    }
}

/// Grades of a checked chart are below 16, so the remainder changes nothing; it lets the compiler drop the bounds test.
fn place(a: u8, b: u8) -> usize {
    (usize::from(a) * ROW + usize::from(b)) % (ROW * ROW)
}

fn spread(table: &[u8], k: usize) -> [u8; ROW * ROW] {
    let mut wide = [0; ROW * ROW];
    for (to, from) in wide.chunks_exact_mut(ROW).zip(table.chunks_exact(k)) {
        to[..k].copy_from_slice(from);
    }
    wide
}

/// Row vector times matrix: at q the join over p of v(p) times M(p,q). `out` and `v` have n bytes each.
pub fn row_times(grades: &Grades, v: &[u8], matrix: &[u8], out: &mut [u8]) {
    out.fill(0);
    for (&left, row) in v.iter().zip(matrix.chunks_exact(v.len())) {
        join_times(grades, left, row, out);
    }
}

/// Joins a grade times each entry of a row to the sum at its place.
fn join_times(grades: &Grades, left: u8, row: &[u8], sums: &mut [u8]) {
    for (sum, &right) in sums.iter_mut().zip(row) {
        *sum = grades.join(*sum, grades.product(left, right));
    }
}

/// Matrix times column: at p the join over q of M(p,q) times v(q). `out` and `v` have n bytes each.
pub fn times_col(grades: &Grades, matrix: &[u8], v: &[u8], out: &mut [u8]) {
    for (sum, row) in out.iter_mut().zip(matrix.chunks_exact(v.len())) {
        *sum = combine(grades, row, v);
    }
}

/// The join over p of v(p) times w(p).
pub fn combine(grades: &Grades, v: &[u8], w: &[u8]) -> u8 {
    v.iter().zip(w).fold(0, |sum, (&left, &right)| grades.join(sum, grades.product(left, right)))
}

/// The part of the lent vectors that holds a state's vector; empty for a state not below the count, or where the bytes
/// are too short for its place.
pub fn vector_at(vectors: &[u8], n: usize, count: usize, state: usize) -> &[u8] {
    if state >= count {
        return &[];
    }
    let part = state.checked_mul(n).and_then(|at| Some(at..at.checked_add(n)?));
    part.and_then(|part| vectors.get(part)).unwrap_or(&[])
}
