//! The paper's definitions said as plainly as can be, apart from the library, and lent buffers for its calls.

#![allow(dead_code)]

use baseline::Refusal;

/// The byte lent buffers hold at entry, so that untouched bytes show.
pub const ENTRY: u8 = 0xa5;
/// Bytes lent beyond what a call needs.
pub const SLACK: usize = 7;

/// A chart read straight off its bytes.
pub struct Plain<'a> {
    bytes: &'a [u8],
    pub k: usize,
    pub e: usize,
    pub n: usize,
    pub m: usize,
}

pub type Matrix = Vec<Vec<usize>>;

impl<'a> Plain<'a> {
    pub fn of(bytes: &'a [u8]) -> Self {
        let size = |i: usize| usize::from(bytes[i]);
        Plain { bytes, k: size(0), e: size(1), n: size(2), m: size(3) }
    }

    fn byte(&self, at: usize) -> usize {
        usize::from(self.bytes[at])
    }

    pub fn join(&self, a: usize, b: usize) -> usize {
        self.byte(4 + a * self.k + b)
    }

    pub fn times(&self, a: usize, b: usize) -> usize {
        self.byte(4 + self.k * self.k + a * self.k + b)
    }

    pub fn start(&self) -> Vec<usize> {
        (0..self.n).map(|p| self.byte(4 + 2 * self.k * self.k + p)).collect()
    }

    pub fn end(&self) -> Vec<usize> {
        (0..self.n).map(|p| self.byte(4 + 2 * self.k * self.k + self.n + p)).collect()
    }

    pub fn entry(&self, x: usize, p: usize, q: usize) -> usize {
        self.byte(4 + 2 * self.k * self.k + 2 * self.n + x * self.n * self.n + p * self.n + q)
    }

    fn join_all(&self, grades: impl Iterator<Item = usize>) -> usize {
        grades.fold(0, |a, b| self.join(a, b))
    }

    /// The unit on the diagonal, 0 elsewhere.
    fn unit_matrix(&self) -> Matrix {
        (0..self.n).map(|p| (0..self.n).map(|q| if p == q { self.e } else { 0 }).collect()).collect()
    }

    fn then_letter(&self, left: &Matrix, x: usize) -> Matrix {
        let entry =
            |p: usize, q: usize| self.join_all((0..self.n).map(|t| self.times(left[p][t], self.entry(x, t, q))));
        (0..self.n).map(|p| (0..self.n).map(|q| entry(p, q)).collect()).collect()
    }

    /// The product of a word's matrices.
    pub fn matrix_of(&self, word: &[u8]) -> Matrix {
        word.iter().fold(self.unit_matrix(), |m, &x| self.then_letter(&m, usize::from(x)))
    }

    pub fn combine(&self, v: &[usize], w: &[usize]) -> usize {
        self.join_all(v.iter().zip(w).map(|(&a, &b)| self.times(a, b)))
    }

    /// The vector of a word: start times the product of its matrices.
    pub fn vector_of(&self, word: &[u8]) -> Vec<usize> {
        let (matrix, start) = (self.matrix_of(word), self.start());
        (0..self.n).map(|q| self.join_all((0..self.n).map(|p| self.times(start[p], matrix[p][q])))).collect()
    }

    /// The reverse vector of a word: its letters in order, each applied to what the ones before made of the end vector.
    pub fn reverse_of(&self, word: &[u8]) -> Vec<usize> {
        word.iter().fold(self.end(), |f, &x| {
            (0..self.n)
                .map(|p| self.join_all((0..self.n).map(|q| self.times(self.entry(usize::from(x), p, q), f[q]))))
                .collect()
        })
    }

    pub fn grade_of(&self, word: &[u8]) -> usize {
        self.combine(&self.vector_of(word), &self.end())
    }

    /// The first broken law, each law tried on every triple of grades.
    pub fn first_broken(&self) -> Option<Vec<usize>> {
        let (j, p) = (|a, b| self.join(a, b), |a, b| self.times(a, b));
        let broken = |law: usize, a: usize, b: usize, c: usize| match law {
            1 => j(a, a) != a,
            2 => j(a, b) != j(b, a),
            3 => j(j(a, b), c) != j(a, j(b, c)),
            4 => j(0, a) != a,
            5 => p(p(a, b), c) != p(a, p(b, c)),
            6 => p(self.e, a) != a || p(a, self.e) != a,
            7 => p(0, a) != 0 || p(a, 0) != 0,
            _ => p(a, j(b, c)) != j(p(a, b), p(a, c)) || p(j(b, c), a) != j(p(b, a), p(c, a)),
        };
        let k = self.k;
        let tries = (0..8 * k * k * k).map(|i| [1 + i / (k * k * k), i / (k * k) % k, i / k % k, i % k]);
        tries.map(Vec::from).find(|t| broken(t[0], t[1], t[2], t[3]))
    }
}

/// First words in shortlex order of all different keys, and the table they make; nothing where a length would have more
/// than `most` words.
pub fn plain_listing<K: PartialEq>(
    m: usize,
    most: usize,
    key: impl Fn(&[u8]) -> K,
    grade: impl Fn(&[u8]) -> usize,
) -> Option<(Vec<Vec<u8>>, Vec<u8>)> {
    let listed = first_words(m, most, &key)?;
    let number = |word: &[u8]| {
        let found = key(word);
        listed.iter().position(|(_, known)| *known == found).unwrap()
    };
    let row = |word: &[u8]| {
        let nexts = (0..m).flat_map(|x| (number(&longer(word, x)) as u16).to_be_bytes());
        std::iter::once(grade(word) as u8).chain(nexts).collect::<Vec<u8>>()
    };
    let table = listed.iter().flat_map(|(word, _)| row(word)).collect();
    Some((listed.into_iter().map(|(word, _)| word).collect(), table))
}

/// Words are tried length by length until a whole length brings no new key.
fn first_words<K: PartialEq>(m: usize, most: usize, key: impl Fn(&[u8]) -> K) -> Option<Vec<(Vec<u8>, K)>> {
    let mut listed = Vec::new();
    let mut level = vec![Vec::new()];
    while add_new(&mut listed, &level, &key) {
        level = level.iter().flat_map(|word| (0..m).map(|x| longer(word, x))).collect();
        if level.len() > most {
            return None;
        }
    }
    Some(listed)
}

/// Lists the words that have new keys, and answers whether there are any.
fn add_new<K: PartialEq>(listed: &mut Vec<(Vec<u8>, K)>, words: &[Vec<u8>], key: impl Fn(&[u8]) -> K) -> bool {
    let before = listed.len();
    for word in words {
        let found = key(word);
        if listed.iter().all(|(_, known)| *known != found) {
            listed.push((word.clone(), found));
        }
    }
    listed.len() > before
}

pub fn longer(word: &[u8], x: usize) -> Vec<u8> {
    let mut word = word.to_vec();
    word.push(x as u8);
    word
}

pub fn bytes_of(vector: &[usize]) -> Vec<u8> {
    vector.iter().map(|&g| g as u8).collect()
}

pub fn refused(number: u8, values: &[usize]) -> Refusal {
    Refusal { number, values: values.to_vec() }
}

fn lent(len: usize) -> Vec<u8> {
    vec![ENTRY; len + SLACK]
}

pub type Build = fn(&[u8], usize, &mut [u8], &mut [u8]) -> Result<usize, Refusal>;

/// A Nerode or reduced build with all that it leaves.
pub struct Forward {
    pub answer: Result<usize, Refusal>,
    pub table: Vec<u8>,
    pub vectors: Vec<u8>,
}

pub fn forward(build: Build, chart: &[u8], room: usize) -> Forward {
    let (n, m) = (usize::from(chart[2]), usize::from(chart[3]));
    let (mut table, mut vectors) = (lent(room * (1 + 2 * m)), lent((room + 1) * n));
    let answer = build(chart, room, &mut table, &mut vectors);
    Forward { answer, table, vectors }
}

/// A Brzozowski build with all that it leaves.
pub struct Smallest {
    pub answer: Result<(usize, usize), Refusal>,
    pub table: Vec<u8>,
    pub reverse_table: Vec<u8>,
    pub reverse_vectors: Vec<u8>,
    pub rows: Vec<u8>,
}

impl Smallest {
    pub fn buffers(&self) -> [&[u8]; 4] {
        [&self.table, &self.reverse_table, &self.reverse_vectors, &self.rows]
    }
}

pub fn smallest(chart: &[u8], room: usize, reverse_room: usize) -> Smallest {
    let (n, m) = (usize::from(chart[2]), usize::from(chart[3]));
    let mut left = Smallest {
        answer: Ok((0, 0)),
        table: lent(room * (1 + 2 * m)),
        reverse_table: lent(reverse_room * (1 + 2 * m)),
        reverse_vectors: lent((reverse_room + 1) * n),
        rows: lent((room + 1) * reverse_room),
    };
    left.answer = baseline::brzozowski(
        chart,
        room,
        reverse_room,
        &mut left.table,
        &mut left.reverse_table,
        &mut left.reverse_vectors,
        &mut left.rows,
    );
    left
}

pub fn all_are(buffer: &[u8], byte: u8) -> bool {
    buffer.iter().all(|&b| b == byte)
}
