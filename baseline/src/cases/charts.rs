//! Chart bytes, sound and damaged, each with the refusal it must get.

use super::drawing::Drawing;
use super::grades::{self, GradeTables};
use super::rng::Rng;
use super::stored::Stored;
use super::Expected;
use crate::chart::{check, Shape};
use crate::refusal::Reply;

/// What is wrong with a chart's bytes.
#[derive(Clone, Copy, Debug, PartialEq, Eq)]
pub enum ChartFault {
    None,
    /// Bytes after the chart, which aren't read.
    LongerBuffer,
    UnderFour,
    Short,
    Head,
    /// A head out of range on bytes that are short as well: the head comes first.
    HeadAndShort,
    Grade,
    Law(usize),
    /// A grade out of range besides a broken law: the grade comes first.
    GradeAndLaw,
}

pub const CHART_FAULTS: [ChartFault; 16] = [
    ChartFault::None,
    ChartFault::LongerBuffer,
    ChartFault::UnderFour,
    ChartFault::Short,
    ChartFault::Head,
    ChartFault::HeadAndShort,
    ChartFault::Grade,
    ChartFault::Law(1),
    ChartFault::Law(2),
    ChartFault::Law(3),
    ChartFault::Law(4),
    ChartFault::Law(5),
    ChartFault::Law(6),
    ChartFault::Law(7),
    ChartFault::Law(8),
    ChartFault::GradeAndLaw,
];

#[derive(Clone, Debug)]
pub struct ChartCase {
    pub name: String,
    pub bytes: Vec<u8>,
    pub expected: Expected,
}

impl ChartCase {
    /// The chart, and what its check answers.
    pub fn store(&self, stored: &mut Stored) {
        stored.part(&self.bytes);
        stored.reply(&Reply::from(check(&self.bytes).map(laid_out)));
    }
}

/// What the test program prints of a sound chart: its sizes, its letters, where its parts begin, and how many bytes it has.
fn laid_out(shape: Shape) -> Vec<usize> {
    let Shape { k, e, n, m } = shape;
    let start = 4 + 2 * k * k;
    let matrix = start + 2 * n;
    vec![k, e, n, m, m, 4, 4 + k * k, start, start + n, matrix, matrix + m * n * n]
}

/// The chart case of this number; every second one is sound.
pub fn chart_case(seed: u64, case: u64) -> ChartCase {
    let mut rng = Rng::for_case(seed, case);
    let fault = match case % 2 {
        0 => ChartFault::None,
        _ => CHART_FAULTS[(case / 2) as usize % CHART_FAULTS.len()],
    };
    chart_with(&mut rng, fault)
}

pub fn chart_with(rng: &mut Rng, fault: ChartFault) -> ChartCase {
    let (drawing, expected) = drawing_with(rng, fault);
    let mut bytes = drawing.bytes();
    match fault {
        ChartFault::LongerBuffer => bytes.extend((0..rng.range(1, 40)).map(|i| 255 - i as u8)),
        ChartFault::UnderFour => bytes.truncate(rng.below(4)),
        ChartFault::Short => bytes.truncate(rng.range(4, bytes.len() - 1)),
        ChartFault::HeadAndShort => bytes.truncate(rng.range(4, bytes.len() - 1)),
        _ => {}
    }
    ChartCase { name: format!("{}-{}", drawing.grades.name, fault_name(fault)), bytes, expected }
}

fn fault_name(fault: ChartFault) -> String {
    match fault {
        ChartFault::None => "good".into(),
        ChartFault::Law(law) => format!("law{law}"),
        _ => format!("{fault:?}").to_lowercase(),
    }
}

/// The drawing behind a fault, and the refusal its bytes get. Faults in the bytes' length leave it sound.
pub fn drawing_with(rng: &mut Rng, fault: ChartFault) -> (Drawing, Expected) {
    let mut drawing = Drawing::random(rng);
    let expected = match fault {
        ChartFault::None | ChartFault::LongerBuffer => Expected::GOOD,
        ChartFault::UnderFour | ChartFault::Short => Expected::refusal(2),
        ChartFault::Head | ChartFault::HeadAndShort => {
            spoil_head(rng, &mut drawing);
            Expected::refusal(1)
        }
        ChartFault::Grade => {
            spoil_grade(rng, &mut drawing);
            Expected::refusal(3)
        }
        ChartFault::Law(law) => {
            drawing = lawless_drawing(rng, law);
            Expected::law(law)
        }
        ChartFault::GradeAndLaw => {
            let law = rng.range(1, 8);
            drawing = lawless_drawing(rng, law);
            spoil_grade(rng, &mut drawing);
            Expected::refusal(3)
        }
    };
    (drawing, expected)
}

/// Puts one of the four sizes out of range. Only the head changes; the other parts stay as they were.
fn spoil_head(rng: &mut Rng, drawing: &mut Drawing) {
    match rng.below(4) {
        0 => drawing.grades.k = rng.pick(&[0, 1, 17, 255]),
        1 => drawing.grades.e = rng.pick(&[drawing.grades.k, drawing.grades.k + 1, 255]),
        2 => drawing.n = rng.pick(&[0, 25, 255]),
        _ => drawing.m = rng.pick(&[0, 17, 255]),
    }
}

/// Puts one grade of a random part out of range.
fn spoil_grade(rng: &mut Rng, drawing: &mut Drawing) {
    let k = drawing.grades.k as u8;
    let value = rng.pick(&[k, k, k + 1, 255]);
    let part = match rng.below(5) {
        0 => &mut drawing.grades.join,
        1 => &mut drawing.grades.product,
        2 => &mut drawing.start,
        3 => &mut drawing.end,
        _ => &mut drawing.matrices,
    };
    let any = rng.below(part.len());
    let place = rng.pick(&[0, part.len() - 1, any]);
    part[place] = value;
}

fn lawless_drawing(rng: &mut Rng, law: usize) -> Drawing {
    let grades = lawless(rng, law);
    let (n, m) = (rng.range(1, 5), rng.range(1, 3));
    Drawing::with_sizes(rng, grades, n, m)
}

/// Grade tables whose first broken law is the one given.
pub fn lawless(rng: &mut Rng, law: usize) -> GradeTables {
    let tables = grades::sound(rng);
    match law {
        1 => with_moved_diagonal(rng, tables),
        2 => with_one_sided_join(rng, tables),
        3 => with_looping_join(rng),
        4 => with_zero_elsewhere(rng, tables),
        5 => with_loose_product(rng, tables),
        6 => with_other_unit(rng, tables),
        7 => with_live_zero(rng, tables),
        _ => with_uneven_product(rng),
    }
}

/// Another grade than the one given.
fn other(rng: &mut Rng, k: usize, than: usize) -> usize {
    (than + rng.range(1, k - 1)) % k
}

fn with_moved_diagonal(rng: &mut Rng, mut tables: GradeTables) -> GradeTables {
    let (k, a) = (tables.k, rng.below(tables.k));
    tables.join[a * k + a] = other(rng, k, a) as u8;
    tables
}

fn with_one_sided_join(rng: &mut Rng, mut tables: GradeTables) -> GradeTables {
    let (k, a) = (tables.k, rng.below(tables.k));
    let b = other(rng, k, a);
    tables.join[a * k + b] = other(rng, k, tables.join(a, b)) as u8;
    tables
}

/// Three grades of which each is above the one before it, round and round, inside a chain.
fn with_looping_join(rng: &mut Rng) -> GradeTables {
    let mut tables = grades::chain(rng.range(3, 16));
    let k = tables.k;
    let low = rng.below(k - 2);
    tables.join[low * k + low + 2] = low as u8;
    tables.join[(low + 2) * k + low] = low as u8;
    tables
}

/// Grade 0 changes places with another, so it's no longer the least.
fn with_zero_elsewhere(rng: &mut Rng, tables: GradeTables) -> GradeTables {
    let mut to: Vec<usize> = (0..tables.k).collect();
    to.swap(0, rng.range(1, tables.k - 1));
    tables.renumbered(&to)
}

/// One product entry changed so that associativity falls; most changes do that.
fn with_loose_product(rng: &mut Rng, tables: GradeTables) -> GradeTables {
    loop {
        let mut loose = tables.clone();
        let place = rng.below(loose.product.len());
        loose.product[place] = other(rng, loose.k, usize::from(loose.product[place])) as u8;
        if !product_associates(&loose) {
            return loose;
        }
        // On two grades a single change may not be enough.
        if loose.k == 2 {
            return GradeTables::from_rules("loose2", 2, 1, usize::max, |a, b| usize::from(a <= b));
        }
    }
}

fn product_associates(tables: &GradeTables) -> bool {
    let p = |a, b| tables.product(a, b);
    let k = tables.k;
    (0..k * k * k).all(|i| {
        let (a, b, c) = (i / (k * k), i / k % k, i % k);
        p(p(a, b), c) == p(a, p(b, c))
    })
}

/// Another unit, a product that is always 0, or one that is always its right side, or its left: then the unit works from
/// one side only.
fn with_other_unit(rng: &mut Rng, tables: GradeTables) -> GradeTables {
    let GradeTables { k, e, .. } = tables;
    match rng.below(4) {
        0 => GradeTables { product: vec![0; k * k], ..tables },
        1 => GradeTables { product: (0..k * k).map(|i| (i % k) as u8).collect(), ..tables },
        2 => GradeTables { product: (0..k * k).map(|i| (i / k) as u8).collect(), ..tables },
        _ => GradeTables { e: other(rng, k, e), ..tables },
    }
}

/// The join as product, or a product that is its left side, or its right, wherever no side is the unit: then grade 0
/// takes from one side only.
fn with_live_zero(rng: &mut Rng, tables: GradeTables) -> GradeTables {
    if tables.k == 2 || rng.chance(1, 3) {
        return GradeTables { e: 0, product: tables.join.clone(), ..tables };
    }
    let e = tables.e;
    let product = |a: usize, b: usize| if a == e { b } else { a };
    let left = GradeTables::from_rules(format!("left-{}", tables.name), tables.k, e, |a, b| tables.join(a, b), product);
    if rng.chance(1, 2) {
        left.turned()
    } else {
        left
    }
}

/// Products that don't spread over joins: a lattice that isn't distributive, maps for which one side holds, and a
/// chain whose greatest grade times itself is 0.
fn with_uneven_product(rng: &mut Rng) -> GradeTables {
    let tables = match rng.below(4) {
        0 => grades::three_between(),
        1 => grades::all_maps(),
        2 => grades::all_maps().turned(),
        _ => GradeTables::from_rules("falling", 3, 1, usize::max, |a, b| if a * b == 4 { 0 } else { a * b }),
    };
    if rng.chance(1, 2) {
        tables.shuffled(rng)
    } else {
        tables
    }
}
