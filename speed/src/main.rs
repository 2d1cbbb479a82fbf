//! Times the proved chart check, row product, builders and sheet check beside the same work in plain Rust, on the same charts, in one run. Prints
//! nanoseconds a call (the median of some runs) and the ratio.

mod sheets;

use baseline::cases::{grades, tight, Drawing, GradeTables, Rng};
use baseline::{brzozowski, check, nerode, reduced, row_times, Chart, Grades};
use std::hint::black_box;
use std::time::Instant;

extern "C" {
    fn yard_check(chart: *const u8, len: usize) -> u8;
    fn yard_nerode(chart: *const u8, len: usize, room: usize, table: *mut u8, table_len: usize, vectors: *mut u8, vectors_len: usize) -> usize;
    fn yard_reduced(chart: *const u8, len: usize, room: usize, table: *mut u8, table_len: usize, vectors: *mut u8, vectors_len: usize) -> usize;
    #[rustfmt::skip]
    fn yard_brzozowski(
        chart: *const u8, len: usize, room: usize, reverse_room: usize, table: *mut u8, table_len: usize, reverse: *mut u8, reverse_len: usize,
        vectors: *mut u8, vectors_len: usize, rows: *mut u8, rows_len: usize,
    ) -> usize;
    fn yard_row_times(chart: *const u8, len: usize, x: usize, v: *const u8, v_len: usize, out: *mut u8, out_len: usize, turns: usize) -> usize;
}

fn proved_check(chart: &[u8]) -> u8 {
    // any bytes may be passed
    unsafe { yard_check(chart.as_ptr(), chart.len()) }
}

fn proved_rows(chart: &[u8], x: usize, v: &[u8], out: &mut [u8], turns: usize) -> usize {
    // any bytes and numbers may be passed
    unsafe { yard_row_times(chart.as_ptr(), chart.len(), x, v.as_ptr(), v.len(), out.as_mut_ptr(), out.len(), turns) }
}

/// Nanoseconds for one of `turns`, the median of nine runs.
fn median(turns: usize, mut run: impl FnMut()) -> f64 {
    let mut times: Vec<f64> = (0..9)
        .map(|_| {
            let began = Instant::now();
            run();
            began.elapsed().as_nanos() as f64 / turns as f64
        })
        .collect();
    times.sort_by(f64::total_cmp);
    times[4]
}

fn report(what: &str, proved: f64, plain: f64) -> f64 {
    println!("{what:<62} proved {proved:>10.0} ns   plain {plain:>10.0} ns   ratio {:.2}", proved / plain);
    proved / plain
}

fn geometric_mean(ratios: &[f64]) -> f64 {
    (ratios.iter().map(|ratio| ratio.ln()).sum::<f64>() / ratios.len() as f64).exp()
}

fn check_ratio(name: &str, chart: &[u8]) -> f64 {
    assert_eq!(proved_check(chart), check(chart).map_or_else(|refusal| refusal.number, |_| 0));
    let turns = 200;
    let proved = median(turns, || (0..turns).for_each(|_| assert_eq!(proved_check(black_box(chart)), 0)));
    let plain = median(turns, || (0..turns).for_each(|_| assert!(check(black_box(chart)).is_ok())));
    report(&format!("check {name}"), proved, plain)
}

fn rows_ratio(name: &str, bytes: &[u8]) -> f64 {
    let chart = Chart::checked(bytes).expect("a sound chart");
    let grades = Grades::of(&chart);
    let (v, n) = (chart.start().to_vec(), chart.shape.n);
    let (mut ours, mut theirs) = (vec![0; n], vec![0; n]);
    let turns = 20_000;
    assert_eq!(proved_rows(bytes, 0, &v, &mut ours, 1), 1);
    row_times(&grades, &v, chart.matrix(0), &mut theirs);
    assert_eq!(ours, theirs);
    // the check is part of the proved call: timed by itself, and taken off
    let checked = median(1, || assert_eq!(proved_rows(bytes, 0, &v, &mut ours, black_box(0)), 0));
    let proved = median(1, || assert_eq!(proved_rows(bytes, 0, &v, &mut ours, black_box(turns)), turns));
    let plain = median(turns, || (0..turns).for_each(|_| row_times(black_box(&grades), black_box(&v), chart.matrix(0), black_box(&mut theirs))));
    report(&format!("row times matrix {name}"), (proved - checked) / turns as f64, plain)
}

const ROOM: usize = 4096;
const REVERSE: usize = 128;

/// What the builders are lent, for every chart.
#[derive(PartialEq)]
struct Lent {
    table: Vec<u8>,
    vectors: Vec<u8>,
    reverse_table: Vec<u8>,
    reverse_vectors: Vec<u8>,
    rows: Vec<u8>,
}

impl Lent {
    fn new() -> Self {
        Lent {
            table: vec![0; ROOM * 33],
            vectors: vec![0; (ROOM + 1) * 24],
            reverse_table: vec![0; REVERSE * 33],
            reverse_vectors: vec![0; (REVERSE + 1) * 24],
            rows: vec![0; (ROOM + 1) * REVERSE],
        }
    }
}

#[derive(Clone, Copy)]
enum Build {
    Nerode,
    Reduced,
    Brz,
}

/// The state count, or 0 for a refusal.
fn proved_build(build: Build, chart: &[u8], lent: &mut Lent) -> usize {
    let (c, len) = (chart.as_ptr(), chart.len());
    let (t, v) = (&mut lent.table, &mut lent.vectors);
    // any bytes and numbers may be passed
    unsafe {
        match build {
            Build::Nerode => yard_nerode(c, len, ROOM, t.as_mut_ptr(), t.len(), v.as_mut_ptr(), v.len()),
            Build::Reduced => yard_reduced(c, len, ROOM, t.as_mut_ptr(), t.len(), v.as_mut_ptr(), v.len()),
            Build::Brz => {
                let (rt, rv, rows) = (&mut lent.reverse_table, &mut lent.reverse_vectors, &mut lent.rows);
                #[rustfmt::skip]
                let count = yard_brzozowski(
                    c, len, ROOM, REVERSE, t.as_mut_ptr(), t.len(), rt.as_mut_ptr(), rt.len(), rv.as_mut_ptr(), rv.len(), rows.as_mut_ptr(), rows.len(),
                );
                count
            }
        }
    }
}

fn plain_build(build: Build, chart: &[u8], lent: &mut Lent) -> usize {
    let count = match build {
        Build::Nerode => nerode(chart, ROOM, &mut lent.table, &mut lent.vectors),
        Build::Reduced => reduced(chart, ROOM, &mut lent.table, &mut lent.vectors),
        Build::Brz => {
            let answer = brzozowski(chart, ROOM, REVERSE, &mut lent.table, &mut lent.reverse_table, &mut lent.reverse_vectors, &mut lent.rows);
            answer.map(|counts| counts.0)
        }
    };
    count.unwrap_or(0)
}

fn build_ratio(name: &str, build: Build, chart: &[u8]) -> f64 {
    let (mut ours, mut theirs) = (Lent::new(), Lent::new());
    let count = proved_build(build, chart, &mut ours);
    assert_eq!(count, plain_build(build, chart, &mut theirs));
    assert!(ours == theirs, "{name}: the two leave different bytes");
    let proved = median(1, || assert_eq!(proved_build(build, black_box(chart), &mut ours), count));
    let plain = median(1, || assert_eq!(plain_build(build, black_box(chart), &mut theirs), count));
    report(&format!("{name}, {count} states"), proved, plain)
}

/// A chart with what it is called.
type Named = (String, Vec<u8>);

fn drawn(rng: &mut Rng, name: &str, tables: &GradeTables, sizes: &[(usize, usize)]) -> Vec<Named> {
    let chart = |&(n, m): &(usize, usize)| (format!("{name}, n {n}, m {m}"), Drawing::with_sizes(rng, tables.clone(), n, m).bytes());
    sizes.iter().map(chart).collect()
}

fn remembering(name: &str, tables: &GradeTables) -> Vec<Named> {
    let chart = |back| (format!("{name}, remembering {back}"), tight::remembering(tables.clone(), back, true).bytes());
    [6, 9, 11, 12].map(chart).to_vec()
}

fn check_charts(rng: &mut Rng) -> Vec<Named> {
    let kinds = [("chain 2", grades::chain(2)), ("chain 5", grades::chain(5)), ("chain 16", grades::chain(16)), ("relations", grades::relations())];
    kinds.iter().flat_map(|(name, tables)| drawn(rng, name, tables, &[(4, 2), (8, 4), (24, 16)])).collect()
}

/// Charts of few and of many states; some outnumber the room of 4,096, and are then refused after that many.
fn build_charts(rng: &mut Rng) -> Vec<Named> {
    let kinds = [("chain 2", grades::chain(2)), ("chain 5", grades::chain(5)), ("relations", grades::relations())];
    let of_kind = |(name, tables): &(&str, GradeTables)| {
        let sizes = [(4, 2), (8, 4), (12, 8), (24, 16)];
        [drawn(rng, name, tables, &sizes), remembering(name, tables)].concat()
    };
    kinds.iter().flat_map(of_kind).collect()
}

fn time_builder(what: &str, build: Build, charts: &[Named]) {
    let ratios: Vec<f64> = charts.iter().map(|(name, chart)| build_ratio(&format!("{what} {name}"), build, chart)).collect();
    println!("geometric mean: {what} {:.2}", geometric_mean(&ratios));
}

fn main() {
    let mut rng = Rng::new(1);
    let charts = check_charts(&mut rng);
    let (checks, rows): (Vec<f64>, Vec<f64>) = charts.iter().map(|(name, chart)| (check_ratio(name, chart), rows_ratio(name, chart))).unzip();
    let charts = build_charts(&mut rng);
    for (what, build) in [("nerode", Build::Nerode), ("reduced", Build::Reduced), ("brz", Build::Brz)] {
        time_builder(what, build, &charts);
    }
    let ratios: Vec<f64> = sheets::samples().iter().map(|(name, made)| sheets::ratio(name, made)).collect();
    println!("geometric mean: sheet {:.2}", geometric_mean(&ratios));
    println!("geometric means: check {:.2}, row times matrix {:.2}", geometric_mean(&checks), geometric_mean(&rows));
}
