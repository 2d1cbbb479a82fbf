//! What must hold of every chart, text, table and sheet, on generated ones.

mod common;

use baseline::cases::charts::{chart_with, ChartFault, CHART_FAULTS};
use baseline::cases::texts::{text_with, TEXT_FAULTS};
use baseline::cases::{chart_case, grades, reached_pairs, text_case, tight, Drawing, Rng};
use baseline::programs::{answer, Build};
use baseline::{
    c_grade, c_step, cap, check, check_sheet, check_table, check_table_beside, grade, grade_word, nerode,
    print_refusal, print_table, read_chart, reduced, step, vector_at, Reader, Refusal,
};
use common::{all_are, bytes_of, forward, plain_listing, refused, smallest, Forward, Plain, Smallest, ENTRY, SLACK};

const SEED: u64 = 2024;
const CHARTS: u64 = 240;
const ROOM: usize = 200;
const REVERSE_ROOM: usize = 100;

fn drawings() -> impl Iterator<Item = Drawing> {
    (0..CHARTS).map(|case| Drawing::random(&mut Rng::for_case(SEED, case)))
}

fn good_charts() -> impl Iterator<Item = Vec<u8>> {
    drawings().map(|drawing| drawing.bytes())
}

/// Every table that can be built of a chart within the rooms, with its count.
fn built_tables(chart: &[u8]) -> Vec<(Vec<u8>, usize)> {
    let mut tables = Vec::new();
    for build in [nerode, reduced] {
        let Forward { answer, table, .. } = forward(build, chart, ROOM);
        tables.extend(answer.ok().map(|count| (table, count)));
    }
    let Smallest { answer, table, .. } = smallest(chart, ROOM, REVERSE_ROOM);
    tables.extend(answer.ok().map(|(count, _)| (table, count)));
    let row_len = 1 + 2 * usize::from(chart[3]);
    tables.iter_mut().for_each(|(table, count)| table.truncate(*count * row_len));
    tables
}

fn random_word(rng: &mut Rng, m: usize) -> Vec<u8> {
    let len = rng.below(9);
    (0..len).map(|_| rng.below(m) as u8).collect()
}

#[test]
fn charts_get_the_refusal_they_were_made_for() {
    for case in 0..400 {
        let made = chart_case(SEED, case);
        let answer = check(&made.bytes);
        assert_eq!(answer.as_ref().map_or_else(|r| r.number, |_| 0), made.expected.number, "{}", made.name);
        if let Some(law) = made.expected.first {
            let values = Plain::of(&made.bytes).first_broken().unwrap();
            assert_eq!((values[0], answer), (law, Err(refused(4, &values))), "{}", made.name);
        }
    }
}

#[test]
fn every_head_byte_has_its_range() {
    let chart = Drawing::random(&mut Rng::new(SEED)).bytes();
    for (place, value) in (0..4).flat_map(|place| (0..=255).map(move |value| (place, value))) {
        let mut chart = chart.clone();
        chart[place] = value;
        let [k, e, n, m] = [chart[0], chart[1], chart[2], chart[3]];
        let fine = (2..=16).contains(&k) && e < k && (1..=24).contains(&n) && (1..=16).contains(&m);
        assert_eq!(check(&chart) == Err(refused(1, &[])), !fine, "{k} {e} {n} {m}");
    }
}

#[test]
fn laws_are_found_broken_from_either_side() {
    let mut rng = Rng::new(SEED);
    for law in (1..=8).flat_map(|law| [law; 40]) {
        let bytes = chart_with(&mut rng, ChartFault::Law(law)).bytes;
        let values = Plain::of(&bytes).first_broken().unwrap();
        assert_eq!((values[0], check(&bytes)), (law, Err(refused(4, &values))));
    }
}

#[test]
fn builders_begin_with_the_chart_and_leave_memory_alone() {
    let mut rng = Rng::new(SEED);
    for fault in CHART_FAULTS {
        let bytes = chart_with(&mut rng, fault).bytes;
        let Err(refusal) = check(&bytes) else { continue };
        let mut lent = [(); 4].map(|_| vec![ENTRY; 99999]);
        let [a, b, c, d] = &mut lent;
        // A room of 0 would be refused with 5 if the chart were not refused first.
        assert_eq!(nerode(&bytes, 0, a, b), Err(refusal.clone()));
        assert_eq!(reduced(&bytes, 5, a, b), Err(refusal.clone()));
        assert_eq!(baseline::brzozowski(&bytes, 5, 0, a, b, c, d), Err(refusal.clone()));
        assert_eq!(print_table(&bytes, b, 0, 0, &mut []), Err(refusal.clone()));
        assert_eq!(cap(&bytes, b, 0, 0), Err(refusal.clone()));
        assert_eq!(check_table_beside(&bytes, b, 0, 0), Err(refusal.clone()));
        assert_eq!(check_sheet(&bytes, b, 0, 0, &[], 9999), Err(refusal));
        assert!(lent.iter().all(|buffer| all_are(buffer, ENTRY)));
    }
}

#[test]
fn texts_get_the_refusal_they_were_made_for() {
    let mut rng = Rng::new(SEED);
    let made_by_fault = (0..6).flat_map(|_| TEXT_FAULTS).map(|fault| text_with(&mut rng, fault));
    for made in made_by_fault.chain((0..120).map(|case| text_case(SEED, case))) {
        let mut chart = vec![ENTRY; 9780 + SLACK];
        match read_chart(&made.text, &mut chart) {
            Ok(len) => {
                assert_eq!(made.expected.number, 0, "{}", made.name);
                assert_eq!(check(&chart[..len]).map(|shape| shape.chart_len()), Ok(len));
                assert!(all_are(&chart[len..], ENTRY));
            }
            Err(refusal) => {
                assert_eq!(refusal.number, made.expected.number, "{}", made.name);
                if let Some(first) = made.expected.first {
                    assert_eq!(refusal.values[0], first, "{}", made.name);
                }
                assert!(all_are(&chart, 0));
                let line = format!("7f0001{:02x}\n", refusal.number);
                assert_eq!(answer(Build::Reduced, &made.text), line.as_bytes());
            }
        }
    }
}

#[test]
fn short_chart_buffers_come_before_the_text() {
    let mut chart = vec![ENTRY; 9779];
    assert_eq!(read_chart(&vec![b'x'; 30000], &mut chart), Err(refused(5, &[])));
    assert!(all_are(&chart, ENTRY));
}

#[test]
fn texts_read_back_as_the_drawing() {
    for drawing in drawings() {
        let mut chart = vec![ENTRY; 9780];
        let len = read_chart(&drawing.text(), &mut chart).unwrap();
        assert_eq!(chart[..len], drawing.bytes());
    }
    let largest = Drawing::largest(&mut Rng::new(SEED));
    assert_eq!((largest.text().len(), largest.bytes().len()), (22493, 9780));
}

#[test]
fn tables_grade_words_as_the_chart() {
    let mut rng = Rng::new(SEED);
    let mut tables_seen = 0;
    for chart in good_charts() {
        let words: Vec<Vec<u8>> = (0..12).map(|_| random_word(&mut rng, usize::from(chart[3]))).collect();
        let tables = built_tables(&chart);
        tables_seen += tables.len();
        tables.iter().for_each(|(table, count)| assert_grades(&chart, table, *count, &words));
    }
    assert!(tables_seen > 400, "only {tables_seen} tables were built");
}

fn assert_grades(chart: &[u8], table: &[u8], count: usize, words: &[Vec<u8>]) {
    let plain = Plain::of(chart);
    assert_eq!(check_table_beside(chart, table, count, plain.m), Ok(()));
    for word in words {
        assert_eq!(grade_word(table, count, plain.m, word), Ok(plain.grade_of(word) as u8));
        assert_eq!(by_reader(table, count, plain.m, word), grade_word(table, count, plain.m, word));
    }
}

fn by_reader(table: &[u8], count: usize, m: usize, word: &[u8]) -> Result<u8, Refusal> {
    let mut reader = Reader::new(table, count, m);
    for &letter in word {
        let before = reader.state();
        assert_eq!(reader.step(m), Err(refused(8, &[0])));
        assert_eq!(reader.state(), before);
        let next = reader.step(usize::from(letter))?;
        assert_eq!(usize::from(c_step(table, count, m, before, usize::from(letter))), next);
    }
    assert_eq!(c_grade(table, count, m, reader.state()), reader.grade()?);
    reader.grade()
}

#[test]
fn counts_fall_from_nerode_to_smallest() {
    for chart in good_charts() {
        let a = forward(nerode, &chart, ROOM).answer.unwrap_or(usize::MAX);
        let b = forward(reduced, &chart, ROOM).answer.unwrap_or(usize::MAX);
        let c = smallest(&chart, ROOM, REVERSE_ROOM).answer;
        assert!(b <= a);
        match c {
            Ok((count, _)) => assert!(count <= b),
            Err(refusal) if refusal.number == 7 => assert_eq!(b, usize::MAX),
            Err(refusal) => assert_eq!(refusal.number, 6),
        }
    }
}

#[test]
fn forward_rooms_hit_exactly_and_missed_by_one() {
    for chart in good_charts() {
        forward_rooms(nerode, &chart);
        forward_rooms(reduced, &chart);
    }
}

fn forward_rooms(build: common::Build, chart: &[u8]) {
    let wide = forward(build, chart, ROOM);
    let Ok(count) = wide.answer else { return forward_is_missed(&wide) };
    let exact = forward(build, chart, count);
    assert_eq!(exact.answer, Ok(count));
    forward_leaves(chart, &exact, count, &wide);
    forward_leaves(chart, &wide, ROOM, &exact);
    if count > 1 {
        forward_is_missed(&forward(build, chart, count - 1));
    }
}

fn forward_is_missed(missed: &Forward) {
    assert_eq!(missed.answer, Err(refused(7, &[])));
    assert!(all_are(&missed.table, 0) && all_are(&missed.vectors, 0));
}

/// Results as in another room, zeros in the free places, all else as at entry.
fn forward_leaves(chart: &[u8], built: &Forward, room: usize, same: &Forward) {
    let (n, row_len) = (usize::from(chart[2]), 1 + 2 * usize::from(chart[3]));
    let count = built.answer.clone().unwrap();
    let (rows, vectors) = (count * row_len, count * n);
    table_left(&built.table, &same.table, rows);
    assert_eq!(built.vectors[..vectors], same.vectors[..vectors]);
    places_left(&built.vectors[vectors..], (room + 1 - count) * n);
}

/// Rows as in another table, then bytes as at entry.
fn table_left(table: &[u8], same: &[u8], used: usize) {
    assert_eq!(table[..used], same[..used]);
    assert!(all_are(&table[used..], ENTRY));
}

/// Zeros for the free places, then bytes as at entry.
fn places_left(bytes: &[u8], free: usize) {
    assert!(all_are(&bytes[..free], 0) && all_are(&bytes[free..], ENTRY));
    assert_eq!(bytes.len(), free + SLACK);
}

#[test]
fn smallest_rooms_hit_exactly_and_missed_by_one() {
    for chart in good_charts() {
        let wide = smallest(&chart, ROOM, REVERSE_ROOM);
        let Ok((count, reverse)) = wide.answer else {
            assert!(wide.buffers().iter().all(|buffer| all_are(buffer, 0)));
            continue;
        };
        let exact = smallest(&chart, count, reverse);
        assert_eq!(exact.answer, Ok((count, reverse)));
        smallest_leaves(&chart, &exact, count, reverse, &wide, REVERSE_ROOM);
        smallest_leaves(&chart, &wide, ROOM, REVERSE_ROOM, &exact, reverse);
        let missed = |room: usize, reverse_room: usize, number: u8| {
            if room > 0 && reverse_room > 0 {
                let missed = smallest(&chart, room, reverse_room);
                assert_eq!(missed.answer, Err(refused(number, &[])));
                assert!(missed.buffers().iter().all(|buffer| all_are(buffer, 0)));
            }
        };
        missed(count - 1, reverse, 7);
        missed(count, reverse - 1, 6);
        missed(count - 1, reverse - 1, 6);
    }
}

fn smallest_leaves(
    chart: &[u8],
    built: &Smallest,
    room: usize,
    reverse_room: usize,
    same: &Smallest,
    same_reverse_room: usize,
) {
    let (n, row_len) = (usize::from(chart[2]), 1 + 2 * usize::from(chart[3]));
    let (count, reverse) = built.answer.clone().unwrap();
    table_left(&built.table, &same.table, count * row_len);
    table_left(&built.reverse_table, &same.reverse_table, reverse * row_len);
    assert_eq!(built.reverse_vectors[..reverse * n], same.reverse_vectors[..reverse * n]);
    places_left(&built.reverse_vectors[reverse * n..], (reverse_room + 1 - reverse) * n);
    for state in 0..count {
        let row = &built.rows[state * reverse_room..][..reverse_room];
        assert_eq!(row[..reverse], same.rows[state * same_reverse_room..][..reverse]);
        assert!(all_are(&row[reverse..], ENTRY));
    }
    places_left(&built.rows[count * reverse_room..], (room + 1 - count) * reverse_room);
}

/// Tables, vectors and rows worked out from words alone, in shortlex order.
#[test]
fn states_are_numbered_by_first_word() {
    let mut seen = 0;
    for chart in good_charts() {
        let plain = Plain::of(&chart);
        if plain.n <= 5 && plain.m <= 3 {
            let vector_key = |word: &[u8]| vec![plain.vector_of(word)];
            seen += usize::from(forward_by_words(&plain, &chart, MOST_WORDS, nerode, vector_key));
            let reduced_key = |word: &[u8]| reduced_key(&plain, word);
            seen += usize::from(forward_by_words(&plain, &chart, MOST_WORDS, reduced, reduced_key));
            seen += usize::from(smallest_by_words(&plain, &chart));
        }
    }
    assert!(seen > 100, "only {seen} tables were compared");
}

const MOST_WORDS: usize = 300;

fn reduced_key(plain: &Plain, word: &[u8]) -> Vec<Vec<usize>> {
    let mut key: Vec<_> = (0..plain.m).map(|x| plain.vector_of(&common::longer(word, x))).collect();
    key.push(vec![plain.grade_of(word)]);
    key
}

fn forward_by_words(
    plain: &Plain,
    chart: &[u8],
    most_words: usize,
    build: common::Build,
    key: impl Fn(&[u8]) -> Vec<Vec<usize>>,
) -> bool {
    let Some((words, table)) = plain_listing(plain.m, most_words, key, |word| plain.grade_of(word)) else {
        return false;
    };
    let built = forward(build, chart, 600);
    assert_eq!(built.answer, Ok(words.len()));
    assert_eq!(built.table[..table.len()], table);
    let vectors: Vec<Vec<usize>> = words.iter().map(|word| plain.vector_of(word)).collect();
    assert_vectors(plain, &built.vectors, &vectors);
    true
}

fn assert_vectors(plain: &Plain, held: &[u8], vectors: &[Vec<usize>]) {
    for (state, vector) in vectors.iter().enumerate() {
        assert_eq!(vector_at(held, plain.n, vectors.len(), state), bytes_of(vector));
    }
}

fn smallest_by_words(plain: &Plain, chart: &[u8]) -> bool {
    let start_with = |word: &[u8]| plain.combine(&plain.start(), &plain.reverse_of(word));
    let reverse = plain_listing(plain.m, MOST_WORDS, |word| plain.reverse_of(word), start_with);
    let Some((reverse_words, reverse_table)) = reverse else { return false };
    if reverse_words.len() > 128 {
        return false;
    }
    let columns: Vec<Vec<usize>> = reverse_words.iter().map(|word| plain.reverse_of(word)).collect();
    let row = |word: &[u8]| {
        let vector = plain.vector_of(word);
        columns.iter().map(|f| plain.combine(&vector, f)).collect::<Vec<usize>>()
    };
    let Some((words, table)) = plain_listing(plain.m, MOST_WORDS, row, |word| plain.grade_of(word)) else {
        return false;
    };
    let built = smallest(chart, 600, 128);
    assert_eq!(built.answer, Ok((words.len(), reverse_words.len())));
    assert_eq!(built.table[..table.len()], table);
    assert_eq!(built.reverse_table[..reverse_table.len()], reverse_table);
    assert_vectors(plain, &built.reverse_vectors, &columns);
    for (state, word) in words.iter().enumerate() {
        assert_eq!(built.rows[state * 128..][..columns.len()], bytes_of(&row(word)));
    }
    true
}

/// Next states above 255 need both their bytes.
#[test]
fn many_states_are_numbered_by_first_word() {
    let chart = tight::remembering(grades::relations(), 9, false).bytes();
    let plain = Plain::of(&chart);
    assert!(forward_by_words(&plain, &chart, 1024, nerode, |word| vec![plain.vector_of(word)]));
    assert_eq!(forward(nerode, &chart, 512).answer, Ok(512));
}

#[test]
fn largest_rooms_hit_exactly_and_missed_by_one() {
    let chart = tight::remembering(grades::chain(2), 12, false).bytes();
    for build in [nerode, reduced] {
        assert_eq!(forward(build, &chart, 4096).answer, Ok(4096));
        assert_eq!(forward(build, &chart, 4095).answer, Err(refused(7, &[])));
    }
    assert_eq!(smallest(&chart, 4096, 128).answer, Ok((4096, 14)));
    assert_eq!(smallest(&chart, 4095, 14).answer, Err(refused(7, &[])));
    assert_eq!(smallest(&chart, 4096, 13).answer, Err(refused(6, &[])));
    let more = tight::remembering(grades::chain(2), 12, true).bytes();
    assert_eq!(smallest(&more, 4096, 128).answer, Err(refused(7, &[])));
}

#[test]
fn tight_charts_have_the_vectors_they_were_made_for() {
    let mut rng = Rng::new(SEED);
    for count in tight::NEAR_ROOMS {
        let chart = tight::with_vectors(grades::sound(&mut rng), count).bytes();
        assert_eq!(forward(nerode, &chart, count).answer, Ok(count));
        assert_eq!(forward(nerode, &chart, count - 1).answer, Err(refused(7, &[])));
        if count <= 128 {
            assert_eq!(smallest(&chart, 300, count).answer.unwrap().1, count);
        }
        assert_eq!(smallest(&chart, 300, count.min(128) - 1).answer, Err(refused(6, &[])));
    }
}

#[test]
fn tight_charts_have_the_smallest_states_they_were_made_for() {
    let mut rng = Rng::new(SEED);
    for (apart, count) in [(false, 128), (true, 129)] {
        let chart = tight::remembering(grades::sound(&mut rng), 7, apart).bytes();
        assert_eq!(smallest(&chart, 300, 64).answer.unwrap().0, count);
        assert_eq!(smallest(&chart, 128, 64).answer.is_ok(), count <= 128);
    }
}

/// A sheet with its table and chart.
struct Sheet {
    chart: Vec<u8>,
    table: Vec<u8>,
    count: usize,
    bytes: Vec<u8>,
    lines: usize,
}

impl Sheet {
    fn check(&self) -> Result<(), Refusal> {
        let m = usize::from(self.chart[3]);
        check_sheet(&self.chart, &self.table, self.count, m, &self.bytes, self.lines)
    }

    fn line_len(&self) -> usize {
        2 + usize::from(self.chart[2])
    }

    fn line(&self, line: usize) -> &[u8] {
        &self.bytes[line * self.line_len()..][..self.line_len()]
    }

    fn without_line(&self, line: usize) -> Sheet {
        let mut bytes = self.bytes.clone();
        bytes.drain(line * self.line_len()..(line + 1) * self.line_len());
        Sheet { bytes, lines: self.lines - 1, ..self.copy() }
    }

    fn copy(&self) -> Sheet {
        Sheet {
            chart: self.chart.clone(),
            table: self.table.clone(),
            count: self.count,
            bytes: self.bytes.clone(),
            lines: self.lines,
        }
    }

    /// The first line and letter that lead to the given pair.
    fn first_to(&self, pair: &[u8]) -> Option<(usize, usize)> {
        let plain = Plain::of(&self.chart);
        (0..self.lines).flat_map(|line| (0..plain.m).map(move |x| (line, x))).find(|&(line, x)| {
            let state = usize::from(self.line(line)[0]) * 256 + usize::from(self.line(line)[1]);
            let next_at = state * (1 + 2 * plain.m) + 1 + 2 * x;
            self.table[next_at..next_at + 2] == pair[..2]
                && plain_row_times(&plain, &self.line(line)[2..], x) == pair[2..]
        })
    }
}

fn plain_row_times(plain: &Plain, vector: &[u8], x: usize) -> Vec<u8> {
    let at = |q: usize| {
        (0..plain.n).fold(0, |sum, p| plain.join(sum, plain.times(usize::from(vector[p]), plain.entry(x, p, q))))
    };
    (0..plain.n).map(|q| at(q) as u8).collect()
}

/// All built tables of all good charts: each with its chart and its count.
fn tables_with_charts() -> impl Iterator<Item = (Vec<u8>, Vec<u8>, usize)> {
    let with_chart =
        |chart: Vec<u8>| built_tables(&chart).into_iter().map(move |(table, count)| (chart.clone(), table, count));
    good_charts().flat_map(with_chart)
}

fn sheets() -> Vec<Sheet> {
    let reached = |(chart, table, count): (Vec<u8>, Vec<u8>, usize)| {
        let (bytes, lines) = reached_pairs(&chart, &table, usize::from(chart[3]), 60)?;
        Some(Sheet { chart, table, count, bytes, lines })
    };
    let sheets: Vec<Sheet> = tables_with_charts().filter_map(reached).collect();
    assert!(sheets.len() > 200, "only {} sheets were made", sheets.len());
    sheets
}

#[test]
fn reached_pairs_are_accepted() {
    for mut sheet in sheets() {
        assert_eq!(sheet.check(), Ok(()));
        // Bytes after the lines aren't read, and a pair may stand on the sheet twice.
        sheet.bytes.extend_from_within(..sheet.line_len());
        sheet.bytes.push(255);
        assert_eq!(sheet.check(), Ok(()));
        sheet.lines += 1;
        assert_eq!(sheet.check(), Ok(()));
    }
}

#[test]
fn sheets_with_a_line_missing() {
    let mut rng = Rng::new(SEED);
    for sheet in sheets() {
        assert_eq!(sheet.without_line(0).check(), Err(refused(11, &[])));
        let gone = rng.below(sheet.lines);
        if gone > 0 {
            let short = sheet.without_line(gone);
            let (line, letter) = short.first_to(sheet.line(gone)).unwrap();
            assert_eq!(short.check(), Err(refused(13, &[line, letter])));
        }
    }
}

#[test]
fn sheets_beside_a_table_with_a_changed_grade() {
    let mut rng = Rng::new(SEED);
    for sheet in sheets() {
        let (k, m) = (usize::from(sheet.chart[0]), usize::from(sheet.chart[3]));
        let mut wrong = sheet.copy();
        let state = rng.below(sheet.count);
        let grade = &mut wrong.table[state * (1 + 2 * m)];
        *grade = ((usize::from(*grade) + rng.range(1, k - 1)) % k) as u8;
        let states = (0..sheet.lines).map(|line| usize::from(sheet.line(line)[1]));
        let line = states.into_iter().position(|s| s == state).unwrap();
        assert_eq!(wrong.check(), Err(refused(12, &[line])));
    }
}

#[test]
fn sheets_of_wrong_form() {
    let mut rng = Rng::new(SEED);
    for sheet in sheets() {
        let no_form = Err(refused(10, &[]));
        let mut short = sheet.copy();
        short.bytes.pop();
        assert_eq!(short.check(), no_form);
        assert_eq!(Sheet { lines: 4097, bytes: vec![0; 4097 * 26], ..sheet.copy() }.check(), no_form);
        assert_eq!(Sheet { lines: usize::MAX, ..sheet.copy() }.check(), no_form);

        let at = rng.below(sheet.lines) * sheet.line_len();
        let mut state = sheet.copy();
        state.bytes[at..at + 2].copy_from_slice(&(sheet.count as u16).to_be_bytes());
        assert_eq!(state.check(), no_form);
        let mut grade = sheet.copy();
        grade.bytes[at + 2 + rng.below(sheet.line_len() - 2)] = sheet.chart[0];
        assert_eq!(grade.check(), no_form);

        // 9 comes before 10.
        let m = usize::from(sheet.chart[3]);
        assert_eq!(check_sheet(&sheet.chart, &sheet.table, sheet.count, m + 1, &[], 9), Err(refused(9, &[])));
    }
}

#[test]
fn tables_of_wrong_form() {
    let no_table = || Err(refused(9, &[]));
    // Two states, one letter: grades 3 and 15, each state leading to the other.
    let rows = [3, 0, 1, 15, 0, 0];
    assert_eq!(check_table(&rows, 2, 1), Ok(()));
    for (count, m) in [(0, 1), (4097, 1), (2, 0), (1, 17), (3, 1), (2, 2), (usize::MAX, usize::MAX)] {
        let wide = vec![0; 4097 * 35];
        let rows: &[u8] = if count == 3 || m == 2 { &rows } else { &wide };
        assert_eq!(check_table(rows, count, m), no_table(), "{count} {m}");
        assert_eq!(grade_word(rows, count, m, &[99]), Err(refused(9, &[])));
        assert_eq!(step(rows, count, m, 0, 99), Err(refused(9, &[])));
        assert_eq!(grade(rows, count, m, 0), Err(refused(9, &[])));
        assert_eq!((c_step(rows, count, m, 0, 0), c_grade(rows, count, m, 0)), (65535, 255));
    }
    assert_eq!(check_table(&[16, 0, 0], 1, 1), no_table());
    assert_eq!(check_table(&[0, 0, 1], 1, 1), no_table());
}

#[test]
fn tables_beside_a_chart_of_other_letters_or_grades() {
    let mut rng = Rng::new(SEED);
    let chart = Drawing::with_sizes(&mut rng, grades::chain(3), 2, 2).bytes();
    let one_state = |grade: u8, m: usize| [vec![grade], vec![0; 2 * m]].concat();
    for (grade, m, fine) in [(2, 2, true), (3, 2, false), (2, 1, false), (2, 3, false)] {
        let table = one_state(grade, m);
        assert_eq!(check_table(&table, 1, m), Ok(()));
        let expected = || if fine { Ok(()) } else { Err(refused(9, &[])) };
        assert_eq!(check_table_beside(&chart, &table, 1, m), expected());
        assert_eq!(cap(&chart, &table, 1, m), expected().map(|()| grade));
        assert_eq!(print_table(&chart, &table, 1, m, &mut [0; 99]), expected().map(|()| 31 + 4 * m));
    }
}

#[test]
fn a_step_looks_at_its_own_row_only_and_after_its_letter() {
    // Row 0 is fine, row 1 has a next state out of range, row 2 a grade above 15.
    let rows = [5, 0, 1, 0, 2, 0, 0, 3, 0, 0, 16, 0, 0, 0, 0];
    assert_eq!(step(&rows, 3, 2, 0, 1), Ok(2));
    assert_eq!(grade(&rows, 3, 2, 0), Ok(5));
    assert_eq!(step(&rows, 3, 2, 0, 2), Err(refused(8, &[0])));
    for state in [1, 2] {
        assert_eq!(step(&rows, 3, 2, state, 1), Err(refused(9, &[])));
        assert_eq!(step(&rows, 3, 2, state, 2), Err(refused(8, &[0])));
        assert_eq!(grade(&rows, 3, 2, state), Err(refused(9, &[])));
        assert_eq!(c_step(&rows, 3, 2, state, 2), 65534);
    }
    assert_eq!(step(&rows, 3, 2, 3, 2), Err(refused(9, &[])));
    assert_eq!(grade_word(&rows, 3, 2, &[]), Err(refused(9, &[])));
    assert_eq!(grade_word(&rows[..5], 1, 2, &[]), Err(refused(9, &[])));
    assert_eq!(grade_word(&[7, 0, 0, 0, 0], 1, 2, &[0, 1, 2, 3]), Err(refused(8, &[2])));
}

#[test]
fn printed_tables() {
    for (chart, table, count) in tables_with_charts() {
        let plain = Plain::of(&chart);
        let len = 13 + (9 + 4 * plain.m) * count + 9;
        let mut text = vec![ENTRY; len + SLACK];
        assert_eq!(print_table(&chart, &table, count, plain.m, &mut text), Ok(len));
        assert!(all_are(&text[len..], ENTRY));
        assert_eq!(text[..len], plain_text(&plain, &table, count));
        let mut short = vec![ENTRY; len - 1];
        assert_eq!(print_table(&chart, &[], count, plain.m, &mut short), Err(refused(5, &[])));
        assert_eq!(print_table(&chart, &[], count, plain.m, &mut text), Err(refused(9, &[])));
        assert!(all_are(&short, ENTRY));
    }
}

fn plain_text(plain: &Plain, table: &[u8], count: usize) -> Vec<u8> {
    let row_len = 1 + 2 * plain.m;
    let hex = |bytes: &[u8]| bytes.iter().map(|b| format!("{b:02x}")).collect::<String>();
    let mut text = format!("110003{count:04x}{:02x}\n", plain.m);
    let mut cap = 0;
    for row in table.chunks(row_len) {
        text += &format!("12{row_len:04x}{}\n", hex(row));
        cap = plain.join(cap, usize::from(row[0]));
    }
    text += &format!("130001{cap:02x}\n");
    text.into_bytes()
}

#[test]
fn programs_print_what_the_calls_leave() {
    for drawing in drawings().take(80) {
        let (chart, text) = (drawing.bytes(), drawing.text());
        let plain = Plain::of(&chart);
        let expected = |answer: Result<usize, Refusal>, table: &[u8]| match answer {
            Ok(count) => plain_text(&plain, &table[..count * (1 + 2 * plain.m)], count),
            Err(refusal) => format!("7f0001{:02x}\n", refusal.number).into_bytes(),
        };
        let a = forward(nerode, &chart, 128);
        assert_eq!(answer(Build::Nerode, &text), expected(a.answer, &a.table));
        let b = forward(reduced, &chart, 128);
        assert_eq!(answer(Build::Reduced, &text), expected(b.answer, &b.table));
        let c = smallest(&chart, 128, 64);
        assert_eq!(answer(Build::Brzozowski, &text), expected(c.answer.map(|(count, _)| count), &c.table));
    }
}

#[test]
fn refusal_lines() {
    let mut text = [ENTRY; 10];
    assert_eq!(print_refusal(14, &mut text), Ok(9));
    assert_eq!(&text, b"7f00010e\n\xa5");
    assert_eq!(print_refusal(14, &mut text[..8]), Err(refused(5, &[])));
    assert_eq!(&text, b"7f00010e\n\xa5");
}

#[test]
fn vectors_behind_states() {
    let vectors = [1, 2, 3, 4, 5];
    assert_eq!(vector_at(&vectors, 2, 3, 1), [3, 4]);
    assert!(vector_at(&vectors, 2, 3, 2).is_empty());
    assert!(vector_at(&vectors, 2, 1, 1).is_empty());
    assert!(vector_at(&vectors, 2, usize::MAX, usize::MAX - 1).is_empty());
    assert!(vector_at(&vectors, usize::MAX, 2, 1).is_empty());
    // The part is the caller's own bytes.
    assert!(std::ptr::eq(vector_at(&vectors, 2, 3, 1), &vectors[2..4]));
}
