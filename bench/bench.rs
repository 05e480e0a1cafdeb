//! Times the proved calls beside plain Rust that does the same, and the reading of all values also
//! beside C's strtod on fixed columns and gfortran's formatted READ, which judge nothing. Built with the calls of
//! an earlier archive (`make bench BEFORE=ARCHIVE`), those are timed beside the present ones in each round.
//!
//! Each file is built once, and each lent buffer is laid out and touched once, before the clock
//! starts. In every round each side does the whole work, one side after the other; the best round
//! counts. Nothing is cleared in between: the file may stand in the processor's caches as far as it
//! fits. The plain Rust answers in a Vec of its own, made inside the clock. After the rounds the answers
//! of all sides are held against each other, f64 by their bits.

mod calls;
#[path = "../tests/common/mod.rs"]
mod common;
#[allow(dead_code)]
#[path = "../tests/field/field.rs"]
mod field;
#[path = "../tests/judge/judge.rs"]
mod judge;
#[allow(dead_code)]
#[path = "../tests/reader/reader.rs"]
mod reader;
mod sets;

use calls::ARCHIVES;
use common::files;
use common::uff::{self, Row, Word, LONGEST, ROW_NUMBERS, SETS};
use std::hint::black_box;
use std::time::Instant;

const ROUNDS: usize = 9;

/// A side of a comparison: what is timed.
type Side<'a> = Box<dyn FnMut() + 'a>;

/// Million bytes a second of the best round of each side, each of which goes through the file once.
/// Small files are taken several times a round, so that the clock's step does not matter.
fn best(file: &[u8], mut sides: Vec<Side>) -> Vec<f64> {
    let times = (LONGEST / 4 / file.len()).max(1);
    let mut best = vec![f64::INFINITY; sides.len()];
    for _ in 0..ROUNDS {
        for (side, best) in sides.iter_mut().zip(&mut best) {
            let start = Instant::now();
            for _ in 0..times {
                side();
            }
            *best = best.min(start.elapsed().as_secs_f64());
        }
    }
    best.iter().map(|seconds| (file.len() * times) as f64 / 1e6 / seconds).collect()
}

/// Ends the program unless the sides agree.
fn check(name: &str, same: bool) {
    if !same {
        println!("{name}: the answers differ, or the file is refused");
        std::process::exit(1);
    }
}

/// Prints a table's heading: its first column, bytes, the speed of each side, and the ratio of the first to each other.
fn heading(title: &str, first: &str, others: &[&str]) {
    let sides: Vec<&str> = ARCHIVES.iter().map(|a| a.name).chain(others.iter().copied()).collect();
    println!("\n{title}");
    print!("{first:<38} {:>10}", "bytes");
    for side in &sides {
        print!(" {:>17}", format!("{side} MB/s"));
    }
    for other in &sides[1..] {
        print!(" {:>17}", format!("{}/{other}", sides[0]));
    }
    println!();
}

/// Prints a row: speeds in MB/s and the ratios of the first to each of the others; a bar for a side that was not timed.
fn row(name: &str, bytes: usize, speeds: &[f64]) {
    let shown = |x: f64, places: usize| if x.is_nan() { "-".to_string() } else { format!("{x:.places$}") };
    print!("{name:<38} {bytes:>10}");
    for &speed in speeds {
        print!(" {:>17}", shown(speed, 0));
    }
    for other in &speeds[1..] {
        print!(" {:>17}", shown(speeds[0] / other, 2));
    }
    println!();
}

// Judging --------------------------------------------------------------------------------------

/// What memory allows: the bytes summed up, eight at a time, and nothing asked of them.
fn sum(file: &[u8]) -> u64 {
    file.as_chunks::<8>().0.iter().fold(0, |sum: u64, &word| sum.wrapping_add(u64::from_le_bytes(word)))
}

fn judge_row(name: &str, file: &[u8]) {
    let mut words = [Word::accepted(0); ARCHIVES.len()];
    let mut plain = judge::judge(b"");
    let mut sides: Vec<Side> = Vec::new();
    for (archive, word) in ARCHIVES.iter().zip(&mut words) {
        sides.push(Box::new(|| *word = black_box((archive.judge)(black_box(file)))));
    }
    sides.push(Box::new(|| plain = black_box(judge::judge(black_box(file)))));
    sides.push(Box::new(|| {
        black_box(sum(black_box(file)));
    }));
    let mut speeds = best(file, sides);
    let good = Word::accepted(plain.place);
    check(name, plain.number == 0 && words[0] == good);
    for (speed, word) in speeds.iter_mut().zip(words) {
        // An earlier archive may not take the file yet.
        if word != good {
            *speed = f64::NAN;
        }
    }
    row(name, file.len(), &speeds);
}

fn judge_table() {
    heading("the judge, beside a plain one and beside a sum over the bytes", "file", &["Rust", "sum"]);
    judge_row("case 1, 16 MB", &sets::many(1, LONGEST));
    judge_row("case 5, 16 MB", &sets::many(5, LONGEST));
    judge_row("case 6, 16 MB", &sets::many(6, LONGEST));
    judge_row("case 8, 16 MB", &sets::many(8, LONGEST));
    judge_row("case 1, one set of 65,536 values", &sets::set(1, 65_536));
    judge_row("the same, signs and exponents vary", &sets::signed(1, 65_536));
    judge_row("case 1, D in every exponent, 16 MB", &sets::lettered(sets::many(1, LONGEST), b'D'));
    judge_row("case 1, CR LF, 16 MB", &sets::ended(false, b"\r\n"));
    judge_row("case 1, 80 columns, 16 MB", &sets::ended(true, b"\n"));
    judge_row("case 1, CR LF, 80 columns, 16 MB", &sets::ended(true, b"\r\n"));
    judge_row("4,096 sets 58 of one value", &sets::tiny());
    judge_row("4,096 plain sets without lines", &files::empty_sets(SETS));
    judge_row("4,096 sets 82 of one entry", &sets::traces());
    judge_row("case 1, every line odd, 16 MB", &sets::odd(sets::many(1, LONGEST), 1));
    judge_row("case 1, each tenth line odd, 16 MB", &sets::odd(sets::many(1, LONGEST), 10));
    judge_row("case 1, no letters, 16 MB", &sets::without_letters(sets::many(1, LONGEST)));
    judge_row("case 5, no letters, 16 MB", &sets::without_letters(sets::many(5, LONGEST)));
    judge_row("case 1, 1 MB", &sets::many(1, LONGEST / 16));
    judge_row("case 1, 4 MB", &sets::many(1, LONGEST / 4));
    judge_row("case 1, 16 MB again", &sets::many(1, LONGEST));
}

// Listing --------------------------------------------------------------------------------------

/// The rows of an earlier archive may have fewer numbers: only those of the present one are looked at.
fn list_row(name: &str, file: &[u8]) {
    let mut words = [Word::accepted(0); ARCHIVES.len()];
    let mut proved = [(); ARCHIVES.len()].map(|()| vec![1; SETS * ROW_NUMBERS]);
    let mut plain = Vec::new();
    let mut sides: Vec<Side> = Vec::new();
    for ((archive, word), rows) in ARCHIVES.iter().zip(&mut words).zip(&mut proved) {
        sides.push(Box::new(move || *word = black_box((archive.list)(black_box(file), rows))));
    }
    sides.push(Box::new(|| plain = black_box(reader::list(black_box(file)).unwrap_or_default())));
    let speeds = best(file, sides);
    check(name, !plain.is_empty() && words == [Word::accepted(plain.len() as u32); ARCHIVES.len()]);
    check(name, proved[0][..plain.len() * ROW_NUMBERS] == plain.concat());
    row(name, file.len(), &speeds);
}

fn list_table() {
    heading("the lister", "file", &["Rust"]);
    list_row("4,096 plain sets without lines", &files::empty_sets(SETS));
    list_row("4,096 sets 82 of one entry", &sets::traces());
    list_row("4,096 sets 58 of one value", &sets::tiny());
    list_row("case 1, 16 MB", &sets::many(1, LONGEST));
}

// Reading all values ---------------------------------------------------------------------------

fn same_bits(a: &[f64], b: &[f64]) -> bool {
    a.len() == b.len() && a.iter().zip(b).all(|(x, y)| x.to_bits() == y.to_bits())
}

/// The file judged and all values of one of its sets read: what each side answered.
struct Read {
    words: [Word; ARCHIVES.len()],
    proved: [Vec<f64>; ARCHIVES.len()],
    plain: Vec<f64>,
}

impl Read {
    fn new(count: usize) -> Read {
        let proved = [(); ARCHIVES.len()].map(|()| vec![1.0; count]);
        Read { words: [Word::accepted(0); ARCHIVES.len()], proved, plain: Vec::new() }
    }

    /// The archives and the plain Rust.
    fn sides<'a>(&'a mut self, file: &'a [u8], set: u32) -> Vec<Side<'a>> {
        let mut sides: Vec<Side> = Vec::new();
        for ((archive, word), out) in ARCHIVES.iter().zip(&mut self.words).zip(&mut self.proved) {
            sides.push(Box::new(move || *word = black_box((archive.values)(black_box(file), set, out))));
        }
        let plain = &mut self.plain;
        sides.push(Box::new(move || *plain = black_box(reader::values(black_box(file), set).unwrap_or_default())));
        sides
    }

    fn is(&self, due: &[f64]) -> bool {
        self.words == [Word::accepted(due.len() as u32); ARCHIVES.len()]
            && self.proved.iter().all(|proved| same_bits(proved, due))
            && same_bits(&self.plain, due)
    }
}

/// All values of a file's last set: proved and plain Rust.
fn values_row(name: &str, file: &[u8]) {
    let set = calls::list(file).len() as u32;
    let due = reader::values(file, set).unwrap_or_default();
    let name = &format!("{name}, set {set}, {} values", due.len());
    let mut read = Read::new(due.len());
    let speeds = best(file, read.sides(file, set));
    check(name, read.is(&due));
    row(name, file.len(), &speeds);
}

/// The same for a file of one set, and its values read without a judge by strtod and gfortran's READ.
fn columns_row(name: &str, case: usize, file: &[u8]) {
    let data = calls::Data::new(file, calls::list(file)[0], case);
    let due = reader::values(file, 1).unwrap_or_default();
    let mut read = Read::new(due.len());
    let [mut strtod, mut fortran] = [(); 2].map(|()| vec![1.0; due.len()]);
    let mut sides = read.sides(file, 1);
    sides.push(Box::new(|| black_box(&data).strtod(black_box(&mut strtod))));
    if calls::FORTRAN {
        sides.push(Box::new(|| black_box(&data).fortran(black_box(&mut fortran))));
    }
    let speeds = best(file, sides);
    check(name, read.is(&due));
    check(name, same_bits(&strtod, &due) && (!calls::FORTRAN || same_bits(&fortran, &due)));
    row(name, file.len(), &speeds);
}

/// All values of all sets: the file listed once, then each set read from its own bytes. The rows of an earlier archive may have fewer
/// numbers, so the sets' places are those of the present one.
fn all_values_row(name: &str, file: &[u8]) {
    let rows = calls::list(file);
    let due: Vec<Vec<f64>> = rows.iter().map(|row| reader::values(own(file, row), 1).unwrap_or_default()).collect();
    let most = due.iter().map(Vec::len).max().unwrap_or(0);
    let numbers: usize = due.iter().map(Vec::len).sum();
    let mut read = [0; ARCHIVES.len()];
    let mut sides: Vec<Side> = Vec::new();
    for (archive, read) in ARCHIVES.iter().zip(&mut read) {
        let (mut listed, mut out, rows) = (vec![1; SETS * ROW_NUMBERS], vec![1.0; most], &rows);
        sides.push(Box::new(move || {
            black_box((archive.list)(black_box(file), &mut listed));
            *read = rows.iter().map(|row| (archive.values)(own(file, row), 1, &mut out).place() as usize).sum();
        }));
    }
    let mut plain = 0;
    sides.push(Box::new(|| {
        let listed = black_box(reader::list(black_box(file)).unwrap_or_default());
        let values = |row: &Row| black_box(reader::values(own(file, row), 1).unwrap_or_default()).len();
        plain = listed.iter().map(values).sum();
    }));
    let speeds = best(file, sides);
    check(name, numbers > 0 && plain == numbers && read == [numbers; ARCHIVES.len()]);
    let mut out = vec![1.0; most];
    for (row, due) in rows.iter().zip(&due) {
        uff::values(own(file, row), 1, &mut out);
        check(name, same_bits(&out[..due.len()], due));
    }
    row(&format!("{name}, {} sets", rows.len()), file.len(), &speeds);
}

/// The bytes of the set that stands in this row.
fn own<'a>(file: &'a [u8], row: &Row) -> &'a [u8] {
    &file[row[3] as usize..row[4] as usize]
}

fn values_tables() {
    let others = ["Rust", "strtod", "gfortran"];
    let title = "the judge and all values of a file's one set; strtod and gfortran judge nothing";
    heading(title, "file", &others[..if calls::FORTRAN { 3 } else { 2 }]);
    columns_row("case 1, 65,536 values", 1, &sets::set(1, 65_536));
    columns_row("the same, signs and exponents vary", 1, &sets::signed(1, 65_536));
    columns_row("case 2, 65,536 values", 2, &sets::set(2, 65_536));
    columns_row("the same, signs and exponents vary", 2, &sets::signed(2, 65_536));
    columns_row("case 5, 65,536 values", 5, &sets::set(5, 65_536));
    columns_row("the same, signs and exponents vary", 5, &sets::signed(5, 65_536));
    columns_row("case 8, 65,536 values", 8, &sets::set(8, 65_536));
    columns_row("the same, signs and exponents vary", 8, &sets::signed(8, 65_536));
    columns_row("case 1, every line odd", 1, &sets::odd(sets::set(1, 65_536), 1));
    columns_row("case 5, every line odd", 5, &sets::odd(sets::set(5, 65_536), 1));

    heading("the judge and all values of the last of many sets", "file", &["Rust"]);
    values_row("case 1, 16 MB", &sets::many(1, LONGEST));
    values_row("case 5, 16 MB", &sets::many(5, LONGEST));

    heading("all values of all sets, each by its own bytes", "file", &["Rust"]);
    all_values_row("case 1, 16 MB", &sets::many(1, LONGEST));
    all_values_row("case 5, 16 MB", &sets::many(5, LONGEST));
    all_values_row("4,096 sets of one value", &sets::tiny());
}

// Rewriting ------------------------------------------------------------------------------------

fn rewrite_row(name: &str, file: &[u8]) {
    let mut words = [Word::accepted(0); ARCHIVES.len()];
    let mut proved = [(); ARCHIVES.len()].map(|()| vec![b'x'; file.len()]);
    let mut plain = Vec::new();
    let mut sides: Vec<Side> = Vec::new();
    for ((archive, word), out) in ARCHIVES.iter().zip(&mut words).zip(&mut proved) {
        sides.push(Box::new(move || *word = black_box((archive.rewrite)(black_box(file), out))));
    }
    sides.push(Box::new(|| plain = black_box(reader::rewrite(black_box(file)).unwrap_or_default())));
    let speeds = best(file, sides);
    check(name, !plain.is_empty() && words == [Word::accepted(plain.len() as u32); ARCHIVES.len()]);
    check(name, proved.iter().all(|out| out[..plain.len()] == plain));
    row(name, file.len(), &speeds);
}

fn rewrite_table() {
    heading("the rewriter", "file", &["Rust"]);
    rewrite_row("case 1, 16 MB", &sets::many(1, LONGEST));
    rewrite_row("case 5, 16 MB", &sets::many(5, LONGEST));
    rewrite_row("case 1, one set of 65,536 values", &sets::set(1, 65_536));
    rewrite_row("4,096 plain sets without lines", &files::empty_sets(SETS));
    rewrite_row("4,096 sets 82 of one entry", &sets::traces());
    rewrite_row("case 1, CR LF, 80 columns, 16 MB", &sets::ended(true, b"\r\n"));
}

// Bursts ---------------------------------------------------------------------------------------

fn bursts_row(name: &str, file: &[u8], length: usize) {
    let name = format!("{length}, {name}");
    let mut ended = [Word::accepted(0); ARCHIVES.len()];
    let mut whole = Word::accepted(0);
    let mut plain = judge::judge(b"");
    let mut sides: Vec<Side> = Vec::new();
    for (archive, word) in ARCHIVES.iter().zip(&mut ended) {
        sides.push(Box::new(move || *word = black_box((archive.in_bursts)(black_box(file), length))));
    }
    sides.push(Box::new(|| whole = black_box(uff::judge(black_box(file)))));
    sides.push(Box::new(|| plain = black_box(judge::judge(black_box(file)))));
    let speeds = best(file, sides);
    check(&name, plain.number == 0 && whole == Word::accepted(plain.place) && ended == [whole; ARCHIVES.len()]);
    row(&name, file.len(), &speeds);
}

fn bursts_table() {
    let title = "a file in bursts beside the two judges of the whole file, proved and Rust";
    heading(title, "bursts of", &["whole", "Rust"]);
    for (name, file) in [("case 1", sets::many(1, LONGEST / 4)), ("case 5", sets::many(5, LONGEST / 4))] {
        for length in [1, 64, 512, 4_096] {
            bursts_row(name, &file, length);
        }
    }
}

// A line by a FORMAT ---------------------------------------------------------------------------

/// One question on a full line, four reals in 80 columns, the last of them asked for: nanoseconds of the best round. An
/// earlier archive may not have the call, so it is not asked.
fn field_line() {
    const QUESTIONS: u32 = 100_000;
    let (format, line) = (b"4E20.12", b"  1.000000000000E-01".repeat(4));
    let mut out = [0; uff::NUMBER_BYTES];
    let (mut word, mut plain) = (Word::accepted(0), Err(judge::Reply::no_line(18)));
    let mut sides: Vec<Side> = vec![
        Box::new(|| word = black_box(uff::field(black_box(format), black_box(&line), 3, &mut out))),
        Box::new(|| plain = black_box(field::ask(black_box(format), black_box(&line), 3))),
    ];
    let mut best = [f64::INFINITY; 2];
    for _ in 0..ROUNDS {
        for (side, best) in sides.iter_mut().zip(&mut best) {
            let start = Instant::now();
            (0..QUESTIONS).for_each(|_| side());
            *best = best.min(start.elapsed().as_nanos() as f64 / f64::from(QUESTIONS));
        }
    }
    drop(sides);
    let due = plain.expect("a real");
    check("a line by a FORMAT", word == Word::accepted(due.kind()) && out.to_vec() == due.bytes());
    let [proved, rust] = best;
    println!("\na question by a FORMAT on a full line (4E20.12, the last field)");
    println!("proved {proved:.0} ns, Rust {rust:.0} ns, Rust/proved {:.2}", rust / proved);
}

fn main() {
    println!("best of {ROUNDS} rounds; files built once, caches not cleared; MB are 1,000,000 bytes of the file");
    if !calls::FORTRAN {
        println!("built without gfortran");
    }
    judge_table();
    list_table();
    values_tables();
    rewrite_table();
    bursts_table();
    field_line();
}
