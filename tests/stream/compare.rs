//! Holds the proved judge of bursts against the plain judge, cut by cut.
//!
//! Each file, fixed, generated, damaged or of arbitrary bytes, comes in bursts of random lengths, some
//! of none; after each burst the answer must be what the plain judge says of the lines whose LF has
//! come, at the end what it says of the whole file, column included, and again when asked again; a
//! burst after that is 23. Lines with bad bytes and CRs also come in bursts that end just before, at and
//! after each of these, 58s with padding in bursts that end at each byte of their last line. Usual
//! files, damaged ones too, come in bursts that end inside runs of data lines; `compare --million` takes these alone,
//! damaged with every byte value, and `compare --million N` one in N of them. The program stops at the first difference (exit 1).

#[path = "../common/mod.rs"]
mod common;
mod damaged;
#[allow(dead_code)]
#[path = "../judge/edges.rs"]
mod edges;
#[allow(dead_code)]
#[path = "../judge/generate.rs"]
mod generate;
#[path = "../judge/judge.rs"]
mod judge;
#[path = "../judge/usual.rs"]
mod usual;

use common::files::{ends, print_lines};
use common::lent::Lent;
use common::uff::{self, Word, LONGEST, SO_FAR, STREAM_LINE, STREAM_NUMBERS};
use edges::{columns, padding};
use generate::Random;
use judge::Reply;
use usual::Share;

/// Generated files, half of them proper and half of them faulty or damaged.
const FILES: usize = 12_000;

/// Strings of bytes that are a file by chance only.
const ARBITRARY: usize = 6_000;

/// Lines of any length, with bad bytes and CRs in any column.
const LONG_LINES: usize = 60_000;

/// Cuts of each file.
const CUTS: usize = 4;

/// Each end must come at least so often, so that the files are known to be of use.
const LEAST: [(usize, u32); 14] = [
    (0, 20_000),
    (1, 4),
    (2, 100),
    (3, 100),
    (4, 100),
    (5, 100),
    (6, 100),
    (7, 100),
    (8, 100),
    (12, 100),
    (13, 100),
    (16, 4),
    (24, 100),
    (25, 100),
];

/// The most columns of a line.
const COLUMNS: usize = 80;

/// Which of a record's numbers says that the end was asked.
const MARK: usize = 11;

/// A burst after the end was asked.
const LATE: Reply = Reply::no_line(23);

/// A record lent to the proved calls.
#[derive(Clone, PartialEq)]
struct Record {
    numbers: Lent<u64>,
    line: Lent<u8>,
}

impl Record {
    fn new() -> Record {
        let mut record = Record { numbers: Lent::new(STREAM_NUMBERS), line: Lent::new(STREAM_LINE) };
        let word = uff::start(record.numbers.places(), record.line.places());
        assert_eq!(word, Word::accepted(0), "a fresh record");
        record
    }

    fn burst(&mut self, bytes: &[u8]) -> Word {
        uff::burst(self.numbers.places(), self.line.places(), bytes)
    }

    fn end(&mut self) -> Word {
        uff::end(self.numbers.places(), self.line.places())
    }

    fn margins_stand(&self) -> bool {
        self.numbers.margins_stand() && self.line.margins_stand()
    }
}

/// The answer after these bytes: 1 past the limit; the refusal of the earliest bad line whose LF has
/// come, which is the refusal of those lines alone at one of them; otherwise how many they are.
fn so_far(bytes: &[u8]) -> Reply {
    if bytes.len() > LONGEST {
        return Reply::no_line(1);
    }
    let past = bytes.iter().rposition(|&b| b == b'\n').map_or(0, |at| at + 1);
    let lines = ends(&bytes[..past]) as u32;
    let found = judge::judge(&bytes[..past]);
    if found.number != 0 && found.place >= 1 && found.place <= lines {
        return found;
    }
    Reply { number: SO_FAR, place: lines, column: 0 }
}

struct Run {
    random: Random,
    cuts: u32,
    bursts: u32,
    /// How often each end came.
    ends: [u32; 26],
    /// Usual files, damaged ones too.
    usual: u32,
}

impl Run {
    fn new() -> Run {
        Run { random: Random::new(0x5EED_0C11_0B57_0127), cuts: 0, bursts: 0, ends: [0; 26], usual: 0 }
    }

    /// The length of the next burst: often short, so that cuts come inside lines and line ends; long in long files.
    fn length(&mut self, left: usize) -> usize {
        if left > 200_000 {
            return self.random.below(100_000);
        }
        let most = match self.random.below(6) {
            0 => 1,
            1 => 3,
            2 => 20,
            3 => 100,
            4 => 700,
            _ => 5_000,
        };
        self.random.below(most + 1).min(left)
    }

    /// One file in bursts of random lengths; some answers on the way are asked for in long files.
    fn take(&mut self, name: &str, file: &[u8]) {
        self.cuts += 1;
        let mut record = Record::new();
        let mut at = 0;
        let mut empty = 0;
        while at < file.len() || empty < 2 {
            let length = self.length(file.len() - at);
            empty += u32::from(length == 0);
            let answer = record.burst(&file[at..at + length]);
            at += length;
            self.bursts += 1;
            if file.len() < 20_000 || self.random.one_in(500) {
                self.hold(name, file, at, "burst", answer, so_far(&file[..at]));
            }
        }
        let whole = judge::judge(file);
        self.ends[whole.number as usize] += 1;
        let mut marked = record.clone();
        marked.numbers.places()[MARK] = 1;
        for ask in ["end", "end asked again"] {
            let answer = record.end();
            self.hold(name, file, at, ask, answer, whole);
            self.hold_record(name, file, at, ask, &record, &marked);
        }
        let answer = record.burst(&file[..file.len().min(9)]);
        self.hold(name, file, at, "burst after the end", answer, LATE);
        self.hold_record(name, file, at, "burst after the end", &record, &marked);
        let answer = record.end();
        self.hold(name, file, at, "end after 23", answer, whole);
    }

    /// One file in bursts that end at these bytes, which do not fall, and a last one.
    fn take_cut(&mut self, name: &str, file: &[u8], ends: &[usize]) {
        self.take_cut_seldom(name, file, ends, 1);
    }

    /// The same, with one answer on the way in so many held against the plain judge's.
    fn take_cut_seldom(&mut self, name: &str, file: &[u8], ends: &[usize], seldom: usize) {
        self.cuts += 1;
        let mut record = Record::new();
        let mut at = 0;
        for (n, &end) in ends.iter().chain([&file.len()]).enumerate() {
            self.bursts += 1;
            let answer = record.burst(&file[at..end]);
            at = end;
            if n % seldom == 0 {
                self.hold(name, file, at, "burst", answer, so_far(&file[..at]));
            }
        }
        let answer = record.end();
        self.hold(name, file, at, "end", answer, judge::judge(file));
    }

    /// One file with bursts that end just before, at and after a byte (from 0), and nowhere else; also two such ends.
    fn take_around(&mut self, name: &str, file: &[u8], byte: usize) {
        let last = (byte + 3).min(file.len());
        for first in byte.saturating_sub(1)..=last {
            for second in first..=last {
                self.take_cut(name, file, &[first, second]);
            }
        }
    }

    /// Lines about as long as a record keeps, with one byte that is not allowed in each column in turn, cut at each byte.
    fn take_long_lines(&mut self) {
        for length in COLUMNS - 1..=COLUMNS + 8 {
            for column in 0..length {
                for (bad, end) in [(b'\t', "\n"), (b'\r', "\r\n"), (0x80, "")] {
                    let mut file = vec![b'x'; length];
                    file[column] = bad;
                    file.extend_from_slice(end.as_bytes());
                    for first in 0..=file.len() {
                        self.take_cut("a long line", &file, &[first]);
                    }
                }
            }
        }
    }

    /// Bad bytes in and around the columns that a line may have, alone and before others; a line's CR or CRs, with its LF
    /// and without; each with bursts that end around the byte, and one byte at a time.
    ///
    /// Tells apart: the column counted from the burst's first byte; a dropped bad byte's column lost, or a later one told;
    /// a CR before LF told, and one told late that does not stand before LF.
    fn take_columns(&mut self) {
        for (name, file, column) in columns::bad_bytes() {
            self.take_around(&name, &file, column - 1);
            self.take_cut(&name, &file, &(0..file.len()).collect::<Vec<_>>());
            // After a line that has ended, and with a good line after it.
            let inside = [b"\n", &*file, b"\n\n"].concat();
            self.take_around(&name, &inside, column);
        }
        for (name, file, reply) in columns::carriage_returns() {
            let first = file.iter().position(|&b| b == b'\r').unwrap_or(file.len());
            self.take_around(&name, &file, first);
            self.take_cut(&name, &file, &(0..file.len()).collect::<Vec<_>>());
            assert_eq!(judge::judge(&file), reply, "{name}");
        }
        for (name, file, column) in columns::far_bytes() {
            for end in column - 1..=(column + 1).min(file.len()) {
                self.take_cut(name, &file, &[end]);
            }
            let mut ends = [1, 82, 84, column - 1, column];
            ends.sort_unstable();
            self.take_cut(name, &file, &ends);
        }
    }

    /// A 58 with its remainder filled, wholly and in part, in bursts that end at each byte of its last data line, and
    /// one byte at a time.
    fn take_padding(&mut self) {
        for padded in padding::remainders().into_iter().chain(padding::second_lines()) {
            let file = &padded.file;
            let begins = |line: usize| file.split_inclusive(|&b| b == b'\n').take(line - 1).map(<[u8]>::len).sum::<usize>();
            let last = begins(padded.line)..=begins(padded.line + 1);
            for cut in last.clone() {
                self.take_cut(&padded.name, file, &[cut]);
            }
            self.take_cut(&padded.name, file, &last.collect::<Vec<_>>());
            assert_eq!(judge::judge(file), padded.reply, "{}", padded.name);
        }
    }

    /// One line of any length, with bad bytes and CRs in any column, in bursts of a few bytes, and after a line.
    fn take_any_lines(&mut self, random: &mut Random) {
        for _ in 0..LONG_LINES {
            let line = generate::long_line(random);
            self.take("a line of any length", &line);
            let cut = random.below(line.len() + 1);
            self.take_cut("a line of any length", &line, &[cut]);
        }
    }

    fn hold(&self, name: &str, file: &[u8], at: usize, call: &str, proved: Word, plain: Reply) {
        if proved != Word::from(plain) {
            let what = format!("{call}\nplain:  {:?}\nproved: {proved:?}", Word::from(plain));
            self.fail(name, file, at, &what);
        }
    }

    /// The record is as it must be, and its margins are as they were.
    fn hold_record(&self, name: &str, file: &[u8], at: usize, call: &str, record: &Record, due: &Record) {
        if record != due || !record.margins_stand() {
            self.fail(name, file, at, &format!("{call}: the record, or a margin, was touched"));
        }
    }

    fn fail(&self, name: &str, file: &[u8], at: usize, what: &str) -> ! {
        println!("DIFFERENCE on: {name} ({} bytes), after {at} bytes in bursts", file.len());
        print_lines(file, 200);
        println!("{what}");
        std::process::exit(1);
    }
}

/// Records that no bursts grew: every call ends, and touches nothing but the record; marked as asked for the end, not that either.
fn made_up(random: &mut Random, count: usize) {
    for _ in 0..count {
        let mut record = Record::new();
        for number in record.numbers.places() {
            *number = match random.below(4) {
                0 => random.next(),
                1 => random.below(200) as u64,
                2 => u64::MAX - random.below(3) as u64,
                _ => (LONGEST - 2 + random.below(6)) as u64,
            };
        }
        let mark = if random.one_in(8) { 1 + random.below(3) as u64 } else { 0 };
        record.numbers.places()[MARK] = mark;
        for byte in record.line.places() {
            *byte = random.next() as u8;
        }
        for _ in 0..random.below(5) {
            let bytes: Vec<u8> = (0..random.below(300)).map(|_| if random.one_in(9) { 10 } else { random.next() as u8 }).collect();
            let before = record.clone();
            let answer = record.burst(&bytes);
            let late = answer == LATE.into() && record == before;
            assert_eq!(late, mark > 0, "a made-up record: 23 is for the end asked before, and touches nothing");
        }
        record.end();
        assert!(record.margins_stand(), "a made-up record: a margin was touched");
    }
}

/// A buffer too short is 20, and nothing is touched.
fn too_short() {
    const SHORT: Reply = Reply::no_line(20);
    let rooms = [
        (0, STREAM_LINE),
        (STREAM_NUMBERS - 1, STREAM_LINE),
        (STREAM_NUMBERS, 0),
        (STREAM_NUMBERS, STREAM_LINE - 1),
    ];
    for (numbers_len, line_len) in rooms {
        let mut record = Record::new();
        let before = record.clone();
        let numbers = &mut record.numbers.places()[..numbers_len];
        let line = &mut record.line.places()[..line_len];
        let words = [uff::start(numbers, line), uff::burst(numbers, line, b"x\n"), uff::end(numbers, line)];
        assert_eq!(words, [SHORT.into(); 3]);
        assert!(record == before, "a refused call touched the record");
    }
}

/// Generated files, half of them proper and half of them faulty or damaged, and arbitrary bytes.
fn take_generated(run: &mut Run, random: &mut Random) {
    for n in 0..FILES + ARBITRARY {
        let (name, file) = match n {
            FILES.. => ("arbitrary bytes", generate::arbitrary(random)),
            _ => ("generated file", generated(random, n % 4)),
        };
        for _ in 0..CUTS {
            run.take(name, &file);
        }
    }
}

/// A file that is faulty (1), damaged (3) or proper.
fn generated(random: &mut Random, way: usize) -> Vec<u8> {
    if way == 1 {
        return generate::faulty(random, 8);
    }
    let mut file = generate::proper(random).file;
    if way == 3 {
        generate::damage(random, &mut file);
    }
    file
}

/// Prints how often each end came and ends the program if one came too seldom.
fn check_outcomes(run: &Run) {
    for (number, came) in run.ends.iter().enumerate().filter(|(_, &came)| came > 0) {
        println!("{number:7} {came:8}");
    }
    for (number, least) in LEAST {
        assert!(run.ends[number] >= least, "{number} came only {} times", run.ends[number]);
    }
}

/// So many usual files, most of them damaged, must be among those of the gate.
const LEAST_USUAL: u32 = 20_000;

/// Usual files alone, damaged with every byte value in every column.
fn million(share: &mut Share) {
    let mut run = Run::new();
    run.take_usual(share);
    println!("compared {} usual files, {} cuts, {} bursts", run.usual, run.cuts, run.bursts);
}

fn main() {
    if let Some(mut share) = Share::by_hand() {
        return million(&mut share);
    }
    let mut run = Run::new();
    run.take_columns();
    run.take_padding();
    for edge in edges::edges() {
        for _ in 0..CUTS {
            run.take(&edge.name, &edge.file);
        }
    }
    let mut random = Random::new(0x5EED_0F58_0C11_0151);
    take_generated(&mut run, &mut random);
    run.take_long_lines();
    run.take_any_lines(&mut random);
    too_short();
    made_up(&mut random, 20_000);
    check_outcomes(&run);
    run.take_usual(&mut Share::of_gate(40, false));
    println!("{} usual files, damaged ones too", run.usual);
    assert!(run.usual >= LEAST_USUAL, "too few usual files");
    println!("compared {} cuts, {} bursts", run.cuts, run.bursts);
}
