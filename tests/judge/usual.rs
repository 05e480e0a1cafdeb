//! Files in the usual spelling (blank, blank or minus, digit, point, digits, letter, sign, two digits), and the same
//! damaged where a judge that takes whole lines at once decides.
//!
//! Of a data line of every case, of every header line, number line and delimiter each column becomes other bytes, or
//! is lost, or one is put before it; lines end otherwise, are filled otherwise, come twice or not at all; the file
//! ends at each byte. What is damaged is the first, second, a middle and the last full line, the last data line (full,
//! in part, with padding) and the delimiter after it. Nothing here is judged: a taker asks both sides.

use crate::common::files::{ends, function, lines};
use crate::generate::{self, Random, CASES};
use crate::judge::{judge, Reply};
use std::fmt::Arguments;
use std::ops::Range;

/// Takes a file, by what is damaged in it, and the byte (from 0) where the damage begins.
pub type Take<'a> = dyn FnMut(Arguments, &[u8], usize) + 'a;

/// Line ends, and the columns up to which blanks fill a line.
#[derive(Clone, Copy, Debug)]
pub struct Writing {
    pub end: &'static str,
    pub columns: usize,
}

const fn writing(end: &'static str, columns: usize) -> Writing {
    Writing { end, columns }
}

/// LF and CR LF, not filled and filled; and filled in part.
pub const WRITINGS: [Writing; 6] =
    [writing("\n", 0), writing("\r\n", 0), writing("\n", 80), writing("\r\n", 80), writing("\n", 79), writing("\r\n", 79)];

/// The first of them, which every file is written in.
pub const PLAIN_WRITINGS: usize = 4;

/// The letters of an exponent.
const LETTERS: [char; 4] = ['E', 'D', 'e', 'd'];

/// What stands on the last data line.
#[derive(Clone, Copy, Debug, PartialEq)]
pub enum Last {
    Full,
    Part,
    Padded,
}

const LASTS: [Last; 3] = [Last::Full, Last::Part, Last::Padded];

/// Bytes that usual lines hold, those next to them, and others that a table may let pass.
const NEAR: &[u8] = b"\0\t\n\r\x1f !*+,-./0159:CDEFcdef~\x7f\x80\xa0\xad\xb0\xff";

/// Bytes that are put before a column.
const PUT: &[u8] = b" 0.-Ex\r\n\t";

/// Line ends, good ones and others.
const ENDS: [&str; 14] =
    ["\n", "\r\n", " \n", " \r\n", "  \n", "  \r\n", "\r\r\n", "\r \n", "\n\n", "\r\n\n", "\r", "", "\x1f\n", "0\n"];

/// How many of the damaged files are taken.
pub struct Share {
    /// Every byte value, not just those near the usual ones.
    every_byte: bool,
    /// One file in so many, but those that are sure.
    one_in: usize,
    sure: bool,
    random: Random,
}

impl Share {
    /// Every byte value in every column; one of these files in so many, if that is said after `--million`.
    pub fn by_hand() -> Option<Share> {
        let mut arguments = std::env::args().skip_while(|argument| argument != "--million");
        arguments.next()?;
        let one_in = arguments.next().map_or(1, |text| text.parse().expect("one file in so many"));
        Some(Share { every_byte: true, one_in, sure: false, random: Random::new(0x5EED_0022_0100_0000) })
    }

    /// The bytes near the usual ones: in each column of a middle line of each case, and of all else one in so many.
    pub fn of_gate(one_in: usize, sure: bool) -> Share {
        Share { every_byte: false, one_in, sure, random: Random::new(0x5EED_0022_0000_6A7E) }
    }

    fn picks(&mut self, sure: bool) -> bool {
        (self.sure && sure) || self.random.one_in(self.one_in)
    }

    fn picks_byte(&mut self, byte: u8, sure: bool) -> bool {
        (self.every_byte || NEAR.contains(&byte)) && self.picks(sure)
    }

    /// Is a file with another number in one of its fields taken? All are by hand.
    #[allow(dead_code)]
    pub fn picks_number(&mut self) -> bool {
        self.every_byte || self.random.one_in(10)
    }

    /// So many by hand, or fewer.
    pub fn count(&self, by_hand: usize, fewer: usize) -> usize {
        if self.every_byte {
            by_hand
        } else {
            fewer
        }
    }
}

/// A file in the usual spelling.
pub struct Usual {
    pub name: String,
    pub file: Vec<u8>,
    /// Where each line begins, and the file's length.
    starts: Vec<usize>,
    /// The lines (from 0) from the first data line to the last one of the set that is damaged.
    pub data: Range<usize>,
}

impl Usual {
    /// Lines without ends, the data lines among them, in a writing.
    fn new(name: String, lines: &[Vec<u8>], data: Range<usize>, Writing { end, columns }: Writing) -> Usual {
        let (mut file, mut starts) = (Vec::new(), vec![0]);
        for line in lines {
            file.extend_from_slice(line);
            file.resize(file.len() + columns.saturating_sub(line.len()), b' ');
            file.extend_from_slice(end.as_bytes());
            starts.push(file.len());
        }
        hold_good(&name, &file);
        Usual { name, file, starts, data }
    }

    /// The bytes of a line, its end too.
    pub fn bytes_of(&self, line: usize) -> Range<usize> {
        self.starts[line]..self.starts[line + 1]
    }

    fn line(&self, line: usize) -> &[u8] {
        &self.file[self.bytes_of(line)]
    }

    fn lines(&self) -> usize {
        self.starts.len() - 1
    }

    /// The file with other bytes for a line.
    fn with(&self, line: usize, bytes: &[u8]) -> Vec<u8> {
        let Range { start, end } = self.bytes_of(line);
        [&self.file[..start], bytes, &self.file[end..]].concat()
    }

    /// The lines that are damaged: first, second, middle and last full, the last data line, and the delimiter.
    fn places(&self) -> [usize; 6] {
        let Range { start, end } = self.data;
        [start, start + 1, start + self.data.len() / 2, end - 2, end - 1, end]
    }
}

/// A file that is not damaged is accepted at its last line.
fn hold_good(name: &str, file: &[u8]) {
    assert_eq!(judge(file), Reply::accepted(ends(file) as u32), "{name}");
}

/// A number in the usual spelling: in the exact path, or now and then any.
fn number(random: &mut Random, width: usize, letter: char, any: bool) -> String {
    let decimals = width - 8;
    let digits = random.next() % 10u64.pow(decimals as u32 + 1);
    let digits = format!("{digits:0width$}", width = decimals + 1);
    let sign = if random.one_in(3) { '-' } else { ' ' };
    let exponent = match random.below(40) {
        0 if any => random.below(199) as i32 - 99,
        0..=5 => decimals as i32 + random.below(45) as i32 - 22,
        _ => random.below(9) as i32 - 4,
    };
    let exponent_sign = if exponent < 0 { '-' } else { '+' };
    format!(" {sign}{}.{}{letter}{exponent_sign}{:02}", &digits[..1], &digits[1..], exponent.abs())
}

/// A 58 of a case (from 1) with so many full data lines and a last one, without line ends; its numbers are usual.
fn set(random: &mut Random, case: usize, full: usize, last: Last, letter: char, any: bool) -> Vec<Vec<u8>> {
    let (_, _, widths, numbers) = CASES[case - 1];
    let fields = widths.len();
    let here = if last == Last::Full { fields } else { numbers.min(fields) };
    let shown = if last == Last::Part { here } else { fields };
    let count = (full * fields + here) / numbers;
    let mut lines = lines(&function(case, count, count));
    let first = 13;
    for n in 0..=full {
        let fields = if n < full { fields } else { shown };
        lines[first + n] = widths[..fields].iter().flat_map(|&width| number(random, width, letter, any).into_bytes()).collect();
    }
    lines
}

/// A usual file: the set of a case, alone or between tiny sets. Few sets have a number outside the exact path.
fn usual(random: &mut Random, case: usize, full: usize, last: Last, writing: Writing) -> Usual {
    let any = random.one_in(8);
    usual_with(random, case, full, last, writing, any)
}

/// The same with every number in the exact path.
#[allow(dead_code)]
pub fn usual_in_path(random: &mut Random, case: usize, full: usize, last: Last, writing: Writing) -> Usual {
    usual_with(random, case, full, last, writing, false)
}

fn usual_with(random: &mut Random, case: usize, full: usize, last: Last, writing: Writing, any: bool) -> Usual {
    let letter = LETTERS[random.below(4)];
    let set = set(random, case, full, last, letter, any);
    let before = if random.one_in(3) { tiny_set(random) } else { Vec::new() };
    let after = if random.one_in(3) { Vec::new() } else { tiny_set(random) };
    let data = before.len() + 13..before.len() + set.len() - 1;
    let name = format!("case {case}, {full} full lines and {last:?}, {letter}, {writing:?}");
    Usual::new(name, &[before, set, after].concat(), data, writing)
}

/// A 58 of one to three values.
fn tiny_set(random: &mut Random) -> Vec<Vec<u8>> {
    let (case, count) = (1 + random.below(8), 1 + random.below(3));
    lines(&function(case, count, count))
}

/// Header lines that other captures have: 58's lines 6, 7 and 8, the 7 for one value of case 1.
const HEADERS: [(&str, &str, &str); 3] = [
    (
        "    1         1    0         0 NONE               7   3 NONE               0   0",
        "         2         1         1  0.00000E+00  1.00000E-03  0.00000E+00",
        "        17    0    0    0 Time                 s",
    ),
    (
        "   12       101    3         7 BEARING_DE   1000001  -6 PUMP         -200000   6",
        "         2         1         1 -1.25000E+01  9.76563E-04 -0.00000E+00",
        "        18    1   -2    0 Frequency            Hz",
    ),
    (
        "   28-123456789    02147483647           2147483647  -1 0123456789-1234567890000",
        "         2         1         1  9.99999D+99 -1.00000D-99  1.00000D+00",
        "         0    0    0    0",
    ),
];

/// Tiny sets: a plain one, a 58 with these header lines, another 58, a plain one. The 58's lines are those from 4.
fn tiny_sets((line_6, line_7, axis): (&str, &str, &str), writing: Writing) -> Usual {
    let mut set = lines(&function(1, 1, 1));
    set[7] = line_6.into();
    set[8] = line_7.into();
    for line in &mut set[9..13] {
        *line = axis.into();
    }
    let plain = |number: &str| ["    -1", number, "NONE", "    -1"].map(|line| line.as_bytes().to_vec()).to_vec();
    let after = [lines(&function(8, 2, 2)), plain("999999")].concat();
    let all = [plain("    15"), set, after].concat();
    Usual::new(format!("tiny sets, {axis:?}, {writing:?}"), &all, 17..18, writing)
}

/// Every column of a line becomes another byte: those that it has, its end too, and those up to 82.
fn bytes_of_a_line(usual: &Usual, line: usize, sure: bool, share: &mut Share, take: &mut Take) {
    let bytes = usual.line(line);
    let at = usual.starts[line];
    let end = bytes.len() - if bytes.ends_with(b"\r\n") { 2 } else { 1 };
    let mut file = usual.file.clone();
    for column in 0..bytes.len() {
        for byte in 0..=255 {
            if share.picks_byte(byte, sure) {
                file[at + column] = byte;
                take(format_args!("{}: byte {column} of line {} made {byte}", usual.name, line + 1), &file, at + column);
            }
        }
        file[at + column] = bytes[column];
    }
    for column in end..82 {
        let mut long = bytes[..end].to_vec();
        long.resize(column, b' ');
        long.push(b' ');
        long.extend_from_slice(&bytes[end..]);
        let mut file = usual.with(line, &long);
        for byte in 0..=255 {
            if share.picks_byte(byte, sure) {
                file[at + column] = byte;
                take(format_args!("{}: byte {column} of line {} put as {byte}", usual.name, line + 1), &file, at + column);
            }
        }
    }
}

/// A line one byte shorter, or one byte longer, in each column; the file's end at each byte.
fn lengths_of_a_line(usual: &Usual, line: usize, sure: bool, share: &mut Share, take: &mut Take) {
    let bytes = usual.line(line);
    let at = usual.starts[line];
    for column in 0..bytes.len() {
        let (before, after) = bytes.split_at(column);
        if share.picks(sure) {
            let file = usual.with(line, &[before, &after[1..]].concat());
            take(format_args!("{}: byte {column} of line {} lost", usual.name, line + 1), &file, at + column);
        }
        for &byte in PUT {
            if share.picks(sure) {
                let file = usual.with(line, &[before, &[byte], after].concat());
                take(format_args!("{}: {byte} put before byte {column} of line {}", usual.name, line + 1), &file, at + column);
            }
        }
        if share.picks(sure) {
            let file = &usual.file[..at + column];
            take(format_args!("{}: cut at byte {column} of line {}", usual.name, line + 1), file, at + column);
        }
    }
}

/// A line that ends otherwise, is filled otherwise, has other letters, comes twice, or not at all.
fn forms_of_a_line(usual: &Usual, line: usize, sure: bool, share: &mut Share, take: &mut Take) {
    let bytes = usual.line(line);
    let at = usual.starts[line];
    let end = bytes.len() - if bytes.ends_with(b"\r\n") { 2 } else { 1 };
    let bare = bytes[..end].iter().rposition(|&b| b != b' ').map_or(0, |last| last + 1);
    let mut other = vec![Vec::new(), bytes.repeat(2), bytes.repeat(3), b"\n".to_vec(), b"    -1\n".to_vec()];
    other.push([bytes, b"    -1\n"].concat());
    other.push([bytes, b"\n"].concat());
    other.push([b"\n", bytes].concat());
    for columns in bare..=83 {
        for last in ENDS {
            let mut filled = bytes[..bare].to_vec();
            filled.resize(columns, b' ');
            other.push([&filled, last.as_bytes()].concat());
        }
    }
    for letters in [&b"E"[..], b"D", b"e", b"d", b"ED", b"De", b"Ed", b"eE", b"EDed", b"EEEEED", b"DDE", b"F", b"EF"] {
        let mut letter = letters.iter().cycle();
        let mut line = bytes.to_vec();
        for byte in &mut line {
            if b"EDed".contains(byte) {
                *byte = *letter.next().expect("a letter");
            }
        }
        other.push(line);
    }
    for line_there in other {
        if share.picks(sure) {
            let file = usual.with(line, &line_there);
            take(format_args!("{}: line {} is {:?}", usual.name, line + 1, line_there.escape_ascii().to_string()), &file, at);
        }
    }
}

fn damage_line(usual: &Usual, line: usize, sure: bool, share: &mut Share, take: &mut Take) {
    bytes_of_a_line(usual, line, sure, share, take);
    lengths_of_a_line(usual, line, sure, share, take);
    forms_of_a_line(usual, line, sure, share, take);
}

/// Every case in every writing, damaged in its data lines and the delimiter after them.
fn data_lines(random: &mut Random, share: &mut Share, take: &mut Take) {
    for case in 1..=8 {
        for (n, &writing) in WRITINGS.iter().enumerate() {
            let usual = usual(random, case, 6, LASTS[(case + n) % 3], writing);
            take(format_args!("{}", usual.name), &usual.file, usual.starts[usual.data.start]);
            for (place, line) in usual.places().into_iter().enumerate() {
                let sure = place == 2 && n == case % PLAIN_WRITINGS;
                damage_line(&usual, line, sure, share, take);
            }
        }
    }
}

/// Every line of tiny sets damaged: header lines, number lines and delimiters.
fn header_lines(share: &mut Share, take: &mut Take) {
    for (n, &header) in HEADERS.iter().enumerate() {
        for (m, &writing) in WRITINGS[..PLAIN_WRITINGS].iter().enumerate() {
            let usual = tiny_sets(header, writing);
            take(format_args!("{}", usual.name), &usual.file, 0);
            for line in 4..20 {
                let sure = n == line % 3 && m == line % PLAIN_WRITINGS;
                damage_line(&usual, line, sure, share, take);
            }
        }
    }
}

/// From each line on, or that line alone, or any lines, in another writing: all of these are as good as before.
fn mixed_writings(random: &mut Random, share: &mut Share, take: &mut Take) {
    for case in 1..=8 {
        for (n, &from) in WRITINGS.iter().enumerate() {
            let one = usual(random, case, 9, LASTS[(case + n) % 3], from);
            for &to in &WRITINGS {
                let bare: Vec<Vec<u8>> = (0..one.lines()).map(|line| one.line(line).trim_ascii_end().to_vec()).collect();
                let other = Usual::new(String::new(), &bare, 0..0, to);
                for line in one.data.start..=one.data.end {
                    let at = one.starts[line];
                    let alone = one.with(line, other.line(line));
                    let rest = [&one.file[..at], &other.file[other.starts[line]..]].concat();
                    let any: Vec<u8> = (0..one.lines()).flat_map(|n| [&one, &other][random.below(2)].line(n).to_vec()).collect();
                    for (what, file) in [("alone", alone), ("and the rest", rest), ("and others", any)] {
                        hold_good(&one.name, &file);
                        if share.picks(true) {
                            take(format_args!("{}: line {} {what} as {to:?}", one.name, line + 1), &file, at);
                        }
                    }
                }
            }
        }
    }
}

/// So many full lines that a run is left for an odd line and begun again; a line after it is damaged.
fn odd_lines(random: &mut Random, share: &mut Share, take: &mut Take) {
    for case in 1..=8 {
        for odd in 0..share.count(24, 3) {
            let writing = WRITINGS[random.below(WRITINGS.len())];
            let mut one = usual(random, case, 44, LASTS[odd % 3], writing);
            // The first exponent's letter becomes another one, or the second column a plus: both are good.
            let first = one.starts[one.data.start + odd];
            match odd % 2 {
                0 => one.file[first + 9 + if case == 5 || case == 7 { 7 } else { 0 }] ^= 0x20,
                _ => one.file[first + 1] = b'+',
            }
            take(format_args!("{}: data line {} odd", one.name, odd + 1), &one.file, first);
            for line in one.data.start + odd..=one.data.end {
                for _ in 0..share.count(40, 4) {
                    let bytes = one.bytes_of(line);
                    let at = bytes.start + random.below(bytes.len());
                    let mut file = one.file.clone();
                    file[at] = NEAR[random.below(NEAR.len())];
                    if share.picks(true) {
                        take(format_args!("{}: data line {} odd, byte {at} damaged", one.name, odd + 1), &file, at);
                    }
                }
            }
        }
    }
}

/// One line more than is due, or fewer, or another count, for runs of any length; what follows is a line of data too.
fn counts(random: &mut Random, share: &mut Share, take: &mut Take) {
    for case in 1..=8 {
        for full in 1..share.count(40, 18) {
            for last in LASTS {
                let writing = WRITINGS[random.below(WRITINGS.len())];
                let one = usual(random, case, full, last, writing);
                let Range { start, end } = one.data;
                take(format_args!("{}", one.name), &one.file, one.starts[start]);
                for (line, times) in [(start, 2), (start, 3), (end - 2, 2), (end - 1, 2), (start, 0), (end - 2, 0), (end - 1, 0)] {
                    let file = one.with(line, &one.line(line).repeat(times));
                    take(format_args!("{}: line {} {times} times", one.name, line + 1), &file, one.starts[line]);
                }
                let without = [&one.file[..one.starts[end]], &one.file[one.starts[end + 1]..]].concat();
                take(format_args!("{}: no delimiter after the data", one.name), &without, one.starts[end]);
            }
        }
    }
}

/// Long sets: the count is right, or a line is damaged far behind the first.
fn long_runs(random: &mut Random, share: &mut Share, take: &mut Take) {
    for case in 1..=8 {
        let one = usual(random, case, 2_600, LASTS[case % 3], WRITINGS[case % PLAIN_WRITINGS]);
        take(format_args!("{}", one.name), &one.file, one.starts[one.data.start]);
        for n in 0..share.count(60, 3) {
            let line = [one.data.end - 2, one.data.end - 1, one.data.start + random.below(one.data.len())][n % 3];
            let bytes = one.bytes_of(line);
            let at = bytes.start + random.below(bytes.len());
            let mut file = one.file.clone();
            file[at] = NEAR[random.below(NEAR.len())];
            take(format_args!("{}: byte {at}, on line {}, damaged", one.name, line + 1), &file, at);
        }
    }
}

/// Any usual file damaged in several places.
fn several_damages(random: &mut Random, share: &mut Share, take: &mut Take) {
    for _ in 0..share.count(400_000, 6_000) {
        let (case, full) = (1 + random.below(8), 1 + random.below(12));
        let (last, writing) = (LASTS[random.below(3)], WRITINGS[random.below(WRITINGS.len())]);
        let one = usual(random, case, full, last, writing);
        let mut file = one.file.clone();
        let mut first = file.len();
        for _ in 0..1 + random.below(3) {
            let lines = one.starts[one.data.start]..one.starts[one.data.end + 1];
            let at = lines.start + random.below(lines.len());
            file[at] = NEAR[random.below(NEAR.len())];
            first = first.min(at);
        }
        while random.one_in(3) {
            generate::damage(random, &mut file);
        }
        if share.picks(false) {
            take(format_args!("{}, damaged in several places", one.name), &file, first.min(file.len()));
        }
    }
}

/// All usual files and all damaged ones, or a share of them.
pub fn files(share: &mut Share, take: &mut Take) {
    let random = &mut Random::new(0x5EED_0022_0058_0001);
    data_lines(random, share, take);
    header_lines(share, take);
    mixed_writings(random, share, take);
    odd_lines(random, share, take);
    counts(random, share, take);
    long_runs(random, share, take);
    several_damages(random, share, take);
}
