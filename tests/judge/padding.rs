//! Request C-13: files whose last data line is full, or filled in part, past the count. Columns are typed from
//! document 01's table of the eight cases.
//!
//! Each wrong program that the request's issue names is told apart by one of these files; the comment above a list
//! says which. Padding kept by the rewriter, the last counted number cut off, a seventh number that is one off and six
//! places a set are told apart by `tests/reader`, which takes the same files.

use super::{accepted, put, refused, with, List, ORDERS, TRACE};
use crate::common::files::{filled, function, joined, lines};
use crate::judge::Reply;

/// A file of 58s, the same without padding, the reply, and of each set the padding numbers. Some tests use a part.
#[allow(dead_code)]
pub struct Padded {
    pub name: String,
    pub file: Vec<u8>,
    pub bare: Vec<u8>,
    pub reply: Reply,
    pub sevenths: Vec<u32>,
    /// The last data line (from 1) of the last set.
    pub line: usize,
}

/// First column (from 1) and width of each field of a full line: 6E13.5, 4E20.12, 2(E13.5,E20.12), E13.5,2E20.12.
pub(super) type Fields = &'static [(usize, usize)];
const SINGLE: Fields = &[(1, 13), (14, 13), (27, 13), (40, 13), (53, 13), (66, 13)];
const DOUBLE: Fields = &[(1, 20), (21, 20), (41, 20), (61, 20)];
const BOTH: Fields = &[(1, 13), (14, 20), (34, 13), (47, 20)];
const THREE: Fields = &[(1, 13), (14, 20), (34, 20)];

/// The eight cases: fields, numbers in a value, and by the counted numbers of the last line (from 1) its padding.
pub(super) const CASES: [(Fields, usize, &[u32]); 8] = [
    (SINGLE, 1, &[5, 4, 3, 2, 1, 0]),
    (SINGLE, 2, &[5, 4, 3, 2, 1, 0]),
    (SINGLE, 2, &[5, 4, 3, 2, 1, 0]),
    (SINGLE, 3, &[5, 4, 3, 2, 1, 0]),
    (DOUBLE, 1, &[3, 2, 1, 0]),
    (BOTH, 2, &[3, 2, 1, 0]),
    (DOUBLE, 2, &[3, 2, 1, 0]),
    (THREE, 3, &[2, 1, 0]),
];

/// What stands in the fields of a remainder.
#[derive(Clone, Copy, Debug, PartialEq)]
enum Filled {
    Nothing,
    All,
    AllButLast,
    OnlyLast,
}

/// A number of so many columns that is no stored number of these files.
fn old_number(width: usize) -> &'static str {
    if width == 13 {
        " -9.87654E+01"
    } else {
        " -9.876543210987E+01"
    }
}

/// The file with numbers put into these fields of a line.
fn put_numbers(file: &[u8], line: usize, fields: &[(usize, usize)]) -> Vec<u8> {
    fields.iter().fold(file.to_vec(), |file, &(first, width)| put(&file, line, first, old_number(width)))
}

/// Line ends and blanks before them.
const WRITINGS: [(&str, bool, &[u8]); 4] =
    [("LF", false, b"\n"), ("CR LF", false, b"\r\n"), ("LF, filled", true, b"\n"), ("CR LF, filled", true, b"\r\n")];

fn written(file: &[u8], fill: bool, end: &[u8]) -> Vec<u8> {
    if fill {
        filled(file, end)
    } else {
        joined(&lines(file), end)
    }
}

/// The 58 of a case and a count, with its remainder filled so.
fn remainder(case: usize, count: usize, filled: Filled) -> Padded {
    let (fields, numbers, padding) = CASES[case - 1];
    let bare = function(case, count, count);
    let here = (count * numbers - 1) % fields.len() + 1;
    let left = &fields[here..];
    let (all, line) = (lines(&bare).len(), lines(&bare).len() - 1);
    let put_there = match filled {
        Filled::Nothing => &[],
        Filled::All => left,
        Filled::AllButLast => &left[..left.len().saturating_sub(1)],
        Filled::OnlyLast => &left[left.len().saturating_sub(1)..],
    };
    let file = put_numbers(&bare, line, put_there);
    let blank_at = |(first, _): (usize, usize)| refused(25, line as u32, first as u32);
    // Of one field all is the last, and all but the last nothing.
    let (reply, seventh) = match (filled, left) {
        (Filled::Nothing, _) | (_, []) | (Filled::AllButLast, [_]) => (accepted(all as u32), 0),
        (Filled::All, _) | (Filled::OnlyLast, [_]) => (accepted(all as u32), padding[here - 1]),
        (Filled::AllButLast, [.., last]) => (blank_at(*last), 0),
        (Filled::OnlyLast, [first, ..]) => (blank_at(*first), 0),
    };
    let name = format!("case {case}, count {count}, remainder: {filled:?}");
    Padded { name, file, bare, reply, sevenths: vec![seventh], line }
}

/// The same as the second of two sets; the first has padding too.
fn second(padded: &Padded) -> Padded {
    let first = remainder(1, 7, Filled::All);
    let before = lines(&first.file).len();
    let Reply { number, place, column } = padded.reply;
    Padded {
        name: format!("{}, the second of two", padded.name),
        file: [first.file, padded.file.clone()].concat(),
        bare: [first.bare, padded.bare.clone()].concat(),
        reply: Reply { number, place: place + before as u32, column },
        sevenths: [first.sevenths, padded.sevenths.clone()].concat(),
        line: padded.line + before,
    }
}

/// Every case with every count from 1 to two full lines, the remainder filled in four ways, in four writings, alone and
/// as the second of two sets. Tells apart: padding counted as a value; padding that stops one field early; blanks and
/// then a number; a seventh number for a line that is full by its count.
pub fn remainders() -> Vec<Padded> {
    let mut all = Vec::new();
    for case in 1..=8 {
        let (fields, numbers, _) = CASES[case - 1];
        for count in 1..=2 * fields.len() / numbers {
            for filled in [Filled::Nothing, Filled::All, Filled::AllButLast, Filled::OnlyLast] {
                let one = remainder(case, count, filled);
                for padded in [second(&one), one] {
                    all.extend(WRITINGS.iter().map(|&(name, fill, end)| Padded {
                        name: format!("{}, {name}", padded.name),
                        file: written(&padded.file, fill, end),
                        bare: written(&padded.bare, fill, end),
                        reply: padded.reply,
                        sevenths: padded.sevenths.clone(),
                        line: padded.line,
                    }));
                }
            }
        }
    }
    all
}

/// The longest sets with a remainder: 65,536 values leave four numbers in case 1 and two in cases 2 and 3.
pub fn longest() -> Vec<Padded> {
    let long = |(case, seventh): (usize, u32)| {
        let padded = remainder(case, 65_536, Filled::All);
        assert_eq!(padded.sevenths, [seventh], "{}", padded.name);
        padded
    };
    [(1, 2), (2, 4), (3, 4)].map(long).into()
}

/// 4,096 sets with five padding numbers each: 15 lines a set.
pub fn most_sets() -> Padded {
    let one = remainder(1, 1, Filled::All);
    Padded {
        name: "4,096 sets with padding".to_string(),
        file: one.file.repeat(4_096),
        bare: one.bare.repeat(4_096),
        reply: accepted(61_440),
        sevenths: vec![5; 4_096],
        line: 61_439,
    }
}

/// Count 7 in case 1: what stands in the six fields of the second line, the reply's number and column, and the padding.
/// Tells apart: a malformed padding number accepted; the last blank or bad field named, or the remainder's first column;
/// padding taken by what the exact path reads.
pub fn second_lines() -> Vec<Padded> {
    const N: &str = "  1.00000E-01";
    const BLANK: &str = "             ";
    const BAD: &str = "     1.0E+0x ";
    const BARE: &str = "  1.00000-101";
    const FAR: &str = "     1.0E+999";
    const ZERO: &str = " -0.00000E+00";
    let typed: [([&str; 6], u32, u32, u32); 24] = [
        ([N, BLANK, BLANK, BLANK, BLANK, BLANK], 0, 0, 0),
        ([N, N, N, N, N, N], 0, 0, 5),
        ([N, N, BLANK, BLANK, BLANK, BLANK], 25, 27, 0),
        ([N, N, N, BLANK, BLANK, BLANK], 25, 40, 0),
        ([N, N, N, N, BLANK, BLANK], 25, 53, 0),
        ([N, N, N, N, N, BLANK], 25, 66, 0),
        ([N, BLANK, N, N, N, N], 25, 14, 0),
        ([N, BLANK, BLANK, BLANK, BLANK, N], 25, 14, 0),
        ([N, N, BLANK, N, N, N], 25, 27, 0),
        ([N, N, N, N, BLANK, N], 25, 53, 0),
        ([N, N, N, BAD, N, N], 12, 40, 0),
        ([N, BAD, N, N, N, N], 12, 14, 0),
        ([N, N, N, N, N, BAD], 12, 66, 0),
        ([N, N, BAD, BAD, N, N], 12, 27, 0),
        ([N, BLANK, BAD, N, N, N], 25, 14, 0),
        ([N, BAD, BLANK, N, N, N], 12, 14, 0),
        ([N, BLANK, BLANK, BAD, BLANK, BLANK], 25, 14, 0),
        ([BLANK, N, N, N, N, N], 25, 1, 0),
        ([BAD, N, N, N, N, N], 12, 1, 0),
        ([BAD, BAD, BLANK, N, N, N], 12, 1, 0),
        ([BLANK, BLANK, BLANK, BLANK, BLANK, N], 25, 1, 0),
        ([N, BARE, BARE, BARE, BARE, BARE], 0, 0, 5),
        ([N, FAR, FAR, FAR, FAR, FAR], 0, 0, 5),
        ([N, ZERO, ZERO, FAR, BARE, "12345678.E+00"], 0, 0, 5),
    ];
    let base = function(1, 7, 7);
    typed
        .iter()
        .map(|&(fields, number, column, seventh)| {
            let line = fields.concat();
            Padded {
                name: format!("case 1, count 7, line 15: {line:?}"),
                file: with(&base, 15, line.trim_end()),
                bare: base.clone(),
                reply: if number == 0 { accepted(16) } else { refused(number, 15, column) },
                sevenths: vec![seventh],
                line: 15,
            }
        })
        .collect()
}

/// 13 comes after the fields, and only for a byte past the full line's. Tells apart: a byte past the full line accepted
/// beside padding.
fn stray_bytes(list: &mut List) {
    let bare = function(1, 7, 7);
    let full = remainder(1, 7, Filled::All).file;
    let early = remainder(1, 7, Filled::AllButLast).file;
    for column in [79, 80] {
        let at = refused(13, 15, column as u32);
        list.add(&format!("x in column {column}, no padding"), put(&bare, 15, column, "x"), at);
        list.add(&format!("x in column {column} beside padding"), put(&full, 15, column, "x"), at);
        list.add(&format!("x in column {column}, padding stops early"), put(&early, 15, column, "x"), refused(25, 15, 66));
        let counted = put(&put(&full, 15, 1, "             "), 15, column, "x");
        list.add(&format!("x in column {column}, the counted number blank"), counted, refused(25, 15, 1));
    }
    for column in [14, 26] {
        list.add(&format!("x in column {column} alone"), put(&bare, 15, column, "x"), refused(12, 15, 14));
    }
    list.add("x in column 27 alone", put(&bare, 15, 27, "x"), refused(25, 15, 14));
    list.add("x in column 78 alone", put(&bare, 15, 78, "x"), refused(25, 15, 14));
    list.add("x in column 78 for the padding's last digit", put(&full, 15, 78, "x"), refused(12, 15, 66));
    // A full line has 66 columns in case 6, 53 in case 8, 80 in cases 5 and 7.
    let six = remainder(6, 3, Filled::All).file;
    list.add("case 6: column 67 beside padding", put(&six, 15, 67, "0"), refused(13, 15, 67));
    list.add("case 6: column 67 alone", put(&function(6, 3, 3), 15, 67, "0"), refused(13, 15, 67));
    list.add("case 6: a third pair beside padding", put(&six, 15, 67, " -9.87654E+01"), refused(13, 15, 68));
    let eight = function(8, 3, 3);
    list.add("case 8: column 54 of the last line", put(&eight, 16, 54, "0"), refused(13, 16, 54));
    list.add("case 8: a number more in the last line", put(&eight, 16, 54, " -9.87654E+01"), refused(13, 16, 55));
    list.add("case 5: 81 columns beside padding", put(&remainder(5, 5, Filled::All).file, 15, 81, " "), refused(3, 15, 1));
    list.add("TAB in padding", put(&full, 15, 30, "\t"), refused(2, 15, 30));
}

/// Padding stands in the last data line of a 58 and nowhere else. Tells apart: padding before the last line; padding
/// taken in an 82 or an 1815.
fn elsewhere(list: &mut List) {
    // The first of two data lines, and the second of three, with a number and blanks.
    let one = "  1.00000E-01";
    list.add("count 7, the first line short", with(&function(1, 7, 7), 14, one), refused(25, 14, 14));
    list.add("count 12, the first line short", with(&function(1, 12, 12), 14, one), refused(25, 14, 14));
    list.add("count 13, the second line short", with(&function(1, 13, 13), 15, one), refused(25, 15, 14));
    // One counted number and five others on the first line; the seventh on the second.
    list.add("count 1 and a line more", function(1, 1, 7), refused(8, 15, 1));
    list.add("count 7, padding, and a line more", function(1, 7, 13), refused(8, 16, 1));
    list.add("count 6 and a full line more", function(1, 6, 12), refused(8, 15, 1));
    list.add("case 8, count 2 and a line more", function(8, 2, 3), refused(8, 16, 1));
    // 82: ten entries, so two in the second line; the next fields end in columns 30 and 80.
    let entries = |count: usize| "        11".repeat(count);
    list.add("82: an entry more", put(TRACE.as_bytes(), 6, 21, &entries(1)), refused(13, 6, 29));
    list.add("82: a full last line", put(TRACE.as_bytes(), 6, 21, &entries(6)), refused(13, 6, 29));
    list.add("82: the last field of a full line", put(TRACE.as_bytes(), 6, 71, &entries(1)), refused(13, 6, 79));
    // 1815: six orders, so one in the second line, and one display order.
    let orders = |count: usize| "  1.0000000E+00".repeat(count);
    for line in [28, 29] {
        list.add(&format!("1815, line {line}: full"), put(ORDERS.as_bytes(), line, 16, &orders(4)), refused(13, line as u32, 18));
        list.add(&format!("1815, line {line}: the last"), put(ORDERS.as_bytes(), line, 61, &orders(1)), refused(13, line as u32, 63));
    }
    // The same numbers in the last lines of other records with reals.
    list.add("1815, record 17: reals up to 80", put(ORDERS.as_bytes(), 19, 30, &orders(3)), refused(13, 19, 32));
    let line_9 = put(&function(1, 7, 7), 9, 70, "1.0E+00");
    list.add("58, line 7 with a number more", line_9, refused(13, 9, 70));
}

/// Files with padding and without, whole: the accepted ones and the refused ones.
pub fn files() -> Vec<Padded> {
    let mut all = remainders();
    all.extend(second_lines());
    all.extend(longest());
    all.push(most_sets());
    all
}

pub(super) fn add_all(list: &mut List) {
    for padded in files() {
        list.add(&padded.name, padded.file, padded.reply);
    }
    stray_bytes(list);
    elsewhere(list);
}
