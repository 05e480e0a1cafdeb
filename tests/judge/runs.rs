//! Runs of data lines in the usual spelling, each file with one thing wrong in them, or nothing. Columns are typed from
//! document 01's table of the eight cases, by `padding`.
//!
//! Each list names the wrong program that it tells apart, of those that take whole lines at once.

use super::padding::{Fields, CASES};
use super::{accepted, refused, List};
use crate::common::files::{filled, function, joined, lines};

/// Full data lines of the files below, from line 14 on; the delimiter is line 20.
const FULL: usize = 6;
const FIRST: usize = 14;

/// The 58 of a case with six full data lines, all of them `  1.00000E-01` or `  1.000000000000E-01`.
fn six_lines(case: usize) -> Vec<u8> {
    function(case, values_of_lines(case, FULL), values_of_lines(case, FULL))
}

/// The values that so many full lines hold: 6, 3, 3, 2, 4, 2, 2 and 1 a line.
fn values_of_lines(case: usize, lines: usize) -> usize {
    [6, 3, 3, 2, 4, 2, 2, 1][case - 1] * lines
}

/// The last column of a full line.
fn columns_of(fields: Fields) -> usize {
    fields.last().map_or(0, |&(first, width)| first + width - 1)
}

/// Four writings: LF and CR LF, not filled and filled to column 80.
fn writings(file: &[u8]) -> [(&'static str, Vec<u8>); 4] {
    [
        ("LF", file.to_vec()),
        ("CR LF", joined(&lines(file), b"\r\n")),
        ("LF, filled", filled(file, b"\n")),
        ("CR LF, filled", filled(file, b"\r\n")),
    ]
}

/// The place of a line (from 1) in a file.
fn begins(file: &[u8], line: usize) -> usize {
    file.split_inclusive(|&b| b == b'\n').take(line - 1).map(<[u8]>::len).sum()
}

/// The file with a line's byte in a column (both from 1) made another.
fn made(file: &[u8], line: usize, column: usize, byte: u8) -> Vec<u8> {
    let at = begins(file, line) + column - 1;
    let mut file = file.to_vec();
    file[at] = byte;
    file
}

/// The bytes next to those that the usual spelling has in a place (from 0) of a field of this width.
fn beside(place: usize, width: usize) -> &'static [u8] {
    match width - place {
        w if w == width => b"!",
        w if w == width - 1 => b"!,./",
        w if w == width - 3 => b"-/",
        4 => b"CFcf@`",
        3 => b"*,.",
        _ => b"/:",
    }
}

/// Six full lines with another letter in all their exponents.
fn lettered(case: usize, letter: &str) -> Vec<u8> {
    let text = String::from_utf8(six_lines(case)).expect("plain text");
    text.replace("E-01", &format!("{letter}-01")).into_bytes()
}

/// Every case with six full lines in four writings: nothing is wrong. Tells apart: a line advanced by one byte too many.
fn good(list: &mut List) {
    for case in 1..=8 {
        for (name, file) in writings(&six_lines(case)) {
            list.add(&format!("run, case {case}, {name}"), file, accepted(20));
        }
        for letter in ["D", "e", "d"] {
            list.add(&format!("run, case {case}, {letter}"), lettered(case, letter), accepted(20));
        }
    }
}

/// Tells apart: a table's entry off by one.
fn bytes_beside(list: &mut List) {
    for (case, (fields, ..)) in (1..).zip(CASES) {
        let (writing, file) = &writings(&six_lines(case))[case % 4];
        for &(first, width) in fields {
            for place in 0..width {
                for &byte in beside(place, width) {
                    let line = FIRST + 1 + place % 4;
                    let name = format!("run, case {case}, {writing}: {:?} in column {}", byte as char, first + place);
                    list.add(&name, made(file, line, first + place, byte), refused(12, line as u32, first as u32));
                }
            }
        }
    }
}

/// Past the fields, and beside each letter; a letter that is none in all exponents. Tells apart: the same, and a letter
/// taken from the first field unseen.
fn letters_beside(list: &mut List) {
    for (case, (fields, ..)) in (1..).zip(CASES) {
        for (column, line) in (columns_of(fields) + 1..=80).zip((FIRST..FIRST + 5).cycle()) {
            let file = made(&filled(&six_lines(case), b"\n"), line, column, b'!');
            list.add(&format!("run, case {case}: '!' in column {column}"), file, refused(13, line as u32, column as u32));
        }
        for letter in ["D", "e", "d"] {
            for (&(first, width), line) in fields.iter().zip((FIRST + 1..FIRST + 5).cycle()) {
                for &other in b"CFcf" {
                    let file = made(&lettered(case, letter), line, first + width - 4, other);
                    let name = format!("run, case {case}, {letter}: {:?} in the field at column {first}", other as char);
                    list.add(&name, file, refused(12, line as u32, first as u32));
                }
            }
        }
        for letter in ["C", "F", "c", "f", "0", " "] {
            list.add(&format!("run, case {case}, {letter:?} in all exponents"), lettered(case, letter), refused(12, 14, 1));
        }
    }
}

/// Tells apart: a column left untested.
fn columns_tested(list: &mut List) {
    for (case, (fields, ..)) in (1..).zip(CASES) {
        let file = filled(&six_lines(case), if case % 2 == 0 { b"\r\n" } else { b"\n" });
        for column in 1..=80 {
            let field = fields.iter().find(|&&(first, width)| (first..first + width).contains(&column));
            for line in [14, 16, 18] {
                let reply = match field {
                    Some(&(first, _)) => refused(12, line as u32, first as u32),
                    None => refused(13, line as u32, column as u32),
                };
                list.add(&format!("run, case {case}: x in column {column}"), made(&file, line, column, b'x'), reply);
                let bad = refused(2, line as u32, column as u32);
                list.add(&format!("run, case {case}: 127 in column {column}"), made(&file, line, column, 127), bad);
            }
        }
    }
}

/// Without a column the field that it was in ends in a blank, or with the line; past the fields one blank is lost.
/// Tells apart: a line one byte short taken.
fn one_byte_short(list: &mut List) {
    for (case, (fields, ..)) in (1..).zip(CASES) {
        for (n, (name, file)) in writings(&six_lines(case)).into_iter().enumerate() {
            let columns = if n < 2 { columns_of(fields) } else { 80 };
            for column in 1..=columns {
                let line = FIRST + column % 5;
                let mut short = file.clone();
                short.remove(begins(&file, line) + column - 1);
                let field = fields.iter().find(|&&(first, width)| (first..first + width).contains(&column));
                let reply = field.map_or(accepted(20), |&(first, _)| refused(12, line as u32, first as u32));
                list.add(&format!("run, case {case}, {name}: column {column} of line {line} lost"), short, reply);
            }
        }
    }
}

/// A blank more before a line shifts its first field, or makes 81 columns; an empty line has a blank first field.
/// Tells apart: a line advanced by one byte too many.
fn one_byte_more(list: &mut List) {
    for (case, (fields, ..)) in (1..).zip(CASES) {
        for (n, (name, file)) in writings(&six_lines(case)).into_iter().enumerate() {
            for line in 14..=19 {
                let at = begins(&file, line);
                let mut shifted = file.clone();
                shifted.insert(at, b' ');
                let long = n >= 2 || columns_of(fields) == 80;
                let reply = refused(if long { 3 } else { 12 }, line as u32, 1);
                list.add(&format!("run, case {case}, {name}: a blank before line {line}"), shifted, reply);
                let mut empty = file.clone();
                empty.insert(at, b'\n');
                list.add(&format!("run, case {case}, {name}: an empty line {line}"), empty, refused(25, line as u32, 1));
            }
            let mut shifted = file.clone();
            shifted.insert(begins(&file, 20), b' ');
            list.add(&format!("run, case {case}, {name}: a blank before the delimiter"), shifted, refused(if n < 2 { 8 } else { 3 }, 20, 1));
            let mut shifted = file.clone();
            shifted.remove(begins(&file, 20));
            list.add(&format!("run, case {case}, {name}: a blank fewer before the delimiter"), shifted, refused(8, 20, 1));
        }
    }
}

/// Tells apart: 81 columns without CR taken.
fn columns_81(list: &mut List) {
    for case in 1..=8 {
        let crlf = filled(&six_lines(case), b"\r\n");
        let lf = filled(&six_lines(case), b"\n");
        for line in 14..=20 {
            let place = line as u32;
            list.add(&format!("run, case {case}: a blank for the CR of line {line}"), made(&crlf, line, 81, b' '), refused(3, place, 1));
            list.add(&format!("run, case {case}: x for the CR of line {line}"), made(&crlf, line, 81, b'x'), refused(3, place, 1));
            list.add(&format!("run, case {case}: 12 for the CR of line {line}"), made(&crlf, line, 81, 12), refused(2, place, 81));
            list.add(&format!("run, case {case}: x for the LF of line {line}"), made(&crlf, line, 82, b'x'), refused(2, place, 81));
            let end = begins(&lf, line) + 80;
            for (what, put, reply) in [
                ("a CR", &b"\r"[..], accepted(20)),
                ("a blank", b" ", refused(3, place, 1)),
                ("a blank and a CR", b" \r", refused(3, place, 1)),
                ("two CRs", b"\r\r", refused(2, place, 81)),
            ] {
                let mut file = lf.clone();
                file.splice(end..end, put.iter().copied());
                list.add(&format!("run, case {case}: {what} after column 80 of line {line}"), file, reply);
            }
        }
    }
}

/// Tells apart: a run one line past what is due, or one that stops a line early.
fn lines_due(list: &mut List) {
    for case in 1..=8 {
        for due in 1..=20 {
            let (past, values) = (FIRST + due, values_of_lines(case, due));
            for (more, number) in [(0, 0), (1, 8), (2, 8), (3, 8)] {
                let file = function(case, values, values_of_lines(case, due + more));
                let reply = if number == 0 { accepted(past as u32) } else { refused(number, past as u32, 1) };
                for (name, file) in writings(&file) {
                    list.add(&format!("run, case {case}, {name}: {due} lines due, {more} more"), file, reply);
                }
            }
            let file = function(case, values, values_of_lines(case, due - 1));
            list.add(&format!("run, case {case}: {due} lines due, one fewer"), file, refused(7, past as u32 - 1, 1));
            let open = function(case, values, values);
            list.add(&format!("run, case {case}: {due} lines and the file's end"), &open[..open.len() - 7], refused(7, past as u32, 1));
        }
    }
}

pub(super) fn add_all(list: &mut List) {
    good(list);
    bytes_beside(list);
    letters_beside(list);
    columns_tested(list);
    one_byte_short(list);
    one_byte_more(list);
    columns_81(list);
    lines_due(list);
}
