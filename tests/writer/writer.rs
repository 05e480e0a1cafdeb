//! A plain writer of dataset 58: the second opinion.
//!
//! It was written from the papers alone (document 01, source document 001, requests C-12 and C-14 of
//! document 02 and the readings settled for them) by somebody who had not seen the proved one. Line ends, columns
//! and the order of refusals are its own; what a header line's fields may hold is asked of the plain
//! judge beside it. Safe Rust, standard library only.

use crate::judge::{judge, Reply};

const DELIMITER: &[u8] = b"    -1";
const NUMBER_LINE: &[u8] = b"    58";

/// Lines of a 58 between its number line and its data lines.
const HEADER_LINES: usize = 11;

const MOST_COLUMNS: usize = 80;

/// A field of a data line, Ew.d.
#[derive(Clone, Copy, Debug, PartialEq, Eq)]
pub struct Field {
    pub width: usize,
    pub decimals: usize,
}

/// E13.5 and E20.12.
const SINGLE: Field = Field { width: 13, decimals: 5 };
const DOUBLE: Field = Field { width: 20, decimals: 12 };

/// What an accepted header asks for.
#[derive(Debug, PartialEq, Eq)]
pub struct Form {
    /// The fields of a full data line.
    pub fields: &'static [Field],
    /// All numbers of the set, abscissas and imaginary parts counted.
    pub stored: usize,
}

/// Document 01's writer: one whole set in the rewriter's form, if it is at most `room` bytes long.
/// Refusals in order: the header's, 22, 19 at the smallest index, 20.
pub fn write(
    header: &[u8],
    coefficients: &[i64],
    scales: &[i16],
    room: usize,
) -> Result<Vec<u8>, Reply> {
    let lines = judged(header)?;
    let form = form_of(lines[6]);
    if coefficients.len() != scales.len() || coefficients.len() != form.stored {
        return Err(Reply::no_line(22));
    }
    let mut out = Vec::new();
    for line in [DELIMITER, NUMBER_LINE].into_iter().chain(lines) {
        out.extend_from_slice(line);
        out.push(b'\n');
    }
    for (j, (&coefficient, &scale)) in coefficients.iter().zip(scales).enumerate() {
        let field = form.fields[j % form.fields.len()];
        let text = spelled(coefficient, scale, field);
        out.extend(text.ok_or(not_exact(j as u32))?.bytes());
        if (j + 1) % form.fields.len() == 0 || j + 1 == form.stored {
            out.push(b'\n');
        }
    }
    out.extend_from_slice(DELIMITER);
    out.push(b'\n');
    if out.len() > room {
        return Err(Reply::no_line(20));
    }
    Ok(out)
}

/// 19's place is the number's index, so it has no column.
pub const fn not_exact(index: u32) -> Reply {
    Reply { number: 19, place: index, column: 0 }
}

/// What a header asks for, or its refusal.
pub fn form(header: &[u8]) -> Result<Form, Reply> {
    Ok(form_of(judged(header)?[6]))
}

/// The eleven lines of a header without their ends and the blanks before them, or the refusal of
/// the earliest bad line.
fn judged(header: &[u8]) -> Result<Vec<&[u8]>, Reply> {
    let mut lines = Vec::new();
    // The first line that is wrong wherever it stands, or is one too many.
    let mut wrong = None;
    for (n, whole) in header.split_inclusive(|&b| b == b'\n').take(HEADER_LINES + 1).enumerate() {
        let ended = whole.strip_suffix(b"\n");
        let line = ended.map_or(whole, |line| line.strip_suffix(b"\r").unwrap_or(line));
        let bad = line.iter().position(|b| !(32..=126).contains(b));
        let number = if bad.is_some() {
            2
        } else if line.len() > MOST_COLUMNS {
            3
        } else if ended.is_none() {
            4
        } else if n == HEADER_LINES {
            8
        } else {
            lines.push(line);
            continue;
        };
        // "Of the first such byte for 2 .. otherwise 1."
        wrong = Some(Reply::refused(number, n as u32 + 1, bad.map_or(1, |before| before as u32 + 1)));
        break;
    }
    // The lines before it, each by the rules of its place in a set. The set is not closed, so the
    // judge always refuses: at one of these lines, or past them.
    let mut set = [DELIMITER, b"\n", NUMBER_LINE, b"\n"].concat();
    for line in &lines {
        set.extend_from_slice(line);
        set.push(b'\n');
    }
    let Reply { number, place, column } = judge(&set);
    if place as usize - 2 <= lines.len() {
        return Err(Reply::refused(number, place - 2, column));
    }
    match wrong {
        Some(reply) => Err(reply),
        None if lines.len() < HEADER_LINES => Err(Reply::refused(7, lines.len() as u32 + 1, 1)),
        None => Ok(lines.into_iter().map(without_blanks).collect()),
    }
}

/// Without the blanks at its end.
fn without_blanks(line: &[u8]) -> &[u8] {
    let past = line.iter().rposition(|&b| b != b' ').map_or(0, |last| last + 1);
    &line[..past]
}

/// What line 7 (3I10,3E13.5) asks for: ordinate type, count and spacing.
fn form_of(line: &[u8]) -> Form {
    let ordinate = integer(&line[..10]);
    let count = integer(&line[10..20]);
    let even = integer(&line[20..30]) == 1;
    // Document 01's table of the eight cases: fields of a full line, numbers in a value.
    let (fields, numbers): (&[Field], usize) = match (ordinate, even) {
        (2, true) => (&[SINGLE; 6], 1),
        (2, false) => (&[SINGLE; 6], 2),
        (5, true) => (&[SINGLE; 6], 2),
        (5, false) => (&[SINGLE; 6], 3),
        (4, true) => (&[DOUBLE; 4], 1),
        (4, false) => (&[SINGLE, DOUBLE, SINGLE, DOUBLE], 2),
        (6, true) => (&[DOUBLE; 4], 2),
        _ => (&[SINGLE, DOUBLE, DOUBLE], 3),
    };
    Form { fields, stored: count * numbers }
}

/// An accepted integer field that is not negative; a zero may have a minus sign.
fn integer(field: &[u8]) -> usize {
    let digits = field.iter().filter(|b| b.is_ascii_digit());
    digits.fold(0, |value, digit| 10 * value + usize::from(digit - b'0'))
}

/// A number in its field, right-aligned; none if it can't be written exactly.
fn spelled(coefficient: i64, scale: i16, field: Field) -> Option<String> {
    let Field { width, decimals } = field;
    let (mut digits, mut exponent) = ("0".to_string(), 0);
    if coefficient != 0 {
        digits = coefficient.unsigned_abs().to_string();
        exponent = i32::from(scale) + digits.len() as i32 - 1;
        digits.truncate(digits.trim_end_matches('0').len());
    }
    // An exponent of three digits takes the letter's column.
    let exponent = match exponent {
        -99..=99 => format!("E{exponent:+03}"),
        -999..=999 => format!("{exponent:+}"),
        _ => return None,
    };
    if digits.len() > decimals + 1 {
        return None;
    }
    let minus = if coefficient < 0 { "-" } else { "" };
    let (first, rest) = digits.split_at(1);
    let text = format!("{minus}{first}.{rest:0<decimals$}{exponent}");
    Some(format!("{text:>width$}"))
}
