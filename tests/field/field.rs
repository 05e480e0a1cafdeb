//! A plain reader of one line by a typed FORMAT (request C-15): the second opinion.
//!
//! It was written from the papers alone (request C-15 of document 02, document 01's lines and fields as C-12 and C-14 left them,
//! and the readings settled for them) and shares nothing with the proved one: the text becomes a tree, brackets are counted apart
//! from it, and a real is taken apart from its end. Refusal 20 is about lent places, so it is the caller's. Safe Rust, standard
//! library only.

use crate::judge::Reply;
use crate::reader::Number;

pub const LONGEST_TEXT: usize = 120;
pub const MOST_COLUMNS: usize = 80;
const MOST_GROUPS: usize = 3;
const MOST_DIGITS: usize = 18;

#[derive(Clone, Copy, Debug, PartialEq, Eq)]
pub enum Kind {
    Text,
    Integer,
    Real,
}

/// A field: its columns, counted as bytes from 0.
#[derive(Clone, Copy, Debug, PartialEq, Eq)]
pub struct Field {
    pub kind: Kind,
    pub first: usize,
    pub past: usize,
}

/// What a question is answered, but for refusals: a text or an integer by the first and past byte of its columns, a real as the
/// reader shows a stored number.
#[derive(Clone, Copy, Debug, PartialEq, Eq)]
pub enum Shown {
    Text(u32, u32),
    Integer(u32, u32),
    Real(Number),
}

impl Shown {
    /// The kind as C has it.
    pub fn kind(&self) -> u32 {
        match self {
            Shown::Text(..) => 1,
            Shown::Integer(..) => 2,
            Shown::Real(_) => 3,
        }
    }

    /// What is laid for C.
    pub fn bytes(&self) -> Vec<u8> {
        match self {
            Shown::Text(first, past) | Shown::Integer(first, past) => [first.to_le_bytes(), past.to_le_bytes()].concat(),
            Shown::Real(number) => number.bytes(),
        }
    }
}

pub type Answer = Result<Shown, Reply>;

/// The field of this number (from 0) of a line lent alone, by a FORMAT text. "Refusals: 26, text malformed or too long; then 27,
/// deeper than three or over 80 columns; then the line's own; then 18."
pub fn ask(format: &[u8], line: &[u8], field: u32) -> Answer {
    let fields = fields(format).map_err(Reply::no_line)?;
    let shown = read(&fields, line)?;
    shown.get(field as usize).copied().ok_or(Reply::no_line(18))
}

// The text -----------------------------------------------------------------------------------

/// The fields of a FORMAT text, X columns left out, or 26 or 27.
pub fn fields(format: &[u8]) -> Result<Vec<Field>, u32> {
    if format.len() > LONGEST_TEXT {
        return Err(26);
    }
    let text: Vec<u8> = format.iter().copied().filter(|&b| b != b' ').collect();
    let (items, rest) = list(&text).ok_or(26_u32)?;
    if !rest.is_empty() {
        return Err(26);
    }
    if groups(&text) > MOST_GROUPS || columns(&items) > MOST_COLUMNS as u64 {
        return Err(27);
    }
    let (mut fields, mut at) = (Vec::new(), 0);
    unfold(&items, &mut at, &mut fields);
    Ok(fields)
}

enum Item {
    /// So many columns that belong to no field.
    Skip(u64),
    /// So many fields of so many columns each.
    Fields(u64, Kind, u64),
    /// A list, so many times.
    Group(u64, Vec<Item>),
}

type Parsed<'a, T> = Option<(T, &'a [u8])>;

/// Items with one comma between them, and what follows.
fn list(text: &[u8]) -> Parsed<'_, Vec<Item>> {
    let (first, mut rest) = item(text)?;
    let mut items = vec![first];
    while let [b',', after @ ..] = rest {
        let (next, after) = item(after)?;
        items.push(next);
        rest = after;
    }
    Some((items, rest))
}

/// "1P allowed before E and D alone, ahead of any count".
fn item(text: &[u8]) -> Parsed<'_, Item> {
    let (scaled, text) = match text {
        [b'1', b'P', after @ ..] => (true, after),
        _ => (false, text),
    };
    let (count, text) = count(text)?;
    let (&letter, text) = text.split_first()?;
    match letter {
        b'E' | b'D' => {
            let (width, text) = width(text)?;
            let (decimals, text) = number(text.strip_prefix(b".")?)?;
            (decimals <= width).then_some((Item::Fields(count, Kind::Real, width), text))
        }
        _ if scaled => None,
        b'I' => width(text).map(|(width, text)| (Item::Fields(count, Kind::Integer, width), text)),
        // "An A item with its own count is one text".
        b'A' => width(text).map(|(width, text)| (Item::Fields(1, Kind::Text, count.saturating_mul(width)), text)),
        b'X' => Some((Item::Skip(count), text)),
        b'(' => {
            let (items, text) = list(text)?;
            Some((Item::Group(count, items), text.strip_prefix(b")")?))
        }
        _ => None,
    }
}

/// "repeat counts from 1"; left out it is one.
fn count(text: &[u8]) -> Parsed<'_, u64> {
    match text.first() {
        Some(b'0'..=b'9') => number(text).filter(|&(count, _)| count >= 1),
        _ => Some((1, text)),
    }
}

/// "Widths are 1 to 80".
fn width(text: &[u8]) -> Parsed<'_, u64> {
    number(text).filter(|(width, _)| (1..=80).contains(width))
}

/// Digits without a leading zero; a number that u64 has no room for is the largest.
fn number(text: &[u8]) -> Parsed<'_, u64> {
    let length = text.iter().take_while(|b| b.is_ascii_digit()).count();
    let (digits, rest) = text.split_at(length);
    if length == 0 || (length > 1 && digits[0] == b'0') {
        return None;
    }
    let size = digits.iter().fold(0, |size: u64, b| size.saturating_mul(10).saturating_add(u64::from(b - b'0')));
    Some((size, rest))
}

fn columns(items: &[Item]) -> u64 {
    let of_item = |item: &Item| match item {
        Item::Skip(count) => *count,
        Item::Fields(count, _, width) => count.saturating_mul(*width),
        Item::Group(count, items) => count.saturating_mul(columns(items)),
    };
    items.iter().map(of_item).fold(0, u64::saturating_add)
}

/// How many brackets are open at most. The pair around the whole text is not counted: the first bracket is the first byte, and no
/// byte but the last stands outside of it.
fn groups(text: &[u8]) -> usize {
    let (mut open, mut most, mut outer) = (0, 0, text.first() == Some(&b'('));
    for (n, byte) in text.iter().enumerate() {
        match byte {
            b'(' => open += 1,
            b')' => open -= 1,
            _ => {}
        }
        most = most.max(open);
        outer &= open > 0 || n + 1 == text.len();
    }
    most - usize::from(outer)
}

/// Lays out fields from a column on; there are 80 columns at most.
fn unfold(items: &[Item], at: &mut usize, fields: &mut Vec<Field>) {
    for item in items {
        match item {
            Item::Skip(count) => *at += *count as usize,
            Item::Fields(count, kind, width) => {
                for _ in 0..*count {
                    fields.push(Field { kind: *kind, first: *at, past: *at + *width as usize });
                    *at += *width as usize;
                }
            }
            Item::Group(count, items) => {
                for _ in 0..*count {
                    unfold(items, at, fields);
                }
            }
        }
    }
}

// The line -----------------------------------------------------------------------------------

/// What every field of a line shows, or the line's own refusal: 2, 3, the fields left to right, 13.
fn read(fields: &[Field], line: &[u8]) -> Result<Vec<Shown>, Reply> {
    let refused = |number: u32, columns: usize| Reply::refused(number, 1, columns as u32 + 1);
    if let Some(at) = line.iter().position(|b| !(32..=126).contains(b)) {
        return Err(refused(2, at));
    }
    if line.len() > MOST_COLUMNS {
        return Err(refused(3, 0));
    }
    let mut filled = [b' '; MOST_COLUMNS];
    filled[..line.len()].copy_from_slice(line);
    let mut shown = Vec::new();
    let mut outside = filled;
    for field in fields {
        let bytes = &filled[field.first..field.past];
        shown.push(show(field, bytes).map_err(|number| refused(number, field.first))?);
        outside[field.first..field.past].fill(b' ');
    }
    match outside.iter().position(|&b| b != b' ') {
        Some(at) => Err(refused(13, at)),
        None => Ok(shown),
    }
}

fn show(field: &Field, bytes: &[u8]) -> Result<Shown, u32> {
    let (first, past) = (field.first as u32, field.past as u32);
    match field.kind {
        Kind::Text => Ok(Shown::Text(first, past)),
        Kind::Integer => integer(bytes.trim_ascii_start()).map(|()| Shown::Integer(first, past)),
        Kind::Real => {
            let (negative, coefficient, scale) = real(bytes.trim_ascii_start())?;
            Ok(Shown::Real(Number { first, past, negative, coefficient, scale }))
        }
    }
}

/// A field without the blanks before it: an optional sign, and digits; 24 if nothing is there.
fn integer(field: &[u8]) -> Result<(), u32> {
    match field {
        [] => Err(24),
        [b'+' | b'-', digits @ ..] | digits => {
            let good = !digits.is_empty() && digits.iter().all(u8::is_ascii_digit);
            good.then_some(()).ok_or(10)
        }
    }
}

/// A field without the blanks before it, from its end: two or three digits, a sign, a letter (without one just three digits), then
/// 1 to 18 digits and one point, an optional sign. Its sign, coefficient and scale; 25 if nothing is there.
fn real(field: &[u8]) -> Result<(bool, u64, i16), u32> {
    if field.is_empty() {
        return Err(25);
    }
    let digits = field.iter().rev().take_while(|b| b.is_ascii_digit()).count();
    let (front, exponent) = field.split_at(field.len() - digits);
    let (&sign, front) = front.split_last().ok_or(12_u32)?;
    let (lettered, mantissa) = match front {
        [mantissa @ .., b'E' | b'e' | b'D' | b'd'] => (true, mantissa),
        _ => (false, front),
    };
    if !b"+-".contains(&sign) || digits > 3 || digits < if lettered { 2 } else { 3 } {
        return Err(12);
    }
    let (negative, coefficient, decimals) = mantissa_of(mantissa).ok_or(12_u32)?;
    let size = spelled(exponent) as i16;
    Ok((negative, coefficient, if sign == b'-' { -size } else { size } - decimals))
}

/// Sign, digits without the point, and how many stand after it.
fn mantissa_of(mantissa: &[u8]) -> Option<(bool, u64, i16)> {
    let (negative, mantissa) = match mantissa {
        [b'-', after @ ..] => (true, after),
        [b'+', after @ ..] => (false, after),
        _ => (false, mantissa),
    };
    let point = mantissa.iter().position(|&b| b == b'.')?;
    let digits = [&mantissa[..point], &mantissa[point + 1..]].concat();
    let good = (1..=MOST_DIGITS).contains(&digits.len()) && digits.iter().all(u8::is_ascii_digit);
    good.then(|| (negative, spelled(&digits), (digits.len() - point) as i16))
}

fn spelled(digits: &[u8]) -> u64 {
    digits.iter().fold(0, |size, b| 10 * size + u64::from(b - b'0'))
}
