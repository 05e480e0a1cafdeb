//! A plain, strict judge of Universal Files: the second opinion.
//!
//! It was written from the papers alone (document 01, the source documents it names and requests C-12,
//! C-13 and C-14 of document 02, with the readings settled for them) and shares nothing with the proved
//! judge, so that each can be held against the other. It answers refusals 0 to 16, 24 and 25 with their
//! places as document 01's table says and their columns as C-14 does. Safe Rust, standard library only,
//! nothing allocated; every line is looked at once, in order, and the first bad line decides.

/// A refusal's number (0 is "accepted"), its place, and its column, which is 0 where no line is named.
#[derive(Clone, Copy, Debug, PartialEq, Eq)]
pub struct Reply {
    pub number: u32,
    pub place: u32,
    pub column: u32,
}

impl Reply {
    /// No refusal: the place is the answer.
    pub const fn accepted(place: u32) -> Reply {
        Reply { number: 0, place, column: 0 }
    }

    /// A refusal that has no place.
    pub const fn no_line(number: u32) -> Reply {
        Reply { number, place: 0, column: 0 }
    }

    /// A refusal of a line, with its column (from 1).
    pub const fn refused(number: u32, place: u32, column: u32) -> Reply {
        Reply { number, place, column }
    }
}

/// Why a line is refused: a number, and the column (from 1) that C-14 names.
#[derive(Clone, Copy)]
struct Fault {
    number: u32,
    column: usize,
}

/// "Otherwise 1".
const fn whole_line(number: u32) -> Fault {
    Fault { number, column: 1 }
}

/// The fault of what begins after so many columns.
fn after(columns: usize) -> impl Fn(u32) -> Fault {
    move |number| Fault { number, column: columns + 1 }
}

const LONGEST_FILE: usize = 16_777_216;
const MOST_COLUMNS: usize = 80;
const MOST_SETS: u32 = 4_096;

/// The most items a record below has, columns that are passed over included.
const MOST_ITEMS: usize = 12;

const LF: u8 = 10;
const CR: u8 = 13;

// What a record is made of ------------------------------------------------------------------

/// Which values an integer field takes.
#[derive(Clone, Copy)]
enum Codes {
    Span(i64, i64),
    Listed(&'static [i64]),
}

/// One item of a record, with its width in columns.
#[derive(Clone, Copy)]
enum Item {
    Int(usize, Codes),
    Real(usize),
    Text(usize),
    /// Columns that belong to no field.
    Skip(usize),
}

use Item::{Int, Real, Skip, Text};

const LEAST: i64 = -2_147_483_648;
const GREATEST: i64 = 2_147_483_647;

const ANY: Codes = Codes::Span(LEAST, GREATEST);
const FROM_0: Codes = Codes::Span(0, GREATEST);
const FROM_1: Codes = Codes::Span(1, GREATEST);
const DIRECTION: Codes = Codes::Span(-6, 6);
const DATA_TYPE: Codes = Codes::Listed(&[0, 1, 2, 3, 5, 6, 8, 9, 11, 12, 13, 15, 16, 17, 18, 19]);
const ORDINATE: Codes = Codes::Listed(&[2, 4, 5, 6]);

/// 58, line 6: 2(I5,I10), 2(1X,10A1,I10,I4).
const R58_DOF: &[Item] = &[
    Int(5, Codes::Span(0, 28)),
    Int(10, ANY),
    Int(5, ANY),
    Int(10, ANY),
    Skip(1),
    Text(10),
    Int(10, ANY),
    Int(4, DIRECTION),
    Skip(1),
    Text(10),
    Int(10, ANY),
    Int(4, DIRECTION),
];

/// 58, line 7: 3I10,3E13.5.
const R58_FORM: &[Item] = &[
    Int(10, ORDINATE),
    Int(10, Codes::Span(1, 65_536)),
    Int(10, Codes::Span(0, 1)),
    Real(13),
    Real(13),
    Real(13),
];

/// 58, lines 8 to 11: I10,3I5,2(1X,20A1).
const R58_AXIS: &[Item] = &[
    Int(10, DATA_TYPE),
    Int(5, ANY),
    Int(5, ANY),
    Int(5, ANY),
    Skip(1),
    Text(20),
    Skip(1),
    Text(20),
];

/// 82, line 1: number, entries, colour.
const R82_HEAD: &[Item] = &[Int(10, FROM_1), Int(10, Codes::Span(1, 250)), Int(10, FROM_0)];

/// 151, line 4, with and without its three integers, and lines 5 and 7.
const R151_MADE: &[Item] =
    &[Text(10), Text(10), Int(10, ANY), Int(10, ANY), Int(10, Codes::Span(0, 2))];
const R151_DATE: &[Item] = &[Text(10), Text(10)];

/// 164, line 1 with and without its mode, line 2 (factors) and line 3 (offset).
const R164_UNITS: &[Item] = &[Int(10, Codes::Span(1, 9)), Text(20), Int(10, Codes::Span(1, 2))];
const R164_UNITS_NO_MODE: &[Item] = &[Int(10, Codes::Span(1, 9)), Text(20)];
const R164_FACTORS: &[Item] = &[Real(25), Real(25), Real(25)];
const R164_OFFSET: &[Item] = &[Real(25)];

/// 1815, records 1 to 24 as document 004 prints them.
const TWO_REALS: &[Item] = &[Real(15), Real(15)];
const ANY_LINE: &[Item] = &[Text(80)];
const R1815: [&[Item]; 24] = [
    // 1: number and name
    &[Int(12, ANY), Text(20)],
    // 2: minimum and maximum RPM
    TWO_REALS,
    // 3: arm switch, trigger type, duplicate switch, duplicate option, RPM channel
    &[
        Int(2, ANY),
        Int(6, Codes::Span(0, 3)),
        Int(2, ANY),
        Int(6, Codes::Span(1, 2)),
        Int(12, ANY),
    ],
    // 4: changes in time and RPM
    TWO_REALS,
    // 5: pulses
    TWO_REALS,
    // 6: tracking ratio, maximum order, resolution, frame size, subset switch
    &[Real(15), Real(15), Real(15), Int(12, ANY), Int(2, ANY)],
    // 7: replay ratio, phase reference switch and channel, window
    &[Real(15), Int(2, ANY), Int(12, ANY), Int(6, Codes::Span(0, 3))],
    // 8: trigger channel
    &[Int(12, ANY)],
    // 9: slope, level
    &[Int(6, Codes::Span(-1, 1)), Real(15)],
    // 10: bell switch, delay type, samples, time, percent
    &[Int(2, ANY), Int(6, Codes::Span(1, 3)), Int(12, ANY), Real(15), Real(15)],
    // 11: preview switch, autorange method, overload, two limits
    &[Int(2, ANY), Int(6, Codes::Span(1, 2)), Real(15), Real(15), Real(15)],
    // 12: results (there is no 4), composite power, amplitude units, eight switches
    &[
        Int(6, Codes::Listed(&[2, 3, 5, 6, 7, 8, 9, 10, 11, 12, 13, 14])),
        Int(6, Codes::Span(0, 2)),
        Int(6, Codes::Span(0, 3)),
        Int(2, ANY),
        Int(2, ANY),
        Int(2, ANY),
        Int(2, ANY),
        Int(2, ANY),
        Int(2, ANY),
        Int(2, ANY),
        Int(2, ANY),
    ],
    // 13: test log name
    &[Text(20)],
    // 14: description
    ANY_LINE,
    // 15: channels, units, grid, monitor, monitor switch
    &[
        Int(12, ANY),
        Int(6, Codes::Span(1, 2)),
        Int(6, Codes::Span(0, 3)),
        Int(6, Codes::Span(0, 9)),
        Int(2, ANY),
    ],
    // 16: range indicators, two limits
    &[Int(6, ANY), Real(15), Real(15)],
    // 17: hidden line switch, functions, start amplitude
    &[Int(2, ANY), Int(12, ANY), Real(15)],
    // 18: shutdown switch
    &[Int(2, ANY)],
    // 19: two switches, orders displayed
    &[Int(2, ANY), Int(2, ANY), Int(12, ANY)],
    // 20 to 23: any text
    ANY_LINE,
    ANY_LINE,
    ANY_LINE,
    ANY_LINE,
    // 24: the lengths of the two lists
    &[Int(12, Codes::Span(0, 256)), Int(12, Codes::Span(0, 256))],
];

/// One of the eight cases of 58: how its data lines are laid out.
struct Case {
    ordinate: i64,
    spacing: i64,
    /// Widths of the fields of a full line.
    widths: &'static [usize],
    /// Numbers stored for one value.
    numbers: u32,
}

const SINGLE: &[usize] = &[13; 6];
const DOUBLE: &[usize] = &[20; 4];

const CASES: [Case; 8] = [
    Case { ordinate: 2, spacing: 1, widths: SINGLE, numbers: 1 },
    Case { ordinate: 2, spacing: 0, widths: SINGLE, numbers: 2 },
    Case { ordinate: 5, spacing: 1, widths: SINGLE, numbers: 2 },
    Case { ordinate: 5, spacing: 0, widths: SINGLE, numbers: 3 },
    Case { ordinate: 4, spacing: 1, widths: DOUBLE, numbers: 1 },
    Case { ordinate: 4, spacing: 0, widths: &[13, 20, 13, 20], numbers: 2 },
    Case { ordinate: 6, spacing: 1, widths: DOUBLE, numbers: 2 },
    Case { ordinate: 6, spacing: 0, widths: &[13, 20, 20], numbers: 3 },
];

/// The fields of one line of 1815's lists.
const ORDERS: &[usize] = &[15; 5];

// What is due next ---------------------------------------------------------------------------

/// What the next line has to be.
#[derive(Clone, Copy)]
enum Due {
    /// Outside sets: a blank line or an opening delimiter.
    Opening,
    /// A number line.
    Number,
    /// A line of a plain set, or its closing delimiter.
    Plain,
    /// A closing delimiter and nothing else.
    Closing,
    /// 58: one of the lines 1 to 7.
    Head58(u32),
    /// 58: one of the lines 8 to 11; the case and the stored numbers are known.
    Axis58(u32, &'static [usize], u32),
    /// 58: stored numbers to come, so many, in lines of fields of these widths.
    Data58(&'static [usize], u32),
    /// 1815: reals to come, so many, in fields of these widths; after them so many more of the same
    /// kind, which start on a line of their own (the second list).
    Reals(&'static [usize], u32, u32),
    /// 82: lines 1 and 2 (with the entries then due), and entries still to come.
    Head82,
    Name82(u32),
    Entries82(u32),
    Line151(u32),
    Line164(u32),
    Record1815(u32),
}

/// Judges a whole file.
pub fn judge(file: &[u8]) -> Reply {
    if file.len() > LONGEST_FILE {
        return Reply::no_line(1);
    }
    let mut due = Due::Opening;
    let mut sets = 0;
    let mut lines = 0;
    let mut rest = file;
    while !rest.is_empty() {
        lines += 1;
        let end = rest.iter().position(|&b| b == LF);
        let line;
        match end {
            Some(at) => {
                // A CR directly before the LF belongs to the line's end.
                line = if at > 0 && rest[at - 1] == CR { &rest[..at - 1] } else { &rest[..at] };
                rest = &rest[at + 1..];
            }
            None => {
                line = rest;
                rest = &[];
            }
        }
        match form(line, end.is_some()).and_then(|()| step(due, line, &mut sets)) {
            Ok(next) => due = next,
            Err(Fault { number, column }) => return Reply::refused(number, lines, column as u32),
        }
    }
    match due {
        Due::Opening if sets == 0 => Reply::no_line(16),
        Due::Opening => Reply::accepted(lines),
        _ => Reply::refused(7, lines + 1, 1),
    }
}

/// The refusals that any line may get, wherever it stands: 2, 3 and 4.
fn form(line: &[u8], ended: bool) -> Result<(), Fault> {
    let allowed = |b: &u8| (32..=126).contains(b);
    if line.iter().fold(false, |bad, b| bad | !allowed(b)) {
        let before = line.iter().take_while(|b| allowed(b)).count();
        Err(after(before)(2))
    } else if line.len() > MOST_COLUMNS {
        Err(whole_line(3))
    } else if !ended {
        Err(whole_line(4))
    } else {
        Ok(())
    }
}

/// Judges one line by its place and says what is due after it.
fn step(due: Due, line: &[u8], sets: &mut u32) -> Result<Due, Fault> {
    if is_delimiter(line) {
        return match due {
            Due::Opening if *sets == MOST_SETS => Err(whole_line(15)),
            Due::Opening => {
                *sets += 1;
                Ok(Due::Number)
            }
            Due::Number => Err(whole_line(6)),
            Due::Plain | Due::Closing => Ok(Due::Opening),
            _ => Err(whole_line(7)),
        };
    }
    match due {
        Due::Opening => {
            if is_blank(line) {
                Ok(due)
            } else {
                Err(whole_line(5))
            }
        }
        Due::Number => match number_line(line) {
            None => Err(whole_line(6)),
            Some(58) => Ok(Due::Head58(1)),
            Some(82) => Ok(Due::Head82),
            Some(151) => Ok(Due::Line151(1)),
            Some(164) => Ok(Due::Line164(1)),
            Some(1815) => Ok(Due::Record1815(1)),
            Some(_) => Ok(Due::Plain),
        },
        Due::Plain => Ok(due),
        Due::Closing => Err(whole_line(8)),
        Due::Head58(n) => head_58(n, line),
        Due::Axis58(n, widths, numbers) => {
            record(R58_AXIS, line)?;
            Ok(if n < 11 {
                Due::Axis58(n + 1, widths, numbers)
            } else {
                Due::Data58(widths, numbers)
            })
        }
        Due::Data58(widths, numbers) => {
            let here = widths.len().min(numbers as usize);
            data(widths, here, line)?;
            let left = numbers - here as u32;
            Ok(if left > 0 { Due::Data58(widths, left) } else { Due::Closing })
        }
        Due::Reals(widths, numbers, more) => {
            let here = widths.len().min(numbers as usize);
            reals(&widths[..here], line)?;
            Ok(list(widths, numbers - here as u32, more))
        }
        Due::Head82 => {
            let got = record(R82_HEAD, line)?;
            Ok(Due::Name82(got[1] as u32))
        }
        Due::Name82(entries) => {
            text(line)?;
            Ok(Due::Entries82(entries))
        }
        Due::Entries82(entries) => {
            let here = entries.min(8);
            record(&[Int(10, FROM_0); 8][..here as usize], line)?;
            Ok(if entries > here { Due::Entries82(entries - here) } else { Due::Closing })
        }
        Due::Line151(n) => {
            match n {
                4 if !is_blank(columns(line, 20, 50)) => {
                    record(R151_MADE, line)?;
                }
                4 | 5 | 7 => {
                    // On line 4 the three integers are wholly blank here; what stands past
                    // column 50 is outside the fields all the same.
                    record(R151_DATE, line)?;
                }
                _ => {}
            }
            Ok(if n < 7 { Due::Line151(n + 1) } else { Due::Closing })
        }
        Due::Line164(n) => {
            match n {
                1 if is_blank(columns(line, 30, 40)) => {
                    record(R164_UNITS_NO_MODE, line)?;
                }
                1 => {
                    record(R164_UNITS, line)?;
                }
                2 => {
                    let signs = record(R164_FACTORS, line)?;
                    if let Some(n) = signs[..3].iter().position(|&sign| sign <= 0) {
                        return Err(after(25 * n)(14));
                    }
                }
                _ => {
                    record(R164_OFFSET, line)?;
                }
            }
            Ok(if n < 3 { Due::Line164(n + 1) } else { Due::Closing })
        }
        Due::Record1815(n) => {
            let got = record(R1815[n as usize - 1], line)?;
            Ok(if n < 24 {
                Due::Record1815(n + 1)
            } else {
                list(ORDERS, got[0] as u32, got[1] as u32)
            })
        }
    }
}

/// What is due when so many reals are left and so many more come after them.
fn list(widths: &'static [usize], left: u32, more: u32) -> Due {
    match (left, more) {
        (0, 0) => Due::Closing,
        (0, _) => Due::Reals(widths, more, 0),
        _ => Due::Reals(widths, left, more),
    }
}

/// 58, lines 1 to 7.
fn head_58(n: u32, line: &[u8]) -> Result<Due, Fault> {
    match n {
        1..=5 => {
            text(line)?;
            Ok(Due::Head58(n + 1))
        }
        6 => {
            record(R58_DOF, line)?;
            Ok(Due::Head58(7))
        }
        _ => {
            // For a real the sign of its value is kept: -1, 0 or 1.
            let got = record(R58_FORM, line)?;
            let (ordinate, count, spacing) = (got[0], got[1] as u32, got[2]);
            // Minimum and increment, in columns 31 to 43 and 44 to 56.
            if spacing == 0 && got[3] != 0 {
                return Err(after(30)(14));
            }
            if spacing == 0 && got[4] != 0 {
                return Err(after(43)(14));
            }
            match CASES.iter().find(|c| c.ordinate == ordinate && c.spacing == spacing) {
                Some(case) => Ok(Due::Axis58(8, case.widths, count * case.numbers)),
                // The codes have been checked, so a case is always found.
                None => Err(whole_line(11)),
            }
        }
    }
}

// Lines and fields ---------------------------------------------------------------------------

fn is_blank(bytes: &[u8]) -> bool {
    bytes.iter().all(|&b| b == b' ')
}

/// Four blanks, -1 and then only blanks.
fn is_delimiter(line: &[u8]) -> bool {
    line.starts_with(b"    -1") && is_blank(&line[6..])
}

/// The columns of a line from one up to another (from 0, the last left out), as far as the line
/// has them; what is missing is blank.
fn columns(line: &[u8], from: usize, to: usize) -> &[u8] {
    &line[from.min(line.len())..to.min(line.len())]
}

/// The dataset number, or none if the number line is wrong.
fn number_line(line: &[u8]) -> Option<i64> {
    let number = integer(columns(line, 0, 6), 6).ok()?;
    let good = (1..=999_999).contains(&number) && is_blank(columns(line, 6, MOST_COLUMNS));
    good.then_some(number)
}

/// A text line that may not be blank.
fn text(line: &[u8]) -> Result<(), Fault> {
    if is_blank(line) {
        Err(whole_line(9))
    } else {
        Ok(())
    }
}

/// Judges a line by a record: the fields from left to right, then the bytes outside of them.
/// Answers the value of each integer and, for each real, the sign of its value.
fn record(items: &[Item], line: &[u8]) -> Result<[i64; MOST_ITEMS], Fault> {
    let mut got = [0; MOST_ITEMS];
    let mut from = 0;
    for (item, place) in items.iter().zip(&mut got) {
        match *item {
            Int(width, codes) => {
                let value = integer(columns(line, from, from + width), width).map_err(after(from))?;
                let listed = match codes {
                    Codes::Span(least, greatest) => least <= value && value <= greatest,
                    Codes::Listed(list) => list.contains(&value),
                };
                if !listed {
                    return Err(after(from)(11));
                }
                *place = value;
                from += width;
            }
            Real(width) => {
                *place = real(columns(line, from, from + width), width).map_err(after(from))?;
                from += width;
            }
            Text(width) | Skip(width) => from += width,
        }
    }
    let mut from = 0;
    for item in items {
        match *item {
            Skip(width) => {
                no_stray(line, from, from + width)?;
                from += width;
            }
            Int(width, _) | Real(width) | Text(width) => from += width,
        }
    }
    no_stray(line, from, MOST_COLUMNS)?;
    Ok(got)
}

/// Columns outside the fields, from one up to another (from 0, the last left out): all blank.
fn no_stray(line: &[u8], from: usize, to: usize) -> Result<(), Fault> {
    match columns(line, from, to).iter().position(|&b| b != b' ') {
        Some(more) => Err(after(from + more)(13)),
        None => Ok(()),
    }
}

/// Judges a data line of a 58 that has so many counted numbers in fields of these widths. C-13: the full line's
/// columns past them are all blank, or padding, which is judged as all the fields are. Only a last line has any.
fn data(widths: &[usize], counted: usize, line: &[u8]) -> Result<(), Fault> {
    let past = |fields: usize| widths[..fields].iter().sum();
    let padded = !is_blank(columns(line, past(counted), past(widths.len())));
    reals(if padded { widths } else { &widths[..counted] }, line)
}

/// Judges a line of reals with fields of these widths and nothing after them.
fn reals(widths: &[usize], line: &[u8]) -> Result<(), Fault> {
    let mut from = 0;
    for &width in widths {
        real(columns(line, from, from + width), width).map_err(after(from))?;
        from += width;
    }
    no_stray(line, from, MOST_COLUMNS)
}

/// An integer field: blanks, an optional sign, digits up to the last column. A field that the
/// line ends before (it is filled with blanks) can't have a digit in its last column. Refused with
/// 24 (blank), 10 (malformed) or 11.
fn integer(field: &[u8], width: usize) -> Result<i64, u32> {
    if is_blank(field) {
        return Err(24);
    }
    if field.len() < width {
        return Err(10);
    }
    let (sign, rest) = sign(field);
    if rest.is_empty() || digits(rest) < rest.len() {
        return Err(10);
    }
    // Twelve digits at most, so nothing overflows.
    let size = rest.iter().fold(0, |size, &b| 10 * size + i64::from(b - b'0'));
    let value = sign * size;
    if (LEAST..=GREATEST).contains(&value) {
        Ok(value)
    } else {
        Err(11)
    }
}

/// A real field: blanks, an optional sign, 1 to 18 digits with one point, and then a letter, a sign and
/// two or three digits, or a sign and just three digits, up to the last column. Answers the sign of the
/// value: -1, 0 or 1. Refused with 25 (blank) or 12 (malformed).
fn real(field: &[u8], width: usize) -> Result<i64, u32> {
    if is_blank(field) {
        return Err(25);
    }
    if field.len() < width {
        return Err(12);
    }
    let (sign, rest) = sign(field);
    let (whole, rest) = rest.split_at(digits(rest));
    let [b'.', rest @ ..] = rest else {
        return Err(12);
    };
    let (fraction, rest) = rest.split_at(digits(rest));
    if !(1..=18).contains(&(whole.len() + fraction.len())) {
        return Err(12);
    }
    let (least, exponent) = match rest {
        [b'E' | b'e' | b'D' | b'd', b'+' | b'-', exponent @ ..] => (2, exponent),
        [b'+' | b'-', exponent @ ..] => (3, exponent),
        _ => return Err(12),
    };
    if !(least..=3).contains(&exponent.len()) || digits(exponent) < exponent.len() {
        return Err(12);
    }
    let zero = whole.iter().chain(fraction).all(|&b| b == b'0');
    Ok(if zero { 0 } else { sign })
}

/// Passes over the blanks and the optional sign that a number begins with: 1 or -1, and the rest.
fn sign(field: &[u8]) -> (i64, &[u8]) {
    let mut rest = field;
    while let [b' ', after @ ..] = rest {
        rest = after;
    }
    match rest {
        [b'+', after @ ..] => (1, after),
        [b'-', after @ ..] => (-1, after),
        _ => (1, rest),
    }
}

/// How many digits the bytes begin with.
fn digits(bytes: &[u8]) -> usize {
    bytes.iter().take_while(|b| b.is_ascii_digit()).count()
}
