//! A plain lister, reader and rewriter of Universal Files: the second opinion.
//!
//! It was written from the papers alone (document 01, the source documents it names, requests C-12 and
//! C-13 of document 02, the readings settled for them and the shapes of the C boundary) by somebody who
//! had not seen the proved one.
//! The plain judge beside it judges first; what that judge accepts is not doubted again here.
//! Refusals 17 and 20 are about lent places, so they are the caller's. Safe Rust, standard library
//! only.

use crate::common::uff::{Row, NUMBER_BYTES};
use crate::judge::{judge, Reply};

/// No such set, number or value, or not a 58.
const NO_SUCH: Reply = Reply::no_line(18);

/// A number outside the exact path.
const NOT_EXACT: Reply = Reply::no_line(21);

const DELIMITER: &[u8] = b"    -1";

/// Lines of a 58 between its number line and its data lines.
const HEADER_LINES: usize = 11;

/// Document 01's lister: opening line, dataset number, declared count, first byte, byte past the
/// closing line, first byte of the data lines of each set, and C-13's padding numbers.
pub fn list(file: &[u8]) -> Result<Vec<Row>, Reply> {
    Ok(accept(file)?.list())
}

/// Document 01's reader: the stored number of a set (from 1) at an index (from 0).
pub fn number(file: &[u8], set: u32, index: u32) -> Result<Number, Reply> {
    accept(file)?.number(set, index)
}

/// Document 01's reader: the value of a set (from 1) at an index (from 0), as its kind (1 real,
/// 2 complex pair, 3 abscissa and real, 4 abscissa and complex pair) and its f64.
pub fn value(file: &[u8], set: u32, index: u32) -> Result<(u32, Vec<f64>), Reply> {
    accept(file)?.value(set, index)
}

/// Every stored number of a set (from 1) as f64: abscissa where uneven, real part, imaginary part
/// where complex, value after value.
pub fn values(file: &[u8], set: u32) -> Result<Vec<f64>, Reply> {
    accept(file)?.values(set)
}

/// Document 01's rewriter.
pub fn rewrite(file: &[u8]) -> Result<Vec<u8>, Reply> {
    Ok(accept(file)?.rewrite())
}

/// A stored number of a 58: the bytes of its columns, and what they mean.
#[derive(Clone, Copy, Debug, PartialEq, Eq)]
pub struct Number {
    pub first: u32,
    pub past: u32,
    pub negative: bool,
    pub coefficient: u64,
    pub scale: i16,
}

impl Number {
    /// Its bytes for C, each part with its lowest byte first: first, past, coefficient, scale, sign, zero.
    pub fn bytes(&self) -> Vec<u8> {
        let mut bytes = Vec::with_capacity(NUMBER_BYTES);
        bytes.extend(self.first.to_le_bytes());
        bytes.extend(self.past.to_le_bytes());
        bytes.extend(self.coefficient.to_le_bytes());
        bytes.extend(self.scale.to_le_bytes());
        bytes.push(u8::from(self.negative));
        bytes.push(0);
        bytes
    }
}

/// An accepted file, cut into its sets.
pub struct Accepted<'a> {
    sets: Vec<Dataset<'a>>,
}

/// A set, its number line and its delimiters left out of the lines.
struct Dataset<'a> {
    opening_line: u32,
    number: u32,
    first: usize,
    past: usize,
    lines: Vec<Line<'a>>,
    /// Of a 58 only.
    form: Option<Form>,
}

/// A line's first byte and its text without its end and the blanks before that.
struct Line<'a> {
    first: usize,
    text: &'a [u8],
}

/// What line 7 of a 58 says of its data lines.
struct Form {
    count: u32,
    uneven: bool,
    complex: bool,
    /// Widths of the fields of a full line.
    widths: &'static [usize],
}

/// Judges a file and, if it is accepted, cuts it into its sets.
pub fn accept(file: &[u8]) -> Result<Accepted<'_>, Reply> {
    let reply = judge(file);
    if reply.number != 0 {
        return Err(reply);
    }
    let mut sets = Vec::new();
    let mut open: Option<Dataset> = None;
    let mut first = 0;
    for (n, line) in file.split_inclusive(|&b| b == b'\n').enumerate() {
        let past = first + line.len();
        let text = bare(line);
        match &mut open {
            None if text.is_empty() => {}
            None => {
                let (opening_line, lines) = (n as u32 + 1, Vec::new());
                open = Some(Dataset { opening_line, number: 0, first, past, lines, form: None });
            }
            Some(set) if set.number == 0 => set.number = integer(&text[..6]) as u32,
            Some(set) if text == DELIMITER => {
                set.past = past;
                // Line 7 of a 58 has the form of its data.
                set.form = (set.number == 58).then(|| form(set.lines[6].text));
                sets.extend(open.take());
            }
            Some(set) => set.lines.push(Line { first, text }),
        }
        first = past;
    }
    Ok(Accepted { sets })
}

impl Accepted<'_> {
    pub fn list(&self) -> Vec<Row> {
        let row = |set: &Dataset| {
            let (count, data, padding) = match &set.form {
                Some(form) => (form.count, set.lines[HEADER_LINES].first as u32, set.padding(form)),
                None => (0, 0, 0),
            };
            [set.opening_line, set.number, count, set.first as u32, set.past as u32, data, padding]
        };
        self.sets.iter().map(row).collect()
    }

    pub fn number(&self, set: u32, index: u32) -> Result<Number, Reply> {
        let (set, form) = self.function(set)?;
        if u64::from(index) >= u64::from(form.count) * form.numbers() {
            return Err(NO_SUCH);
        }
        Ok(set.number_at(form, index as usize))
    }

    pub fn value(&self, set: u32, index: u32) -> Result<(u32, Vec<f64>), Reply> {
        let (set, form) = self.function(set)?;
        if index >= form.count {
            return Err(NO_SUCH);
        }
        let kind = match (form.uneven, form.complex) {
            (false, false) => 1,
            (false, true) => 2,
            (true, false) => 3,
            (true, true) => 4,
        };
        let k = form.numbers() as usize;
        let i = index as usize;
        let mut shown = Vec::new();
        for j in i * k..i * k + k {
            let number = set.number_at(form, j);
            shown.push(real(number.negative, number.coefficient, number.scale).ok_or(NOT_EXACT)?);
        }
        Ok((kind, shown))
    }

    /// One pass over the data lines; of the last one only the fields that are left count.
    pub fn values(&self, set: u32) -> Result<Vec<f64>, Reply> {
        let (set, form) = self.function(set)?;
        let total = form.count as usize * form.numbers() as usize;
        let mut values = Vec::with_capacity(total);
        for line in &set.lines[HEADER_LINES..] {
            let mut rest = line.text;
            for &width in form.widths.iter().take(total - values.len()) {
                let (field, after) = rest.split_at(width);
                let (negative, coefficient, scale) = meaning(field);
                values.push(real(negative, coefficient, scale).ok_or(NOT_EXACT)?);
                rest = after;
            }
        }
        Ok(values)
    }

    pub fn rewrite(&self) -> Vec<u8> {
        let mut out = Vec::new();
        for set in &self.sets {
            let number = format!("{:6}", set.number);
            let inside = (0..set.lines.len()).map(|n| set.kept(n));
            for line in [DELIMITER, number.as_bytes()].into_iter().chain(inside).chain([DELIMITER]) {
                out.extend_from_slice(line);
                out.push(b'\n');
            }
        }
        out
    }

    /// The set of this number (from 1), which has to be a 58.
    fn function(&self, set: u32) -> Result<(&Dataset<'_>, &Form), Reply> {
        let at = (set as usize).checked_sub(1).ok_or(NO_SUCH)?;
        let set = self.sets.get(at).ok_or(NO_SUCH)?;
        let form = set.form.as_ref().ok_or(NO_SUCH)?;
        Ok((set, form))
    }
}

impl Dataset<'_> {
    /// C-13: the padding numbers of a 58, all the last line's fields past the counted ones where these are not blank.
    fn padding(&self, form: &Form) -> u32 {
        let padded = self.lines.last().is_some_and(|last| last.text.len() > form.last_columns());
        if padded {
            (form.widths.len() - form.last_fields()) as u32
        } else {
            0
        }
    }

    /// A line's text (from 0) without padding.
    fn kept(&self, n: usize) -> &[u8] {
        let text = self.lines[n].text;
        match &self.form {
            Some(form) if n + 1 == self.lines.len() => &text[..form.last_columns()],
            _ => text,
        }
    }

    /// A stored number that is there.
    fn number_at(&self, form: &Form, index: usize) -> Number {
        let fields = form.widths.len();
        let line = &self.lines[HEADER_LINES + index / fields];
        let field = index % fields;
        let from = form.widths[..field].iter().sum::<usize>();
        let to = from + form.widths[field];
        let (negative, coefficient, scale) = meaning(&line.text[from..to]);
        let (first, past) = ((line.first + from) as u32, (line.first + to) as u32);
        Number { first, past, negative, coefficient, scale }
    }
}

impl Form {
    /// Numbers stored for one value: its abscissa where uneven, its real and imaginary part.
    fn numbers(&self) -> u64 {
        1 + u64::from(self.uneven) + u64::from(self.complex)
    }

    /// The counted fields of the last data line, 1 to a full line's, and the columns that they take.
    fn last_fields(&self) -> usize {
        let stored = self.count as usize * self.numbers() as usize;
        (stored - 1) % self.widths.len() + 1
    }

    fn last_columns(&self) -> usize {
        self.widths[..self.last_fields()].iter().sum()
    }
}

/// What a 58's line 7 (3I10,3E13.5) says of its data: ordinate type, count and spacing.
fn form(line: &[u8]) -> Form {
    let ordinate = integer(&line[..10]);
    let count = integer(&line[10..20]) as u32;
    let uneven = integer(&line[20..30]) == 0;
    let complex = ordinate == 5 || ordinate == 6;
    let double = ordinate == 4 || ordinate == 6;
    let widths: &[usize] = match (double, uneven, complex) {
        (false, _, _) => &[13, 13, 13, 13, 13, 13],
        (true, false, _) => &[20, 20, 20, 20],
        (true, true, false) => &[13, 20, 13, 20],
        (true, true, true) => &[13, 20, 20],
    };
    Form { count, uneven, complex, widths }
}

/// A line without its end and the blanks before that.
fn bare(line: &[u8]) -> &[u8] {
    let line = line.strip_suffix(b"\n").unwrap_or(line);
    let line = line.strip_suffix(b"\r").unwrap_or(line);
    let past = line.iter().rposition(|&b| b != b' ').map_or(0, |last| last + 1);
    &line[..past]
}

fn text(field: &[u8]) -> &str {
    std::str::from_utf8(field).expect("an accepted field").trim_start_matches(' ')
}

/// What an accepted integer field means.
fn integer(field: &[u8]) -> i64 {
    text(field).parse().expect("an accepted integer field")
}

/// What an accepted real field means: is it negative, its coefficient and its scale.
pub fn meaning(field: &[u8]) -> (bool, u64, i16) {
    // The exponent, which has two or three digits, begins with the last sign.
    let digits = if b"+-".contains(&field[field.len() - 3]) { 2 } else { 3 };
    let (before, exponent) = field.split_at(field.len() - digits - 1);
    let (mut negative, mut coefficient, mut decimals, mut pointed) = (false, 0, 0, false);
    for &byte in before {
        match byte {
            // 18 digits at most, so nothing overflows.
            b'0'..=b'9' => {
                coefficient = 10 * coefficient + u64::from(byte - b'0');
                decimals += i16::from(pointed);
            }
            b'.' => pointed = true,
            b'-' => negative = true,
            // A blank, a plus, or the letter if there is one.
            _ => {}
        }
    }
    let size = exponent[1..].iter().fold(0, |x, &digit| 10 * x + i16::from(digit - b'0'));
    (negative, coefficient, if exponent[0] == b'-' { -size } else { size } - decimals)
}

/// The powers of ten that f64 has exactly.
const POWERS: [f64; 23] = [
    1e0, 1e1, 1e2, 1e3, 1e4, 1e5, 1e6, 1e7, 1e8, 1e9, 1e10, 1e11, 1e12, 1e13, 1e14, 1e15, 1e16,
    1e17, 1e18, 1e19, 1e20, 1e21, 1e22,
];

/// Document 01's exact path: one product or quotient, the sign put on last; none outside of it.
pub fn real(negative: bool, coefficient: u64, scale: i16) -> Option<f64> {
    if coefficient > 9_007_199_254_740_992 {
        return None;
    }
    let power = POWERS.get(usize::from(scale.unsigned_abs()))?;
    let size = if scale >= 0 { coefficient as f64 * power } else { coefficient as f64 / power };
    Some(if negative { -size } else { size })
}
