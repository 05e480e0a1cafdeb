//! A deterministic generator of FORMAT texts and lines.
//!
//! `proper` writes a list of items by the grammar, in random spellings, and says what it holds; `any_text` damages such texts too, and
//! gives strings of bytes that are a FORMAT by chance only. `line_for` fills a line by fields, now and then with something wrong.

use crate::field::{Field, Kind, LONGEST_TEXT, MOST_COLUMNS};
use crate::generate::Random;

pub fn pick<T: Copy>(random: &mut Random, list: &[T]) -> T {
    list[random.below(list.len())]
}

/// A FORMAT text and what it holds by its making: its fields, X columns left out, for each how many items Fortran has there
/// (an A item with a count is several to it), its columns and how deep its groups are.
pub struct Made {
    pub text: Vec<u8>,
    pub fields: Vec<Field>,
    pub items: Vec<usize>,
    pub columns: usize,
    pub depth: usize,
}

impl Made {
    /// The fields, or the refusal that a text of these columns, groups and bytes has.
    pub fn reading(&self) -> Result<Vec<Field>, u32> {
        if self.text.len() > LONGEST_TEXT {
            Err(26)
        } else if self.depth > 3 || self.columns > MOST_COLUMNS {
            Err(27)
        } else {
            Ok(self.fields.clone())
        }
    }

    fn add(&mut self, kind: Kind, items: usize, width: usize) {
        let first = self.columns;
        self.columns += items * width;
        self.fields.push(Field { kind, first, past: self.columns });
        self.items.push(items);
    }

    fn append(&mut self, other: &Made) {
        for field in &other.fields {
            let (first, past) = (self.columns + field.first, self.columns + field.past);
            self.fields.push(Field { kind: field.kind, first, past });
        }
        self.items.extend_from_slice(&other.items);
        self.columns += other.columns;
        self.depth = self.depth.max(other.depth);
    }
}

const NOTHING: Made = Made { text: Vec::new(), fields: Vec::new(), items: Vec::new(), columns: 0, depth: 0 };

/// A FORMAT by the grammar; most have 80 columns and three groups at most.
pub fn proper(random: &mut Random) -> Made {
    let room = pick(random, &[10, 40, 80, 80, 80, 90]);
    let groups = pick(random, &[1, 2, 3, 3, 3, 4]);
    let mut made = list(random, room, groups);
    // The pair around the whole text is not counted; one more would be.
    if random.one_in(3) {
        made.text = [b"(".as_slice(), &made.text, b")"].concat();
    } else if is_bracketed(&made.text) {
        made.depth -= 1;
    }
    match random.below(8) {
        0 | 1 => blanks(random, &mut made.text),
        2 => {
            let long = pick(random, &[119, 120, 121]).max(made.text.len());
            let before = random.below(long - made.text.len() + 1);
            made.text.splice(0..0, std::iter::repeat_n(b' ', before));
            made.text.resize(long, b' ');
        }
        _ => {}
    }
    made
}

/// Is the first bracket, which is the first byte, closed by the last byte?
fn is_bracketed(text: &[u8]) -> bool {
    let mut open = 0;
    let closed = text.iter().position(|byte| {
        open += i32::from(*byte == b'(') - i32::from(*byte == b')');
        open == 0
    });
    text[0] == b'(' && closed == Some(text.len() - 1)
}

/// Puts blanks anywhere.
fn blanks(random: &mut Random, text: &mut Vec<u8>) {
    for _ in 0..1 + random.below(12) {
        let at = random.below(text.len() + 1);
        text.insert(at, b' ');
    }
}

/// Items of about so many columns, with so many groups in each other at most.
fn list(random: &mut Random, room: usize, groups: usize) -> Made {
    let mut made = NOTHING;
    let most = pick(random, &[1, 2, 3, 5, 8]);
    for n in 0..most {
        let left = room.saturating_sub(made.columns);
        if n > 0 && left == 0 {
            break;
        }
        if n > 0 {
            made.text.push(b',');
        }
        let item = if groups > 0 && random.one_in(3) { group(random, left.max(1), groups) } else { plain(random, left.max(1)) };
        made.text.extend_from_slice(&item.text);
        made.append(&item);
    }
    made
}

fn group(random: &mut Random, room: usize, groups: usize) -> Made {
    let count = pick(random, &[1, 1, 1, 2, 2, 3, 5]).min(room);
    let inner = list(random, room / count, groups - 1);
    let mut made = Made { text: spelled_count(random, count), ..NOTHING };
    made.text.push(b'(');
    made.text.extend_from_slice(&inner.text);
    made.text.push(b')');
    for _ in 0..count {
        made.append(&inner);
    }
    made.depth = inner.depth + 1;
    made
}

fn spelled_count(random: &mut Random, count: usize) -> Vec<u8> {
    if count == 1 && !random.one_in(4) {
        Vec::new()
    } else {
        count.to_string().into_bytes()
    }
}

fn plain(random: &mut Random, room: usize) -> Made {
    let letter = pick(random, b"IIIAAEEEDX");
    let usual = match letter {
        b'I' => pick(random, &[1, 2, 5, 6, 10, 10, 12, 24]),
        b'A' => pick(random, &[1, 1, 2, 10]),
        b'X' => 1,
        _ => pick(random, &[7, 10, 13, 13, 15, 20, 25, 30]),
    };
    let width = if random.one_in(12) { 1 + random.below(80) } else { usual.min(room) };
    let most = if random.one_in(16) { 90 } else { (room / width).clamp(1, 12) };
    let count = 1 + if random.one_in(2) { 0 } else { random.below(most) };
    let scaled = b"ED".contains(&letter) && random.one_in(3);
    let mut made = Made { text: if scaled { b"1P".to_vec() } else { Vec::new() }, ..NOTHING };
    let spelled = spelled_count(random, count);
    made.text.extend_from_slice(&spelled);
    made.text.push(letter);
    match letter {
        b'X' => made.columns = count,
        b'A' => made.add(Kind::Text, count, width),
        _ => {
            let kind = if letter == b'I' { Kind::Integer } else { Kind::Real };
            (0..count).for_each(|_| made.add(kind, 1, width));
        }
    }
    if letter != b'X' {
        made.text.extend_from_slice(width.to_string().as_bytes());
    }
    if b"ED".contains(&letter) {
        let any = random.below(width + 1);
        let decimals = pick(random, &[0, 5, 7, 12, width, any]).min(width);
        made.text.extend_from_slice(format!(".{decimals}").as_bytes());
    }
    made
}

/// Pieces of FORMAT texts.
const PIECES: [&[u8]; 24] = [
    b"I5", b"I10", b"A1", b"10A2", b"E13.5", b"1PE13.5", b"1P", b"D25.17", b"X", b"2X", b"(", b")", b"2(", b"1(", b"),", b",",
    b",", b" ", b"0", b"2", b".", b"18446744073709551616", b"99999999", b"\t",
];

/// A proper text, a damaged one, or bytes that are a FORMAT by chance only.
pub fn any_text(random: &mut Random) -> Vec<u8> {
    match random.below(8) {
        0..=3 => proper(random).text,
        4 | 5 => {
            let mut text = proper(random).text;
            for _ in 0..1 + random.below(2) {
                damage(random, &mut text);
            }
            text
        }
        6 => (0..1 + random.below(9)).flat_map(|_| pick(random, &PIECES).to_vec()).collect(),
        _ if random.one_in(4) => (0..random.below(130)).map(|_| random.below(256) as u8).collect(),
        _ => (0..random.below(20)).map(|_| pick(random, b"IAEDXP0123455(()),,. ")).collect(),
    }
}

/// Changes a text in one random way.
fn damage(random: &mut Random, text: &mut Vec<u8>) {
    let at = random.below(text.len().max(1));
    let byte = pick(random, b"IAEDXPiaedxp0123456789012(),.. \t\n\r-+F/");
    match random.below(6) {
        0 | 1 if !text.is_empty() => text[at] = byte,
        2 if !text.is_empty() => drop(text.remove(at)),
        3 if at + 1 < text.len() => text.swap(at, at + 1),
        // A number grows.
        4 => {
            let digits = pick(random, &[b"0".as_slice(), b"1", b"9", b"00", b"18446744073709551616", b"4294967296"]);
            text.splice(at..at, digits.iter().copied());
        }
        _ => text.insert(at, byte),
    }
}

// Lines --------------------------------------------------------------------------------------

/// A line by fields. About one thing in so many is wrong; none where it is 0.
pub fn line_for(random: &mut Random, fields: &[Field], one_in: usize) -> Vec<u8> {
    let mut line = vec![b' '; MOST_COLUMNS];
    let wrong = |random: &mut Random| one_in > 0 && random.one_in(one_in);
    for field in fields {
        let columns = &mut line[field.first..field.past];
        match field.kind {
            Kind::Text => text(random, columns),
            Kind::Integer => integer(random, columns),
            Kind::Real => real(random, columns),
        }
        if wrong(random) {
            spoil(random, columns);
        }
    }
    if wrong(random) {
        line[random.below(MOST_COLUMNS)] = pick(random, b"x0~.");
    }
    while line.last() == Some(&b' ') && !random.one_in(20) {
        line.pop();
    }
    if one_in > 0 && random.one_in(8) {
        spoil_line(random, &mut line);
    }
    line
}

fn text(random: &mut Random, columns: &mut [u8]) {
    let kind = random.below(4);
    for byte in columns {
        match kind {
            0 => *byte = 32 + random.below(95) as u8,
            1 if random.one_in(4) => *byte = pick(random, b"0123456789.E+-"),
            2 => *byte = b'N',
            _ => {}
        }
    }
}

/// Any digits that fit, often all the columns, with a sign or without.
fn integer(random: &mut Random, columns: &mut [u8]) {
    let width = columns.len();
    let digits = 1 + if random.one_in(3) { width - 1 } else { random.below(width.min(6)) };
    let from = width - digits;
    columns[from..].iter_mut().for_each(|byte| *byte = b'0' + random.below(10) as u8);
    if from > 0 && random.one_in(3) {
        columns[from - 1] = pick(random, b"+-");
    }
}

/// A real in any spelling; digits where the columns have no room for one.
fn real(random: &mut Random, columns: &mut [u8]) {
    let (letter, digits) = pick(random, &[("E", 2), ("E", 2), ("D", 2), ("e", 3), ("d", 3), ("", 3), ("", 3)]);
    let exponent: String = (0..digits).map(|_| pick(random, b"0123456789") as char).collect();
    let tail = format!("{letter}{}{exponent}", pick(random, b"+-") as char);
    let sign = pick(random, &["", "", "", "-", "-", "+"]);
    let Some(room) = columns.len().checked_sub(tail.len() + sign.len() + 1).filter(|&room| room > 0) else {
        return integer(random, columns);
    };
    let most = if random.one_in(40) { room } else { room.min(18) };
    let count = if random.one_in(3) { most } else { 1 + random.below(most) };
    let mut mantissa: String = (0..count).map(|_| pick(random, b"0123456789") as char).collect();
    let anywhere = random.below(count + 1);
    let point = pick(random, &[0, 1, 1, 1, count, anywhere]);
    mantissa.insert(point, '.');
    let spelled = format!("{sign}{mantissa}{tail}");
    let from = columns.len() - spelled.len();
    columns[from..].copy_from_slice(spelled.as_bytes());
}

/// A field becomes blank, or one of its bytes another, or it moves by a column.
fn spoil(random: &mut Random, columns: &mut [u8]) {
    match random.below(4) {
        0 => columns.fill(b' '),
        1 => columns.rotate_left(1),
        2 => columns[random.below(columns.len())] = b' ',
        _ => columns[random.below(columns.len())] = pick(random, b"+-.EeDdx0 "),
    }
}

/// A bad byte anywhere, past column 80 too, or more than 80 columns.
fn spoil_line(random: &mut Random, line: &mut Vec<u8>) {
    match random.below(5) {
        0 => line.resize(pick(random, &[80, 81, 81, 82, 100]).max(line.len()), b' '),
        1 => line.extend_from_slice(pick(random, &[b"\n".as_slice(), b"\r", b"\r\n", b"x"])),
        2 => {
            line.resize(81 + random.below(20), b' ');
            let at = random.below(line.len());
            line[at] = pick(random, b"\t\r\n\0\x7f\x80\xff");
        }
        _ => {
            let at = random.below(line.len() + 1);
            line.insert(at, random.below(256) as u8);
        }
    }
}

/// A line that is nobody's.
pub fn any_line(random: &mut Random) -> Vec<u8> {
    let most = pick(random, &[1, 10, 81, 90]);
    let length = random.below(most);
    match random.below(3) {
        0 => (0..length).map(|_| random.below(256) as u8).collect(),
        1 => (0..length).map(|_| 32 + random.below(95) as u8).collect(),
        _ => (0..length).map(|_| pick(random, b"    0123456789+-.E")).collect(),
    }
}
