//! The FORMATs that source documents 000 to 004 print for the records of document 01, and which line of a file is which record.

/// A text as it is printed, blanks included; the brackets around it are put on and left off by the questions.
type Printed = &'static [&'static str];

const TEXT: Printed = &["80A1"];

/// 58, records 6, 7 and 8 to 11 (001, 000, 002).
const R58_DOF: Printed = &["2(I5,I10),2(1X,10A1,I10,I4)", "2(I5, I10), 2(1X, 10A1, I10, I4)", "2(I5,I10),2(1X, 10A1,I10,I4)"];
const R58_FORM: Printed = &["3I10,3E13.5"];
const R58_AXIS: Printed = &["I10,3I5,2(1X,20A1)"];

/// 58, a full data line of each case (001, 002).
const SINGLE: Printed = &["6E13.5"];
const DOUBLE: Printed = &["4E20.12", "4E20. 12"];
const DOUBLE_UNEVEN: Printed = &["2(E13.5,E20.12)", "2(E13.5,E20. 12)"];
const DOUBLE_COMPLEX_UNEVEN: Printed = &["E13.5,2E20.12", "E13.5,2E20. 12"];

/// 82 (000; 003 has record 3 without 000's misprint `8110`).
const R82_HEAD: Printed = &["3I10"];

/// 151 (000; 002's print of record 4 has no numbers, and its `10Al` of record 5 is a misprint).
const R151_MADE: Printed = &["10A1,10A1,3I10"];
const R151_DATE: Printed = &["10A1, 10A1", "10A1,10A1"];

/// 164 (000, 002; 002's print of record 1 has no mode).
const R164: [Printed; 3] = [&["I10,20A1,I10"], &["3D25.17"], &["1D25.17"]];

/// 1815, records 1 to 24 (004).
const R1815: [&str; 24] = [
    "I12, 10A2", "1P2E15.7", "2(1I2,1I6),1I12", "1P2E15.7", "1P2E15.7", "1P3E15.7,1I12,1I2", "1P1E15.7,1I2,1I12,1I6", "1I12",
    "1I6,1P1E15.7", "1I2,1I6,1I12,1P2E15.7", "1I2,1I6,1P3E15.7", "3I6,8I2", "10A2", "40A2", "1I12,3I6,1I2", "1I6,1P2E15.7",
    "1I2,1I12,1P1E15.7", "1I2", "2I2,1I12", "6I12", "6I12", "1P5E15.7", "1P5E15.7", "2I12",
];

/// Every text printed for a record.
pub fn printed() -> Vec<&'static str> {
    let rows = [
        TEXT,
        R58_DOF,
        R58_FORM,
        R58_AXIS,
        SINGLE,
        DOUBLE,
        DOUBLE_UNEVEN,
        DOUBLE_COMPLEX_UNEVEN,
        R82_HEAD,
        &["8I10"],
        R151_MADE,
        R151_DATE,
    ];
    let more: [&[&str]; 2] = [&R1815, &["1P5E15.7"]];
    rows.into_iter().chain(R164).chain(more).flatten().copied().collect()
}

/// What last lines of numbers hold: 58's, 82's and 1815's, every number of fields but the full line's.
pub const CUT: [&str; 20] = [
    "1E13.5", "2E13.5", "3E13.5", "4E13.5", "5E13.5", "1E20.12", "2E20.12", "3E20.12", "E13.5,E20.12", "1I10", "2I10", "3I10",
    "4I10", "5I10", "6I10", "7I10", "1P1E15.7", "1P2E15.7", "1P3E15.7", "1P4E15.7",
];

/// A line of a file, without its end, and the FORMATs of its record. None for what C-15 leaves out, and for plain sets.
pub struct Line<'a> {
    pub line: &'a [u8],
    pub formats: Vec<String>,
    /// Of a data line of a 58: the set (from 1) and the index of its first stored number.
    pub stored: Option<(u32, u32)>,
}

fn as_printed(texts: Printed) -> Vec<String> {
    texts.iter().map(|text| text.to_string()).collect()
}

/// The lines up to one (from 1) that is the first bad one, or all. Each before it is good, so that its set is known.
pub fn lines(file: &[u8], last: usize) -> Vec<Line<'_>> {
    let mut lines = Vec::new();
    let mut place = Place::default();
    for line in file.split_inclusive(|&b| b == b'\n').take(last) {
        let line = line.strip_suffix(b"\n").map_or(line, |line| line.strip_suffix(b"\r").unwrap_or(line));
        lines.push(place.take(line));
    }
    lines
}

/// Where the next line stands.
#[derive(Default)]
struct Place {
    /// The sets that have opened, and the number of the one that is open, or 0 where its number line is due.
    sets: u32,
    open: Option<i64>,
    /// Lines of the open set after its number line.
    taken: usize,
    /// Numbers or entries still to come, and those of 1815's second list.
    left: usize,
    more: usize,
    /// Numbers of the 58 that have come, and the row of its data.
    come: usize,
    data: Option<Row>,
}

/// A full data line's prints and fields.
#[derive(Clone, Copy)]
struct Row {
    printed: Printed,
    widths: &'static [usize],
}

impl Place {
    fn take<'a>(&mut self, line: &'a [u8]) -> Line<'a> {
        let none = Line { line, formats: Vec::new(), stored: None };
        let text = trimmed(line);
        match self.open {
            None if text == b"    -1" => {
                *self = Place { sets: self.sets + 1, open: Some(0), ..Place::default() };
                none
            }
            None => none,
            Some(0) => {
                self.open = Some(integer(line, 0, 6));
                none
            }
            Some(_) if text == b"    -1" => {
                self.open = None;
                none
            }
            Some(number) => {
                self.taken += 1;
                match number {
                    58 => self.line_58(line),
                    82 => Line { formats: self.line_82(line), ..none },
                    151 => Line { formats: self.line_151(line), ..none },
                    164 if self.taken <= 3 => Line { formats: self.line_164(line), ..none },
                    1815 => Line { formats: self.line_1815(line), ..none },
                    _ => none,
                }
            }
        }
    }

    fn line_58<'a>(&mut self, line: &'a [u8]) -> Line<'a> {
        let formats = match self.taken {
            1..=5 => as_printed(TEXT),
            6 => as_printed(R58_DOF),
            7 => {
                let (ordinate, count, spacing) = (integer(line, 0, 10), integer(line, 10, 20), integer(line, 20, 30));
                let numbers = 1 + i64::from(spacing == 0) + i64::from(ordinate > 4);
                self.left = (count * numbers) as usize;
                self.data = Some(row(ordinate, spacing));
                as_printed(R58_FORM)
            }
            8..=11 => as_printed(R58_AXIS),
            _ => return self.data_line(line),
        };
        Line { line, formats, stored: None }
    }

    /// "a last line of numbers is read by the FORMAT of what it holds, C-13's remainder counting whole unless blank".
    fn data_line<'a>(&mut self, line: &'a [u8]) -> Line<'a> {
        let row = self.data.expect("the row of line 7");
        let here = row.widths.len().min(self.left);
        if here == 0 {
            return Line { line, formats: Vec::new(), stored: None };
        }
        let past = |fields: usize| row.widths[..fields].iter().sum::<usize>();
        let stored = Some((self.sets, self.come as u32));
        self.left -= here;
        self.come += here;
        let whole = here == row.widths.len() || !is_blank(columns(line, past(here), past(row.widths.len())));
        let formats = if whole { as_printed(row.printed) } else { vec![cut(row, here)] };
        Line { line, formats, stored }
    }

    fn line_82(&mut self, line: &[u8]) -> Vec<String> {
        match self.taken {
            1 => {
                self.left = integer(line, 10, 20) as usize;
                as_printed(R82_HEAD)
            }
            2 => as_printed(TEXT),
            _ => {
                let here = self.left.min(8);
                self.left -= here;
                if here > 0 {
                    vec![format!("{here}I10")]
                } else {
                    Vec::new()
                }
            }
        }
    }

    fn line_151(&mut self, line: &[u8]) -> Vec<String> {
        match self.taken {
            4 if is_blank(columns(line, 20, 50)) => Vec::new(),
            4 => as_printed(R151_MADE),
            5 | 7 => as_printed(R151_DATE),
            1..=7 => as_printed(TEXT),
            _ => Vec::new(),
        }
    }

    fn line_164(&mut self, line: &[u8]) -> Vec<String> {
        match self.taken {
            1 if is_blank(columns(line, 30, 40)) => Vec::new(),
            n => as_printed(R164[n - 1]),
        }
    }

    fn line_1815(&mut self, line: &[u8]) -> Vec<String> {
        match self.taken {
            20..=23 => Vec::new(),
            n @ 1..=24 => {
                if n == 24 {
                    (self.left, self.more) = (integer(line, 0, 12) as usize, integer(line, 12, 24) as usize);
                }
                vec![R1815[n - 1].to_string()]
            }
            _ => {
                if self.left == 0 {
                    (self.left, self.more) = (self.more, 0);
                }
                let here = self.left.min(5);
                self.left -= here;
                if here > 0 {
                    vec![format!("1P{here}E15.7")]
                } else {
                    Vec::new()
                }
            }
        }
    }
}

fn row(ordinate: i64, spacing: i64) -> Row {
    match (ordinate, spacing) {
        (4, 0) => Row { printed: DOUBLE_UNEVEN, widths: &[13, 20, 13, 20] },
        (6, 0) => Row { printed: DOUBLE_COMPLEX_UNEVEN, widths: &[13, 20, 20] },
        (4 | 6, _) => Row { printed: DOUBLE, widths: &[20; 4] },
        _ => Row { printed: SINGLE, widths: &[13; 6] },
    }
}

/// The FORMAT of a row's first fields, fewer than all.
fn cut(row: Row, fields: usize) -> String {
    match row.widths {
        [13, 13, ..] => format!("{fields}E13.5"),
        [20, ..] => format!("{fields}E20.12"),
        // Case 6, of two numbers a value; case 8 has one value a line.
        _ => "E13.5,E20.12".to_string(),
    }
}

fn is_blank(bytes: &[u8]) -> bool {
    bytes.iter().all(|&b| b == b' ')
}

fn trimmed(line: &[u8]) -> &[u8] {
    let past = line.iter().rposition(|&b| b != b' ').map_or(0, |last| last + 1);
    &line[..past]
}

fn columns(line: &[u8], from: usize, to: usize) -> &[u8] {
    &line[from.min(line.len())..to.min(line.len())]
}

/// An integer field of a good line; 0 of a bad one, which is the last that is taken.
fn integer(line: &[u8], from: usize, to: usize) -> i64 {
    std::str::from_utf8(columns(line, from, to)).ok().and_then(|field| field.trim().parse().ok()).unwrap_or(0)
}
