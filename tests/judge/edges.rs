//! Files at the edges of the rules, each with the reply that the papers give it, typed by hand.

#[path = "columns.rs"]
pub mod columns;
#[path = "padding.rs"]
pub mod padding;
#[path = "runs.rs"]
mod runs;

use crate::common::files::{empty_sets, filled, function, joined, lines, EXAMPLE};
use crate::judge::Reply;

/// A file and the reply it must get.
pub struct Edge {
    pub name: String,
    pub file: Vec<u8>,
    pub reply: Reply,
}

/// Number, line and column.
const fn refused(number: u32, line: u32, column: u32) -> Reply {
    Reply::refused(number, line, column)
}

const fn accepted(lines: u32) -> Reply {
    Reply::accepted(lines)
}

const fn no_line(number: u32) -> Reply {
    Reply::no_line(number)
}

/// A set 82 of ten entries: 7 lines.
const TRACE: &str = "    -1
    82
         1        10         8
NONE
         1         2         3         4         0         6         7         8
         9        10
    -1
";

/// A set 151: 10 lines.
const HEADER: &str = "    -1
   151
model.mf1
NONE
I-DEAS Test
12-MAR-99 08:30:00           1         2         0
12-MAR-99 08:30:00
I-DEAS Test
13-MAR-99 09:00:00
    -1
";

/// A set 164: 6 lines.
const UNITS: &str = "    -1
   164
         1SI: Meter (newton)           2
  1.00000000000000000D+00  1.00000000000000000D+00  1.00000000000000000D+00
  2.73150000000000000D+02
    -1
";

/// A set 1815 with six orders and one display order: 30 lines. Record n is line n + 2.
const ORDERS: &str = "    -1
  1815
           1Run up
  5.0000000E+02  6.0000000E+03
 0     2 1     1           1
  1.0000000E-01  2.5000000E+01
  1.0000000E+00  5.0000000E+01
  1.0000000E+00  1.0000000E+01  1.2500000E-01        2048 0
  1.0000000E+00 0           1     1
           1
     1  1.0000000E+01
 0     1           0  0.0000000E+00  0.0000000E+00
 0     1  1.0000000E+01  1.0000000E+01  1.0000000E+03
    13     1     3 0 1 1 0 0 0 1 1
log
Run up of the pump
           4     1     3     4 1
     1  9.0000000E+01  1.0000000E+01
 0          10  0.0000000E+00
 0
 1 0           3
           0           0           0           0           0           0
           0           0           0           0           0           0
  0.0000000E+00  0.0000000E+00  0.0000000E+00  0.0000000E+00  0.0000000E+00
  0.0000000E+00  0.0000000E+00  0.0000000E+00  0.0000000E+00  0.0000000E+00
           6           1
  1.0000000E+00  2.0000000E+00  3.0000000E+00  4.0000000E+00  5.0000000E+00
  6.0000000E+00
  1.0000000E+00
    -1
";

/// The file with one line (from 1) made another.
fn with(file: &[u8], n: usize, text: &str) -> Vec<u8> {
    let mut lines = lines(file);
    lines[n - 1] = text.as_bytes().to_vec();
    joined(&lines, b"\n")
}

/// The file with a text put over a line's columns from the given one (from 1) on.
fn put(file: &[u8], n: usize, column: usize, text: &str) -> Vec<u8> {
    let mut lines = lines(file);
    let line = &mut lines[n - 1];
    let past = column - 1 + text.len();
    if line.len() < past {
        line.resize(past, b' ');
    }
    line[column - 1..past].copy_from_slice(text.as_bytes());
    joined(&lines, b"\n")
}

fn without(file: &[u8], n: usize) -> Vec<u8> {
    let mut lines = lines(file);
    lines.remove(n - 1);
    joined(&lines, b"\n")
}

/// The file with a line more, which becomes line n.
fn insert(file: &[u8], n: usize, text: &str) -> Vec<u8> {
    let mut lines = lines(file);
    lines.insert(n - 1, text.as_bytes().to_vec());
    joined(&lines, b"\n")
}

/// The first lines of a file.
fn first(file: &[u8], n: usize) -> Vec<u8> {
    joined(&lines(file)[..n], b"\n")
}

struct List(Vec<Edge>);

impl List {
    fn add(&mut self, name: &str, file: impl AsRef<[u8]>, reply: Reply) {
        let file = file.as_ref().to_vec();
        self.0.push(Edge { name: name.to_string(), file, reply });
    }
}

/// All edge files.
pub fn edges() -> Vec<Edge> {
    let mut list = List(Vec::new());
    bytes_and_lines(&mut list);
    delimiters(&mut list);
    numbers_of_sets(&mut list);
    function_heads(&mut list);
    function_data(&mut list);
    exponents_without_letter(&mut list);
    zeros_without_letter(&mut list);
    fields_without_letter(&mut list);
    lost_captures(&mut list);
    traces(&mut list);
    headers(&mut list);
    units(&mut list);
    orders(&mut list);
    columns::add_all(&mut list);
    padding::add_all(&mut list);
    runs::add_all(&mut list);
    list.0
}

fn bytes_and_lines(list: &mut List) {
    let example = EXAMPLE.as_bytes();
    let blanks = |n: usize| " ".repeat(n);
    list.add("empty", "", no_line(16));
    list.add("one LF", "\n", no_line(16));
    list.add("one CR LF", "\r\n", no_line(16));
    list.add("a blank line", " \n", no_line(16));
    list.add("blank lines", "\n\r\n   \n   \r\n", no_line(16));
    list.add("one blank", " ", refused(4, 1, 1));
    list.add("LF, blank", "\n ", refused(4, 2, 1));
    list.add("one CR", "\r", refused(2, 1, 1));
    list.add("CR CR LF", "\r\r\n", refused(2, 1, 1));
    list.add("LF CR", "\n\r", refused(2, 2, 1));
    list.add("CR, blank, LF", "\r \n", refused(2, 1, 1));
    list.add("80 blanks", blanks(80) + "\n", no_line(16));
    list.add("80 blanks, CR LF", blanks(80) + "\r\n", no_line(16));
    list.add("81 blanks", blanks(81) + "\n", refused(3, 1, 1));
    list.add("81 blanks, CR LF", blanks(81) + "\r\n", refused(3, 1, 1));
    list.add("80 blanks, no LF", blanks(80), refused(4, 1, 1));
    list.add("81 blanks, no LF", blanks(81), refused(3, 1, 1));
    list.add("80 blanks, CR", blanks(80) + "\r", refused(2, 1, 81));
    list.add("bad byte past column 80", blanks(90) + "\t\n", refused(2, 1, 91));
    list.add("bad byte past column 80, no LF", blanks(90) + "\x01", refused(2, 1, 91));
    list.add("81 columns of x", "x".repeat(81) + "\n", refused(3, 1, 1));
    list.add("TAB", "\n\t\n", refused(2, 2, 1));
    list.add("byte 31", "\x1f\n", refused(2, 1, 1));
    list.add("byte 126", "~\n", refused(5, 1, 1));
    list.add("byte 127", "\x7f\n", refused(2, 1, 1));
    list.add("byte 128", b"\x80\n", refused(2, 1, 1));
    list.add("byte 255", b"\xff\n", refused(2, 1, 1));
    list.add("byte 0", b"\0", refused(2, 1, 1));
    list.add("UTF-8 mark", [b"\xef\xbb\xbf", example].concat(), refused(2, 1, 1));
    list.add("a letter", "x\n", refused(5, 1, 1));
    list.add("a letter, no LF", "x", refused(4, 1, 1));
    list.add("5 before a later 2", "x\n\t\n", refused(5, 1, 1));
    list.add("example", example, accepted(22));
    list.add("example, CR LF", EXAMPLE.replace('\n', "\r\n"), accepted(22));
    list.add("example, CR CR LF", EXAMPLE.replace('\n', "\r\r\n"), refused(2, 1, 7));
    list.add("example, CR only", EXAMPLE.replace('\n', "\r"), refused(2, 1, 7));
    list.add("example, filled", filled(example, b"\n"), accepted(22));
    list.add("example, filled, CR LF", filled(example, b"\r\n"), accepted(22));
    list.add("example, blank lines after", [example, b"\n \r\n"].concat(), accepted(24));
    list.add("example, blank lines before", [b"\n\n", example].concat(), accepted(24));
    list.add("example twice", example.repeat(2), accepted(44));
    list.add("example, last LF lost", &example[..example.len() - 1], refused(4, 22, 1));
    list.add("example, CR for the last LF", EXAMPLE.trim_end().to_string() + "\r", refused(2, 22, 7));
    list.add("example, blank after", [example, b" "].concat(), refused(4, 23, 1));
    list.add("example, x after", [example, b"x\n"].concat(), refused(5, 23, 1));
    list.add("example, byte 26 after", [example, b"\x1a"].concat(), refused(2, 23, 1));
    list.add("example without line 21", without(example, 21), refused(7, 21, 1));
    list.add("example without line 22", without(example, 22), refused(7, 22, 1));
    list.add("example without line 6", without(example, 6), refused(5, 7, 1));
    list.add("TAB in a plain set", "    -1\n     1\n\t\n    -1\n", refused(2, 3, 1));
    list.add("~ in a plain set", "    -1\n     1\n~\n    -1\n", accepted(4));
    list.add("80 columns in a plain set", format!("    -1\n     1\n{}\n    -1\n", "x".repeat(80)), accepted(4));
    list.add("81 columns in a plain set", format!("    -1\n     1\n{}\n    -1\n", "x".repeat(81)), refused(3, 3, 1));

    // The longest file: one set (21 bytes, 3 lines) and blank lines.
    let mut long = empty_sets(1);
    long.resize(16_777_216, b'\n');
    list.add("16,777,216 bytes", &long, accepted(16_777_198));
    long.push(b'\n');
    list.add("16,777,217 bytes", &long, no_line(1));
    list.add("16,777,216 bad bytes", vec![0; 16_777_216], refused(2, 1, 1));
    list.add("16,777,217 bad bytes", vec![0; 16_777_217], no_line(1));
    list.add("16,777,216 blanks, no LF", vec![b' '; 16_777_216], refused(3, 1, 1));
}

fn delimiters(list: &mut List) {
    // The last six: a column of the plain delimiter left untested.
    for near in [
        "   -1", "     -1", "    - 1", "   -01", "    -1x", "    -1 x", "    +1", "-1", "    1", "    -",
        "x   -1", " 0  -1", "  - -1", "   .-1", "    ,1", "    -0",
    ] {
        list.add(&format!("{near:?} to open"), format!("{near}\n     1\n    -1\n"), refused(5, 1, 1));
        list.add(&format!("{near:?} in a plain set"), format!("    -1\n     1\n{near}\n    -1\n"), accepted(4));
        list.add(&format!("{near:?} to close"), format!("    -1\n     1\n{near}\n"), refused(7, 4, 1));
        list.add(&format!("{near:?} to close a 164"), with(UNITS.as_bytes(), 6, near), refused(8, 6, 1));
    }
    let long = |n: usize| format!("    -1{}\n     1\n    -1\n", " ".repeat(n - 6));
    list.add("delimiter of 80 columns", long(80), accepted(3));
    list.add("delimiter of 81 columns", long(81), refused(3, 1, 1));
    list.add("delimiter, CR LF", "    -1\r\n     1\r\n    -1\r\n", accepted(3));
    list.add("delimiter to open, CR LF", "    -1\r\n     1\n    -1\n", accepted(3));
    list.add("delimiter to close, CR LF", "    -1\n     1\n    -1\r\n", accepted(3));
    list.add("delimiter for a number line, CR LF", "    -1\n    -1\r\n", refused(6, 2, 1));
    list.add("delimiter alone", "    -1\n", refused(7, 2, 1));
    list.add("delimiter alone, no LF", "    -1", refused(4, 1, 1));
    list.add("two delimiters", "    -1\n    -1\n", refused(6, 2, 1));
    list.add("two delimiters, the second filled", "    -1\n    -1     \n", refused(6, 2, 1));
    list.add("delimiter, 58", "    -1\n    58\n", refused(7, 3, 1));
    list.add("delimiter, 1", "    -1\n     1\n", refused(7, 3, 1));
    list.add("58 closed at once", "    -1\n    58\n    -1\n", refused(7, 3, 1));
    list.add("empty plain set", "    -1\n     1\n    -1\n", accepted(3));
    list.add("blank lines in a plain set", "    -1\n     1\n\n   \n    -1\n", accepted(5));
    list.add("closing delimiter lost", "    -1\n     1\n    -1\n     2\n    -1\n", refused(5, 4, 1));
    list.add("text between sets", "    -1\n     1\n    -1\nx\n    -1\n     1\n    -1\n", refused(5, 4, 1));
    for wrong in [
        "", "      ", "     0", "000000", "    -0", "-00000", "-00058",
        "    -5", "    -2", "58", "  58", "  58  ", "    58b", "     58",
        "1000000", "   +-5", "     +", "     -", "   5 8", "  1 58", "    5x", "+ 0058", "    58       x", "   5.0",
        "  1E+0",
    ] {
        list.add(&format!("number line {wrong:?}"), format!("    -1\n{wrong}\n    -1\n"), refused(6, 2, 1));
    }
    for (bad, column) in [("\t   58", 1), ("    \x1f8", 5), ("    5\x7f", 6), ("   \r58", 4), ("    -\0", 6), ("\t   -1", 1)] {
        list.add(&format!("number line {bad:?}"), format!("    -1\n{bad}\n    -1\n"), refused(2, 2, column));
    }
    let far = format!("    -1\n     1{}x\n    -1\n", " ".repeat(73));
    list.add("number line, column 80", far, refused(6, 2, 1));
    for good in ["     1", "999999", "    +5", "+00001", "000001", "    15", "    59", "    57", "    +1   ", "+99999", "  1858"] {
        list.add(&format!("number line {good:?}"), format!("    -1\n{good}\n    -1\n"), accepted(3));
    }
    for typed in ["000058", "+00058", "   +58", "  0058", "    58   ", "    82", "   151", "   164", "  1815", "+01815"] {
        list.add(&format!("typed {typed:?}"), format!("    -1\n{typed}\n    -1\n"), refused(7, 3, 1));
    }
}

fn numbers_of_sets(list: &mut List) {
    let most = empty_sets(4_096);
    list.add("4,096 sets", &most, accepted(12_288));
    list.add("4,097 sets", empty_sets(4_097), refused(15, 12_289, 1));
    let after = |more: &str| [most.as_slice(), more.as_bytes()].concat();
    list.add("4,096 sets, blank line", after("\n"), accepted(12_289));
    list.add("4,096 sets, x", after("x\n"), refused(5, 12_289, 1));
    list.add("4,096 sets, delimiter", after("    -1\n"), refused(15, 12_289, 1));
    list.add("4,096 sets, blank line, delimiter", after("  \n    -1   \r\n"), refused(15, 12_290, 1));
    list.add("4,096 sets, delimiter without LF", after("    -1"), refused(4, 12_289, 1));
    list.add("4,096 sets, delimiter of 81 columns", after(&format!("    -1{}\n", " ".repeat(75))), refused(3, 12_289, 1));
    list.add("4,096 sets, delimiter with a bad byte", after("    -1\t\n"), refused(2, 12_289, 7));
}

fn function_heads(list: &mut List) {
    let base = function(1, 7, 7);
    list.add("58", &base, accepted(16));
    for n in 3..=7 {
        list.add(&format!("58, line {n} empty"), with(&base, n, ""), refused(9, n as u32, 1));
        list.add(&format!("58, line {n} blank"), with(&base, n, &" ".repeat(80)), refused(9, n as u32, 1));
        list.add(&format!("58, line {n} a delimiter"), with(&base, n, "    -1"), refused(7, n as u32, 1));
        list.add(&format!("58, line {n} a filled delimiter"), with(&base, n, "    -1      "), refused(7, n as u32, 1));
        list.add(&format!("58, line {n} near a delimiter"), with(&base, n, "    -1 ."), accepted(16));
        list.add(&format!("58, line {n} of 80 columns"), with(&base, n, &"x".repeat(80)), accepted(16));
        list.add(&format!("58, line {n} of 81 columns"), with(&base, n, &"x".repeat(81)), refused(3, n as u32, 1));
        list.add(&format!("58, line {n} of 81 blanks"), with(&base, n, &" ".repeat(81)), refused(3, n as u32, 1));
        list.add(&format!("58, line {n} one byte in column 80"), with(&base, n, &format!("{:>80}", ".")), accepted(16));
    }
    for n in 1..=15 {
        list.add(&format!("58, cut after line {n}"), first(&base, n), refused(7, n as u32 + 1, 1));
    }
    for n in 8..=15 {
        list.add(&format!("58, delimiter at line {n}"), with(&base, n, "    -1"), refused(7, n as u32, 1));
    }
    let at = |line: usize, column: usize, text: &str| put(&base, line, column, text);

    // Line 6 of the set is line 8: columns 1, 6, 16, 21 | 32 text, 42, 52 | 57 text, 67, 77.
    for (put_at, text, number, column) in [
        (1, "   28", 0, 0),
        (1, "   29", 11, 1),
        (1, "    0", 0, 0),
        (1, "   -0", 0, 0),
        (1, "   +0", 0, 0),
        (1, "   -1", 11, 1),
        (1, "00028", 0, 0),
        (1, "+0028", 0, 0),
        (1, "99999", 11, 1),
        (1, "     ", 24, 1),
        (1, "   1 ", 10, 1),
        (1, "  1 1", 10, 1),
        (1, "    -", 10, 1),
        (1, "  - 1", 10, 1),
        (1, "  --1", 10, 1),
        (1, "  1.0", 10, 1),
        (1, "   1x", 10, 1),
        (6, "2147483647", 0, 0),
        (6, "2147483648", 11, 6),
        (6, "9999999999", 11, 6),
        (6, "-999999999", 0, 0),
        (6, "+999999999", 0, 0),
        (6, "0000000000", 0, 0),
        (6, "          ", 24, 6),
        (6, "1         ", 10, 6),
        (16, "-9999", 0, 0),
        (16, "99999", 0, 0),
        (16, "    x", 10, 16),
        (21, "2147483647", 0, 0),
        (21, "2147483648", 11, 21),
        (31, "x", 13, 31),
        (32, "          ", 0, 0),
        (32, "xxxxxxxxxx", 0, 0),
        (42, "2147483647", 0, 0),
        (42, "2147483648", 11, 42),
        (52, "  -6", 0, 0),
        (52, "  -7", 11, 52),
        (52, "   6", 0, 0),
        (52, "   7", 11, 52),
        (52, "    ", 24, 52),
        (56, "x", 13, 56),
        (57, "          ", 0, 0),
        (67, "2147483647", 0, 0),
        (67, "2147483648", 11, 67),
        (77, "  -6", 0, 0),
        (77, "  -7", 11, 77),
        (77, "   6", 0, 0),
        (77, "   7", 11, 77),
        (77, "    ", 24, 77),
        (77, "0   ", 10, 77),
    ] {
        let place = if number == 0 { 16 } else { 8 };
        list.add(&format!("58, line 8, column {put_at}: {text:?}"), at(8, put_at, text), Reply { number, place, column });
    }
    list.add("58, line 8: 11 then 10", put(&at(8, 1, "   29"), 8, 6, "         x"), refused(11, 8, 1));
    list.add("58, line 8: 10 then 11", put(&at(8, 1, "    x"), 8, 6, "2147483648"), refused(10, 8, 1));
    list.add("58, line 8: X column and 11 after it", put(&at(8, 31, "x"), 8, 77, "   7"), refused(11, 8, 77));
    list.add("58, line 8 empty", with(&base, 8, ""), refused(24, 8, 1));
    list.add("58, line 8 without column 80", at(8, 80, " "), refused(24, 8, 77));
    list.add("58, line 8 blank", with(&base, 8, "  "), refused(24, 8, 1));

    // Line 7 of the set is line 9: columns 1, 11, 21, then reals at 31, 44, 57; past 69 nothing.
    for (put_at, text, number, column) in [
        (1, "         0", 11, 1),
        (1, "         1", 11, 1),
        (1, "         3", 11, 1),
        (1, "         7", 11, 1),
        (1, "        -2", 11, 1),
        (1, "          ", 24, 1),
        (1, "0000000002", 0, 0),
        (1, "        +2", 0, 0),
        (11, "         0", 11, 11),
        (11, "        -0", 11, 11),
        (11, "        -7", 11, 11),
        (11, "     65537", 11, 11),
        (11, "2147483648", 11, 11),
        (11, "        7 ", 10, 11),
        (11, "        +7", 0, 0),
        (11, "0000000007", 0, 0),
        (21, "         2", 11, 21),
        (21, "        -1", 11, 21),
        (21, "          ", 24, 21),
        (31, "             ", 25, 31),
        (31, "        0E+00", 12, 31),
        (31, "      -1.E+00", 0, 0),
        (44, "             ", 25, 44),
        (44, "     -.5E-999", 0, 0),
        (57, "             ", 25, 57),
        (57, "   1.0000E+5 ", 12, 57),
        (57, "  1.00000D+05", 0, 0),
        (70, "x", 13, 70),
        (80, "x", 13, 80),
    ] {
        let place = if number == 0 { 16 } else { 9 };
        list.add(&format!("58, line 9, column {put_at}: {text:?}"), at(9, put_at, text), Reply { number, place, column });
    }
    list.add("58, line 9 without Z", with(&base, 9, "         2         7         1  0.00000E+00  1.00000E-03"), refused(25, 9, 57));
    list.add("58, line 9: 11 before 12", put(&at(9, 21, "         2"), 9, 31, "             "), refused(11, 9, 21));
    list.add("58, line 9: 12 before 13", put(&at(9, 70, "x"), 9, 57, "            x"), refused(12, 9, 57));
    list.add("58, even with increment zero", at(9, 44, "  0.00000E+00"), accepted(16));
    list.add("58, even with increment negative", at(9, 44, " -1.00000E-03"), accepted(16));
    // A count of 65,536 passes line 7; the file then ends.
    list.add("58, count 65,536 and no more", first(&at(9, 11, "     65536"), 9), refused(7, 10, 1));
    let uneven = function(2, 7, 7);
    list.add("58, uneven", &uneven, accepted(17));
    for (put_at, text, number, column) in [
        (31, "  1.00000E+00", 14, 31),
        (31, " -1.00000E+00", 14, 31),
        (31, "  0.00001E-99", 14, 31),
        (31, " .00000001E-9", 12, 31),
        (31, ".0000001E-999", 14, 31),
        (31, " -0.00000E+00", 0, 0),
        (31, "  0.00000E+99", 0, 0),
        (31, "    -0.E+999 ", 12, 31),
        (31, "     -.0D-999", 0, 0),
        (44, "  1.00000E-03", 14, 44),
        (44, " -0.00000E+00", 0, 0),
        (44, "  0.00000E+99", 0, 0),
        (57, "  1.00000E+00", 0, 0),
        (57, " -1.00000E+00", 0, 0),
    ] {
        let place = if number == 0 { 17 } else { 9 };
        list.add(&format!("uneven, column {put_at}: {text:?}"), put(&uneven, 9, put_at, text), Reply { number, place, column });
    }
    list.add("uneven: 13 before 14", put(&put(&uneven, 9, 31, "  1.00000E+00"), 9, 75, "x"), refused(13, 9, 75));
    list.add("uneven: 12 before 14", put(&put(&uneven, 9, 31, "  1.00000E+00"), 9, 57, "             "), refused(25, 9, 57));
    list.add("uneven: 14 before a later 11", put(&put(&uneven, 9, 31, "  1.00000E+00"), 10, 1, "         4"), refused(14, 9, 31));

    // Lines 8 to 11 of the set are lines 10 to 13: columns 1, 11, 16, 21 | 27 text | 48 text.
    for n in 10..=13 {
        for good in [0, 1, 2, 3, 5, 6, 8, 9, 11, 12, 13, 15, 16, 17, 18, 19] {
            list.add(&format!("58, line {n}: type {good}"), at(n, 1, &format!("{good:10}")), accepted(16));
        }
        for bad in [-1, 4, 7, 10, 14, 20, 21, 22, 23, 24, 99] {
            list.add(&format!("58, line {n}: type {bad}"), at(n, 1, &format!("{bad:10}")), refused(11, n as u32, 1));
        }
        for (put_at, text, number, column) in [
            (1, "          ", 24, 1),
            (11, "     ", 24, 11),
            (11, "   -2", 0, 0),
            (16, "    x", 10, 16),
            (21, "   1 ", 10, 21),
            (26, "x", 13, 26),
            (27, "                    ", 0, 0),
            (27, "xxxxxxxxxxxxxxxxxxxx", 0, 0),
            (47, "x", 13, 47),
            (48, "                    ", 0, 0),
            (48, "xxxxxxxxxxxxxxxxxxxx", 0, 0),
            (67, "x", 0, 0),
            (68, "x", 13, 68),
            (80, "x", 13, 80),
        ] {
            let place = if number == 0 { 16 } else { n as u32 };
            list.add(&format!("58, line {n}, column {put_at}: {text:?}"), at(n, put_at, text), Reply { number, place, column });
        }
        list.add(&format!("58, line {n} ends at column 25"), with(&base, n, "         0    0    0    0"), accepted(16));
        list.add(&format!("58, line {n} ends at column 24"), with(&base, n, "         0    0    0   0"), refused(10, n as u32, 21));
        list.add(&format!("58, line {n} empty"), with(&base, n, ""), refused(24, n as u32, 1));
    }
}

fn function_data(list: &mut List) {
    let base = function(1, 7, 7);
    for good in [
        "  1.00000E-01",
        "      -.5E+00",
        "      +.5E+00",
        "       1.E+00",
        "      -1.E-00",
        "     1.2D+000",
        "     1.2d-999",
        "     1.2e+999",
        "12345.678E+00",
        ".12345678E+00",
        "12345678.E+00",
        "-0000000.E-99",
        "      1.0+000",
    ] {
        list.add(&format!("real {good:?}"), put(&base, 14, 1, good), accepted(16));
    }
    list.add("a blank real", put(&base, 14, 1, "             "), refused(25, 14, 1));
    list.add("a blank second real", put(&base, 14, 14, "             "), refused(25, 14, 14));
    list.add("a blank last real", put(&base, 15, 1, "             "), refused(25, 15, 1));
    for bad in [
        "          .0E",
        "        .E+00",
        "       -.E+00",
        "       1.0E+0",
        "    1.0E+0000",
        "       1.0E00",
        "       10E+00",
        "        1E+00",
        "        1.000",
        "       1.0+00",
        "     1.0F+00 ",
        "      1.0F+00",
        "     1.0.E+00",
        "     1..0E+00",
        "     1.0 E+00",
        "     1.0E +00",
        "     1.0E+ 00",
        "     1 .0E+00",
        "    - 1.0E+00",
        "    --1.0E+00",
        "    +-1.0E+00",
        "    1.0E+00  ",
        "     1.0E+00 ",
        "1.0  1.0E+00 ",
        "1.    1.0E+00",
        "x     1.0E+00",
        "     1.0EE+00",
        "     1.0E++00",
        "     1,0E+00 ",
        "      1,0E+00",
        "     1.0E+0.0",
        "     1.0E+0x0",
        "          NaN",
        "            1",
        "            -",
        "            .",
        "          E+0",
        "         E+00",
    ] {
        list.add(&format!("real {bad:?}"), put(&base, 14, 1, bad), refused(12, 14, 1));
        list.add(&format!("second real {bad:?}"), put(&base, 14, 14, bad), refused(12, 14, 14));
        list.add(&format!("last real {bad:?}"), put(&base, 15, 1, bad), refused(12, 15, 1));
    }
    list.add("data line, column 79", put(&base, 14, 79, "x"), refused(13, 14, 79));
    list.add("data line, column 80", put(&base, 14, 80, "0"), refused(13, 14, 80));
    list.add("data line, column 81", put(&base, 14, 81, " "), refused(3, 14, 1));
    list.add("last data line, column 14", put(&base, 15, 14, "x"), refused(12, 15, 14));
    list.add("last data line with a number more", put(&base, 15, 14, "  1.00000E-01"), refused(25, 15, 27));
    list.add("12 before 13", put(&put(&base, 14, 66, "             "), 14, 79, "x"), refused(25, 14, 66));
    list.add("last data line filled", put(&base, 15, 80, " "), accepted(16));
    list.add("last data line empty", with(&base, 15, ""), refused(25, 15, 1));
    list.add("data line too many", insert(&base, 16, "  1.00000E-01"), refused(8, 16, 1));
    list.add("blank line before the delimiter", insert(&base, 16, ""), refused(8, 16, 1));
    list.add("blank line in the data", insert(&base, 14, ""), refused(25, 14, 1));
    list.add("file of one value", function(1, 1, 1), accepted(15));

    // Lines a count takes: case, count, data lines.
    for (case, count, lines) in [
        (1, 1, 1), (2, 1, 1), (3, 1, 1), (4, 1, 1), (5, 1, 1), (6, 1, 1), (7, 1, 1), (8, 1, 1),
        (1, 2, 1), (2, 2, 1), (3, 2, 1), (4, 2, 1), (5, 2, 1), (6, 2, 1), (7, 2, 1), (8, 2, 2),
        (1, 3, 1), (2, 3, 1), (3, 3, 1), (4, 3, 2), (5, 3, 1), (6, 3, 2), (7, 3, 2), (8, 3, 3),
        (1, 6, 1), (2, 6, 2), (3, 6, 2), (4, 6, 3), (5, 6, 2), (6, 6, 3), (7, 6, 3), (8, 6, 6),
        (1, 7, 2), (2, 7, 3), (3, 7, 3), (4, 7, 4), (5, 7, 2), (6, 7, 4), (7, 7, 4), (8, 7, 7),
        (1, 12, 2), (2, 12, 4), (3, 12, 4), (4, 12, 6), (5, 12, 3), (6, 12, 6), (7, 12, 6), (8, 12, 12),
        (1, 65_536, 10_923), (2, 65_536, 21_846), (3, 65_536, 21_846), (4, 65_536, 32_768),
        (5, 65_536, 16_384), (6, 65_536, 32_768), (7, 65_536, 32_768), (8, 65_536, 65_536),
    ] {
        let file = function(case, count, count);
        // Thirteen lines before the data, one delimiter after.
        list.add(&format!("case {case}, count {count}"), &file, accepted(lines + 14));
        if count < 100 {
            list.add(&format!("case {case}, count {count}, a line lost"), without(&file, lines as usize + 13), refused(7, lines + 13, 1));
            list.add(&format!("case {case}, count {count}, a line more"), insert(&file, lines as usize + 14, "x"), refused(8, lines + 14, 1));
        }
    }
    list.add("count 65,537", function(1, 65_537, 65_537), refused(11, 9, 11));
    // Columns past the fields of the full lines.
    for (case, column) in [(1, 79), (2, 79), (3, 79), (4, 79), (6, 67), (8, 54)] {
        let file = function(case, 12, 12);
        list.add(&format!("case {case}, column {column}"), put(&file, 14, column, "1"), refused(13, 14, column as u32));
        list.add(&format!("case {case}, column 80"), put(&file, 14, 80, "1"), refused(13, 14, 80));
    }
    for case in [5, 7] {
        let file = function(case, 12, 12);
        list.add(&format!("case {case}, column 80"), put(&file, 14, 80, "9"), accepted(if case == 5 { 17 } else { 20 }));
    }
    // Fields that touch.
    let touching = "-1.2345678901234E+00-1.2345678901234E+00+1.2345678901234E-99.12345678901234D+000";
    list.add("touching fields", with(&function(5, 4, 4), 14, touching), accepted(15));
    let shifted = format!(" {}", &touching[..79]);
    list.add("touching fields, one column on", with(&function(5, 4, 4), 14, &shifted), refused(12, 14, 1));
}

/// Fields of reals: whose, the file and its lines, the field's line, first column and width.
fn real_fields() -> Vec<(&'static str, Vec<u8>, u32, usize, usize, usize)> {
    let (single, double, mixed) = (function(1, 7, 7), function(5, 6, 6), function(8, 2, 2));
    let (units, orders) = (UNITS.as_bytes().to_vec(), ORDERS.as_bytes().to_vec());
    vec![
        ("58, minimum", single.clone(), 16, 9, 31, 13),
        ("58, Z value", single.clone(), 16, 9, 57, 13),
        ("case 1, first of a line", single.clone(), 16, 14, 1, 13),
        ("case 1, last of a line", single.clone(), 16, 14, 66, 13),
        ("case 1, last of all", single, 16, 15, 1, 13),
        ("case 5, first of a line", double.clone(), 16, 14, 1, 20),
        ("case 5, last of a line", double.clone(), 16, 14, 61, 20),
        ("case 5, last of all", double, 16, 15, 21, 20),
        ("case 8, abscissa", mixed.clone(), 16, 15, 1, 13),
        ("case 8, imaginary part", mixed, 16, 15, 34, 20),
        ("164, offset", units, 6, 5, 1, 25),
        ("1815, first of a line", orders.clone(), 30, 4, 1, 15),
        ("1815, last of a line", orders.clone(), 30, 4, 16, 15),
        ("1815, last order of a line", orders, 30, 27, 61, 15),
    ]
}

/// Request C-12: an exponent is a sign and three digits where there is no letter.
fn exponents_without_letter(list: &mut List) {
    const GOOD: [&str; 23] = [
        "-1.234567890123-101", "1.0+005", "1.0E+005", "1.-101", ".5-999", "-.5+000", "+0.0-000", "-0.0+999",
        "1.0+000", "+1.0-005", "1.0+999", "0.00000-101",
        // All columns of E13.5, of E15.7 and of E20.12.
        "-1.234567-101", "12345678.+000", ".12345678-999", "-1.23456789-101", "1.234567890+100",
        "-1.0000000000000-101", "1.23456789012345-101",
        // Eighteen digits.
        "1.23456789012345678-101", "-.123456789012345678+999", "+123456789012345678.-000", "000000000000000000.+100",
    ];
    const BAD: [&str; 34] = [
        "1.0-10", "1.0-1010", "1-101", ".-101", "1.0 -101", "1.0- 101", "1.0--101", "1.0-101 ", "1.0E101", "1.0E-1010",
        "1.0+00", "1.0-1", "1.0-", "1.0+0000", "-.-101", "+.+000", "-101", "1.0+-101", "1.0-+101", "1.0-10x", "1.0-1x1",
        "1.0-10.", "1.0101", "1.0x101", "1.0F-101", "1.0EE-101", "1.0.-101", "1..0-101", "--1.0-101", "- 1.0-101",
        "1.0-101-101", "1.0-101E+00",
        // Nineteen digits.
        "1.234567890123456789-101", "0000000000000000000.-101",
    ];
    for (name, file, lines, line, column, width) in real_fields() {
        let mut add = |text: &str, reply| {
            if text.len() <= width {
                let field = format!("{text:>width$}");
                list.add(&format!("{name}: {field:?}"), put(&file, line, column, &field), reply);
            }
        };
        GOOD.iter().for_each(|good| add(good, accepted(lines)));
        BAD.iter().for_each(|bad| add(bad, refused(12, line as u32, column as u32)));
        add("", refused(25, line as u32, column as u32));
    }
}

/// "Minimum and increment are zero" and "above zero" are about value, whatever the exponent.
fn zeros_without_letter(list: &mut List) {
    let uneven = function(2, 7, 7);
    for (put_at, text, number, column) in [
        (31, "  0.00000-101", 0, 0),
        (31, " -0.00000+999", 0, 0),
        (31, "     +0.0-000", 0, 0),
        (31, "      .0+005 ", 12, 31),
        (31, "  0.00001-101", 14, 31),
        (31, ".00000001-999", 14, 31),
        (31, " -1.00000+000", 14, 31),
        (44, "  0.00000-101", 0, 0),
        (44, "     -.0+999 ", 12, 44),
        (44, "  1.00000-101", 14, 44),
        (44, "      .0-0010", 12, 44),
        (57, " -1.00000-101", 0, 0),
        (57, "     1.0-1010", 12, 57),
    ] {
        let place = if number == 0 { 17 } else { 9 };
        list.add(&format!("uneven, column {put_at}: {text:?}"), put(&uneven, 9, put_at, text), Reply { number, place, column });
    }
    let nonzero = put(&uneven, 9, 31, "  1.00000-101");
    list.add("uneven, no letter: 12 before 14", put(&nonzero, 9, 57, "   1.00000-10"), refused(12, 9, 57));
    let units = UNITS.as_bytes();
    for (put_at, text, number, column) in [
        (1, "  1.00000000000000000-101", 0, 0),
        (26, "  0.00000000000000001-999", 0, 0),
        (51, " +123456789012345678.+999", 0, 0),
        (1, "  0.00000000000000000-101", 14, 1),
        (26, " -0.00000000000000000+000", 14, 26),
        (51, " -1.00000000000000000-101", 14, 51),
        (1, " 1.234567890123456789-101", 12, 1),
        (26, "   1.00000000000000000-10", 12, 26),
        (51, " 1.00000000000000000-101 ", 12, 51),
    ] {
        let place = if number == 0 { 6 } else { 4 };
        list.add(&format!("164, line 4, column {put_at}: {text:?}"), put(units, 4, put_at, text), Reply { number, place, column });
    }
}

/// Fields without a letter that touch, one column on, and with a digit past the last field.
fn fields_without_letter(list: &mut List) {
    let double = "-1.0000000000000-101";
    let single = "-1.000000-101";
    let with_fields = |file: Vec<u8>, line: usize, fields: &[&str]| with(&file, line, &fields.concat());
    list.add("two of E20.12 that touch", with_fields(function(5, 2, 2), 14, &[double; 2]), accepted(15));
    list.add("four of E20.12 that touch", with_fields(function(5, 4, 4), 14, &[double; 4]), accepted(15));
    list.add("four of E20.12, one column on", with_fields(function(5, 4, 4), 14, &[" ", &double.repeat(4)[..79]]), refused(12, 14, 1));
    list.add("six of E13.5 that touch", with_fields(function(1, 6, 6), 14, &[single; 6]), accepted(15));
    list.add("six of E13.5, one column on", with_fields(function(1, 6, 6), 14, &[" ", &single.repeat(6)]), refused(12, 14, 1));
    list.add("case 6, all that touch", with_fields(function(6, 2, 2), 14, &[single, double, single, double]), accepted(15));
    list.add("case 8, all that touch", with_fields(function(8, 1, 1), 14, &[single, double, double]), accepted(15));
    let orders = with_fields(ORDERS.as_bytes().to_vec(), 27, &["-1.23456789-101"; 5]);
    list.add("five of E15.7 that touch", orders, accepted(30));
    let digit_past = with_fields(function(1, 6, 6), 14, &[single, single, single, single, single, single, "0"]);
    list.add("E13.5, a fourth digit past the last field", digit_past, refused(13, 14, 79));
    list.add("the last number, a fourth digit past it", with_fields(function(1, 7, 7), 15, &[single, "0"]), refused(12, 15, 14));
    list.add("the last number, its third digit lost", with_fields(function(1, 7, 7), 15, &[&single[..12]]), refused(12, 15, 1));
    list.add("a letter in one field only", with_fields(function(5, 2, 2), 14, &[double, "-1.000000000000E-101"]), accepted(15));
}

/// A capture that lost power: more is declared than was written.
fn lost_captures(list: &mut List) {
    // Declares 30, holds 12: two full lines of six (14 and 15), the delimiter early at line 16.
    let early = function(1, 30, 12);
    list.add("lost: delimiter early", &early, refused(7, 16, 1));
    list.add("lost: ends after a line", first(&early, 15), refused(7, 16, 1));
    let cut = &first(&early, 15)[..];
    list.add("lost: LF lost", &cut[..cut.len() - 1], refused(4, 15, 1));
    list.add("lost: cut inside a field", &cut[..cut.len() - 8], refused(4, 15, 1));
    list.add("lost: cut after a field", &cut[..cut.len() - 14], refused(4, 15, 1));
    list.add("lost: ends after the header", first(&early, 13), refused(7, 14, 1));
    // Declares 30 of case 5, holds 10: three lines (14 to 16), the last with two numbers.
    list.add("lost: last line short, delimiter after", function(5, 30, 10), refused(25, 16, 41));
    let base = function(1, 7, 7);
    list.add("lost: a data line shortened", with(&base, 14, "  1.00000E-01  1.00000E-01"), refused(25, 14, 27));
    list.add("lost: a data line without its last byte", with(&base, 14, &"  1.00000E-01".repeat(6)[..77]), refused(12, 14, 66));
    list.add("lost: columns blanked", put(&base, 14, 27, "             "), refused(25, 14, 27));
    list.add("lost: part of a field blanked", put(&base, 14, 31, "   "), refused(12, 14, 27));
    list.add("lost: all columns blanked", with(&base, 14, &" ".repeat(78)), refused(25, 14, 1));
    list.add("lost: zero bytes", with(&base, 14, &"\0".repeat(78)), refused(2, 14, 1));
    // Declares 13 but holds 12: the delimiter stands where line three is due.
    list.add("lost: one value", function(1, 13, 12), refused(7, 16, 1));
    // Declares 12, holds 11: the last line has five of its six fields.
    list.add("lost: one value of a line", function(1, 12, 11), refused(25, 15, 66));
    // Declares 11, holds 12: the sixth field is padding.
    list.add("one value more", function(1, 11, 12), accepted(16));
    list.add("one line more", function(1, 6, 12), refused(8, 15, 1));
    // The next set follows a lost one.
    let two = [first(&early, 15), function(1, 1, 1)].concat();
    list.add("lost: another set follows", two, refused(7, 16, 1));
    // A complex value is one value: count 3 of case 3 stores six numbers, one line.
    list.add("complex counted as two", function(3, 6, 3), refused(7, 15, 1));
}

fn traces(list: &mut List) {
    let base = TRACE.as_bytes();
    list.add("82", base, accepted(7));
    for n in 1..=6 {
        list.add(&format!("82, cut after line {n}"), first(base, n), refused(7, n as u32 + 1, 1));
    }
    for n in 3..=6 {
        list.add(&format!("82, delimiter at line {n}"), with(base, n, "    -1"), refused(7, n as u32, 1));
    }
    for (line, put_at, text, number, column) in [
        (3, 1, "         0", 11, 1),
        (3, 1, "        -1", 11, 1),
        (3, 1, "2147483647", 0, 0),
        (3, 1, "2147483648", 11, 1),
        (3, 1, "          ", 24, 1),
        (3, 11, "         0", 11, 11),
        (3, 11, "       251", 11, 11),
        (3, 11, "        -1", 11, 11),
        (3, 11, "          ", 24, 11),
        (3, 21, "         0", 0, 0),
        (3, 21, "        -0", 0, 0),
        (3, 21, "        -1", 11, 21),
        (3, 21, "2147483647", 0, 0),
        (3, 21, "2147483648", 11, 21),
        (3, 21, "        8 ", 10, 21),
        (3, 31, "x", 13, 31),
        (3, 80, "0", 13, 80),
        (5, 1, "         0", 0, 0),
        (5, 1, "        -0", 0, 0),
        (5, 1, "        -1", 11, 1),
        (5, 1, "2147483647", 0, 0),
        (5, 1, "2147483648", 11, 1),
        (5, 41, "          ", 24, 41),
        (5, 71, "          ", 24, 71),
        (5, 71, "         x", 10, 71),
        (6, 11, "          ", 24, 11),
        (6, 21, "         0", 13, 30),
        (6, 80, "x", 13, 80),
    ] {
        let place = if number == 0 { 7 } else { line as u32 };
        list.add(&format!("82, line {line}, column {put_at}: {text:?}"), put(base, line, put_at, text), Reply { number, place, column });
    }
    list.add("82, name empty", with(base, 4, ""), refused(9, 4, 1));
    list.add("82, name blank", with(base, 4, "    "), refused(9, 4, 1));
    list.add("82, name of 80 columns", with(base, 4, &"n".repeat(80)), accepted(7));
    list.add("82, entry line blank", with(base, 5, ""), refused(24, 5, 1));
    list.add("82, nine entries on a line", put(base, 5, 81, "         9"), refused(3, 5, 1));
    list.add("82, second trace", insert(base, 7, "         2         1         1"), refused(8, 7, 1));
    list.add("82, blank line at its end", insert(base, 7, ""), refused(8, 7, 1));
    for (declared, reply) in [
        (250, accepted(37)),
        (251, refused(11, 3, 11)),
        (249, refused(13, 36, 20)),
        (248, refused(8, 36, 1)),
        (240, refused(8, 35, 1)),
    ] {
        // 31 full lines (5 to 35), two entries at line 36, the delimiter at 37.
        let mut file = format!("    -1\n    82\n         1{declared:10}         0\nNONE\n");
        for _ in 0..31 {
            file += &"         7".repeat(8);
            file.push('\n');
        }
        file += "         7         0\n    -1\n";
        list.add(&format!("82, {declared} declared, 250 there"), file, reply);
    }
}

fn headers(list: &mut List) {
    let base = HEADER.as_bytes();
    list.add("151", base, accepted(10));
    list.add("151, all lines empty", "    -1\n   151\n\n\n\n\n\n\n\n    -1\n", accepted(10));
    for n in 1..=9 {
        list.add(&format!("151, cut after line {n}"), first(base, n), refused(7, n as u32 + 1, 1));
    }
    for n in 3..=9 {
        list.add(&format!("151, delimiter at line {n}"), with(base, n, "    -1"), refused(7, n as u32, 1));
        list.add(&format!("151, line {n} empty"), with(base, n, ""), accepted(10));
    }
    for n in [3, 4, 5, 8] {
        list.add(&format!("151, line {n} of 80 columns"), with(base, n, &"x".repeat(80)), accepted(10));
    }
    for n in [7, 9] {
        list.add(&format!("151, line {n} of 20 columns"), with(base, n, &"x".repeat(20)), accepted(10));
        list.add(&format!("151, line {n} of 21 columns"), with(base, n, &"x".repeat(21)), refused(13, n as u32, 21));
        list.add(&format!("151, line {n}, column 80"), put(base, n, 80, "x"), refused(13, n as u32, 80));
    }
    let blank = "          ";
    // Columns 21, 31 and 41; a mixture is 24 at its first blank one.
    for (fields, number, column) in [
        (["         1", "         2", "         0"], 0, 0),
        (["         1", "         2", "         1"], 0, 0),
        (["         1", "         2", "         2"], 0, 0),
        (["         1", "         2", "         3"], 11, 41),
        (["         1", "         2", "        -1"], 11, 41),
        (["         1", "         2", "        -0"], 0, 0),
        (["2147483647", "-999999999", "         0"], 0, 0),
        (["2147483648", "         2", "         0"], 11, 21),
        (["         1", "2147483648", "         0"], 11, 31),
        ([blank, blank, blank], 0, 0),
        ([blank, "         2", "         0"], 24, 21),
        (["         1", blank, "         0"], 24, 31),
        (["         1", "         2", blank], 24, 41),
        ([blank, blank, "         0"], 24, 21),
        (["         1", blank, blank], 24, 31),
        ([blank, "         x", blank], 24, 21),
        (["         x", "         2", "         0"], 10, 21),
        (["         1", "         x", "         0"], 10, 31),
        (["         1", "         2", "         x"], 10, 41),
        (["         1", "         2", "0         "], 10, 41),
        (["         x", blank, blank], 10, 21),
        (["         1", blank, "         x"], 24, 31),
        (["2147483648", blank, "         0"], 11, 21),
        ([blank, "2147483648", "         0"], 24, 21),
        (["         1", "         2", "         9"], 11, 41),
    ] {
        let text = fields.concat();
        let place = if number == 0 { 10 } else { 6 };
        list.add(&format!("151, line 6: {text:?}"), put(base, 6, 21, &text), Reply { number, place, column });
    }
    list.add("151, line 6, column 51", put(base, 6, 51, "x"), refused(13, 6, 51));
    list.add("151, line 6 with blanks, column 51", put(&put(base, 6, 21, &blank.repeat(3)), 6, 51, "x"), refused(13, 6, 51));
    list.add("151, line 6: 11 before 13", put(&put(base, 6, 50, "3"), 6, 51, "x"), refused(11, 6, 41));
    list.add("151, line 6 of 20 columns", with(base, 6, &"x".repeat(20)), accepted(10));
    list.add("151, an eighth line", insert(base, 10, "x"), refused(8, 10, 1));
    list.add("151, an eighth line, blank", insert(base, 10, ""), refused(8, 10, 1));
}

fn units(list: &mut List) {
    let base = UNITS.as_bytes();
    list.add("164", base, accepted(6));
    for n in 1..=5 {
        list.add(&format!("164, cut after line {n}"), first(base, n), refused(7, n as u32 + 1, 1));
    }
    for n in 3..=5 {
        list.add(&format!("164, delimiter at line {n}"), with(base, n, "    -1"), refused(7, n as u32, 1));
    }
    let blank = " ".repeat(25);
    for (line, put_at, text, number, column) in [
        (3, 1, "         0", 11, 1),
        (3, 1, "         9", 0, 0),
        (3, 1, "        10", 11, 1),
        (3, 1, "        -1", 11, 1),
        (3, 1, "          ", 24, 1),
        (3, 11, "                    ", 0, 0),
        (3, 11, "xxxxxxxxxxxxxxxxxxxx", 0, 0),
        (3, 31, "          ", 0, 0),
        (3, 31, "         1", 0, 0),
        (3, 31, "0000000002", 0, 0),
        (3, 31, "         0", 11, 31),
        (3, 31, "         3", 11, 31),
        (3, 31, "        -1", 11, 31),
        (3, 31, "         x", 10, 31),
        (3, 31, "         -", 10, 31),
        (3, 31, "        1 ", 10, 31),
        (3, 41, "x", 13, 41),
        (3, 80, "x", 13, 80),
        (4, 1, &blank, 25, 1),
        (4, 26, &blank, 25, 26),
        (4, 51, &blank, 25, 51),
        (4, 1, "  0.00000000000000000D+00", 14, 1),
        (4, 26, "  0.00000000000000000D+00", 14, 26),
        (4, 51, "  0.00000000000000000D+00", 14, 51),
        (4, 1, " -0.00000000000000000D+00", 14, 1),
        (4, 1, " -1.00000000000000000D+00", 14, 1),
        (4, 51, " -1.00000000000000000D+00", 14, 51),
        (4, 1, " +1.00000000000000000D+00", 0, 0),
        (4, 1, " 0.00000000000000001D-999", 0, 0),
        (4, 1, " 0.00000000000000000D+999", 14, 1),
        (4, 1, "+1.23456789012345678D+999", 0, 0),
        (4, 1, " 1.234567890123456789D+00", 12, 1),
        (4, 1, "1.0000000000000000000D+00", 12, 1),
        (4, 1, "123456789012345678.0D+000", 12, 1),
        (4, 1, " 123456789012345678.D+000", 0, 0),
        (4, 1, " .123456789012345678D+000", 0, 0),
        (4, 1, " 0000000000000000000.D+00", 12, 1),
        (4, 1, "  000000000000000000.D+00", 14, 1),
        (4, 1, "  000000000000000001.e-00", 0, 0),
        (4, 76, "x", 13, 76),
        (4, 80, "x", 13, 80),
        (5, 1, "  0.00000000000000000D+00", 0, 0),
        (5, 1, " -2.73150000000000000D+02", 0, 0),
        (5, 1, " 1.234567890123456789D+00", 12, 1),
        (5, 1, &blank, 25, 1),
        (5, 26, "x", 13, 26),
        (5, 26, "  1.00000000000000000D+00", 13, 28),
    ] {
        let place = if number == 0 { 6 } else { line as u32 };
        list.add(&format!("164, line {line}, column {put_at}: {text:?}"), put(base, line, put_at, text), Reply { number, place, column });
    }
    let zero = put(base, 4, 1, "  0.00000000000000000D+00");
    list.add("164: 12 before 14", put(&zero, 4, 51, &blank), refused(25, 4, 51));
    list.add("164: 13 before 14", put(&zero, 4, 76, "x"), refused(13, 4, 76));
    list.add("164: 11 before 13", put(&put(base, 3, 40, "3"), 3, 41, "x"), refused(11, 3, 31));
    list.add("164, line 3 of 10 columns", with(base, 3, "         1"), accepted(6));
    list.add("164, line 3 empty", with(base, 3, ""), refused(24, 3, 1));
    list.add("164, line 4 empty", with(base, 4, ""), refused(25, 4, 1));
    list.add("164, line 5 empty", with(base, 5, ""), refused(25, 5, 1));
    list.add("164, two factors", with(base, 4, "  1.00000000000000000D+00  1.00000000000000000D+00"), refused(25, 4, 51));
    list.add("164, a line more", insert(base, 6, "x"), refused(8, 6, 1));
}

fn orders(list: &mut List) {
    let base = ORDERS.as_bytes();
    list.add("1815", base, accepted(30));
    for n in 1..=29 {
        list.add(&format!("1815, cut after line {n}"), first(base, n), refused(7, n as u32 + 1, 1));
    }
    for n in 3..=29 {
        list.add(&format!("1815, delimiter at line {n}"), with(base, n, "    -1"), refused(7, n as u32, 1));
    }
    // Record n is line n + 2. Record, first column, text, number.
    for (record, put_at, text, number, column) in [
        (1, 1, "            ", 24, 1),
        (1, 1, " -2147483648", 0, 0),
        (1, 1, " -2147483649", 11, 1),
        (1, 1, "002147483647", 0, 0),
        (1, 1, "002147483648", 11, 1),
        (1, 1, "999999999999", 11, 1),
        (1, 13, "                    ", 0, 0),
        (1, 13, "xxxxxxxxxxxxxxxxxxxx", 0, 0),
        (1, 33, "x", 13, 33),
        (2, 1, "               ", 25, 1),
        (2, 16, "               ", 25, 16),
        (2, 1, "1.234567890E+00", 0, 0),
        (2, 1, "  -.5E-999     ", 12, 1),
        (2, 31, "x", 13, 31),
        (3, 1, "  ", 24, 1),
        (3, 1, "-9", 0, 0),
        (3, 1, "99", 0, 0),
        (3, 1, "+0", 0, 0),
        (3, 1, "0 ", 10, 1),
        (3, 1, " -", 10, 1),
        (3, 3, "     0", 0, 0),
        (3, 3, "     3", 0, 0),
        (3, 3, "     4", 11, 3),
        (3, 3, "    -1", 11, 3),
        (3, 9, "-1", 0, 0),
        (3, 11, "     0", 11, 11),
        (3, 11, "     2", 0, 0),
        (3, 11, "     3", 11, 11),
        (3, 17, "          -1", 0, 0),
        (3, 17, "  2147483648", 11, 17),
        (3, 29, "x", 13, 29),
        (4, 31, "x", 13, 31),
        (4, 16, "              x", 12, 16),
        (5, 31, "x", 13, 31),
        (5, 1, "             1.", 12, 1),
        (6, 31, "               ", 25, 31),
        (6, 46, "            ", 24, 46),
        (6, 58, "  ", 24, 58),
        (6, 58, "99", 0, 0),
        (6, 60, "x", 13, 60),
        (7, 1, "               ", 25, 1),
        (7, 16, "xx", 10, 16),
        (7, 18, "           x", 10, 18),
        (7, 30, "     0", 0, 0),
        (7, 30, "     3", 0, 0),
        (7, 30, "     4", 11, 30),
        (7, 30, "    -1", 11, 30),
        (7, 36, "x", 13, 36),
        (8, 1, "            ", 24, 1),
        (8, 1, "          -5", 0, 0),
        (8, 13, "x", 13, 13),
        (9, 1, "    -1", 0, 0),
        (9, 1, "     0", 0, 0),
        (9, 1, "    -2", 11, 1),
        (9, 1, "     2", 11, 1),
        (9, 7, "               ", 25, 7),
        (9, 22, "x", 13, 22),
        (10, 3, "     0", 11, 3),
        (10, 3, "     3", 0, 0),
        (10, 3, "     4", 11, 3),
        (10, 9, "            ", 24, 9),
        (10, 21, "               ", 25, 21),
        (10, 36, "               ", 25, 36),
        (10, 51, "x", 13, 51),
        (11, 3, "     0", 11, 3),
        (11, 3, "     2", 0, 0),
        (11, 3, "     3", 11, 3),
        (11, 39, "               ", 25, 39),
        (11, 54, "x", 13, 54),
        (12, 1, "     1", 11, 1),
        (12, 1, "     2", 0, 0),
        (12, 1, "     3", 0, 0),
        (12, 1, "     4", 11, 1),
        (12, 1, "     5", 0, 0),
        (12, 1, "    14", 0, 0),
        (12, 1, "    15", 11, 1),
        (12, 7, "    -1", 11, 7),
        (12, 7, "     0", 0, 0),
        (12, 7, "     2", 0, 0),
        (12, 7, "     3", 11, 7),
        (12, 13, "     0", 0, 0),
        (12, 13, "     4", 11, 13),
        (12, 13, "    -1", 11, 13),
        (12, 19, "99", 0, 0),
        (12, 19, "-9", 0, 0),
        (12, 33, "  ", 24, 33),
        (12, 33, "x1", 10, 33),
        (12, 35, "1", 13, 35),
        (13, 1, "xxxxxxxxxxxxxxxxxxxx", 0, 0),
        (13, 1, "                    ", 0, 0),
        (13, 21, "x", 13, 21),
        (14, 80, "x", 0, 0),
        (15, 1, "          -4", 0, 0),
        (15, 13, "     0", 11, 13),
        (15, 13, "     2", 0, 0),
        (15, 13, "     3", 11, 13),
        (15, 19, "     0", 0, 0),
        (15, 19, "     4", 11, 19),
        (15, 19, "    -1", 11, 19),
        (15, 25, "     0", 0, 0),
        (15, 25, "     9", 0, 0),
        (15, 25, "    10", 11, 25),
        (15, 25, "    -1", 11, 25),
        (15, 31, "  ", 24, 31),
        (15, 33, "x", 13, 33),
        (16, 1, "-99999", 0, 0),
        (16, 1, "      ", 24, 1),
        (16, 22, "               ", 25, 22),
        (16, 37, "x", 13, 37),
        (17, 1, "x1", 10, 1),
        (17, 3, "            ", 24, 3),
        (17, 15, "               ", 25, 15),
        (17, 30, "x", 13, 30),
        (18, 1, "  ", 24, 1),
        (18, 1, "-1", 0, 0),
        (18, 3, "x", 13, 3),
        (19, 1, "  ", 24, 1),
        (19, 3, "  ", 24, 3),
        (19, 5, "            ", 24, 5),
        (19, 17, "x", 13, 17),
        (20, 1, "any text ~", 0, 0),
        (20, 80, "x", 0, 0),
        (21, 80, "x", 0, 0),
        (22, 80, "x", 0, 0),
        (23, 80, "x", 0, 0),
        (24, 1, "          -1", 11, 1),
        (24, 1, "         257", 11, 1),
        (24, 1, "            ", 24, 1),
        (24, 13, "          -1", 11, 13),
        (24, 13, "         257", 11, 13),
        (24, 13, "            ", 24, 13),
        (24, 25, "x", 13, 25),
        // the lists: lines 27 and 28, and 29
        (25, 76, "x", 13, 76),
        (25, 61, "               ", 25, 61),
        (26, 16, "  1.0000000E+00", 13, 18),
        (27, 16, "  1.0000000E+00", 13, 18),
        (27, 1, "               ", 25, 1),
    ] {
        let line = record + 2;
        let place = if number == 0 { 30 } else { line as u32 };
        list.add(&format!("1815, line {line}, column {put_at}: {text:?}"), put(base, line, put_at, text), Reply { number, place, column });
    }
    for n in 22..=25 {
        list.add(&format!("1815, line {n} empty"), with(base, n, ""), accepted(30));
        list.add(&format!("1815, line {n} text"), with(base, n, &"~".repeat(80)), accepted(30));
        list.add(&format!("1815, line {n} too long"), with(base, n, &"~".repeat(81)), refused(3, n as u32, 1));
    }
    list.add("1815, line 10: -0", with(base, 10, "          -0"), accepted(30));
    list.add("1815, line 20 short", with(base, 20, "1"), refused(10, 20, 1));
    // Lists of given lengths: the head is 26 lines long.
    let lists = |orders: usize, display: usize, lines: &[usize]| {
        let mut file = with(&first(base, 26), 26, &format!("{orders:12}{display:12}"));
        for &n in lines {
            file.extend_from_slice("  1.0000000E+00".repeat(n).as_bytes());
            file.push(b'\n');
        }
        file.extend_from_slice(b"    -1\n");
        file
    };
    list.add("1815, lists 0 and 0", lists(0, 0, &[]), accepted(27));
    list.add("1815, lists -0 and 0", put(&lists(0, 0, &[]), 26, 11, "-0"), accepted(27));
    list.add("1815, lists 0 and 0, a blank line", lists(0, 0, &[0]), refused(8, 27, 1));
    list.add("1815, lists 1 and 0", lists(1, 0, &[1]), accepted(28));
    list.add("1815, lists 0 and 1", lists(0, 1, &[1]), accepted(28));
    list.add("1815, lists 1 and 1", lists(1, 1, &[1, 1]), accepted(29));
    list.add("1815, lists 1 and 1 on one line", lists(1, 1, &[2]), refused(13, 27, 18));
    list.add("1815, lists 5 and 5", lists(5, 5, &[5, 5]), accepted(29));
    list.add("1815, lists 6 and 4 as 5 and 5", lists(6, 4, &[5, 5]), refused(13, 28, 18));
    list.add("1815, lists 6 and 4", lists(6, 4, &[5, 1, 4]), accepted(30));
    list.add("1815, lists 4 and 6", lists(4, 6, &[4, 5, 1]), accepted(30));
    list.add("1815, lists 7 and 0, a line lost", lists(7, 0, &[5]), refused(7, 28, 1));
    list.add("1815, lists 7 and 0, a number lost", lists(7, 0, &[5, 1]), refused(25, 28, 16));
    list.add("1815, lists 2 and 2, second lost", lists(2, 2, &[2]), refused(7, 28, 1));
    list.add("1815, lists 2 and 0, one more", lists(2, 0, &[2, 2]), refused(8, 28, 1));
    let mut most = vec![5; 51];
    most.push(1);
    list.add("1815, lists 256 and 0", lists(256, 0, &most), accepted(79));
    list.add("1815, lists 0 and 256", lists(0, 256, &most), accepted(79));
    list.add("1815, lists 256 and 256", lists(256, 256, &[most.clone(), most.clone()].concat()), accepted(131));
}
