//! Headers and numbers with what the papers say of them, typed by hand: whole sets, single fields
//! and refusals.

use crate::judge::Reply;

/// What is lent to the writer, and the set or the refusal that is due.
pub struct Fixed {
    pub name: &'static str,
    pub header: Vec<u8>,
    pub coefficients: Vec<i64>,
    pub scales: Vec<i16>,
    pub room: usize,
    pub due: Result<String, Reply>,
}

/// A good header: case 1 with two values, so two stored numbers.
const HEADER: &str = "Drive end bearing
NONE
12-MAR-99 08:30:00
NONE
NONE
    1         1    0         0 NONE               7   3 NONE               0   0
         2         2         1  0.00000E+00  1.00000E-03  0.00000E+00
        17    0    0    0 Time                 s
        12    0    0    0 Acceleration         m/s2
         0    0    0    0 NONE                 NONE
         0    0    0    0 NONE                 NONE
";

/// Far more room than any set here takes.
const ENOUGH: usize = 10_000;

/// The good header with one line (from 1) changed.
fn with(line: usize, text: &str) -> String {
    let lines = HEADER.lines().enumerate();
    lines.map(|(n, old)| if n + 1 == line { text } else { old }.to_string() + "\n").collect()
}

/// A set of the good header with another line 7 and these data lines.
fn set(line_7: &str, data: &str) -> (Vec<u8>, Result<String, Reply>) {
    let header = with(7, line_7);
    let set = format!("    -1\n    58\n{header}{data}    -1\n");
    (header.into_bytes(), Ok(set))
}

fn whole(
    name: &'static str,
    line_7: &str,
    numbers: &[(i64, i16)],
    data: &str,
) -> Fixed {
    let (header, due) = set(line_7, data);
    let (coefficients, scales) = numbers.iter().copied().unzip();
    Fixed { name, header, coefficients, scales, room: ENOUGH, due }
}

/// One whole set in each of the eight cases.
fn cases() -> Vec<Fixed> {
    vec![
        whole(
            "case 1, two lines",
            "         2         7         1  0.00000E+00  1.00000E-03  0.00000E+00",
            &[(1, -1), (-2, -1), (3, -1), (-400, -3), (50_000, -5), (-6, -1), (700_000, -6)],
            "  1.00000E-01 -2.00000E-01  3.00000E-01 -4.00000E-01  5.00000E-01 -6.00000E-01
  7.00000E-01
",
        ),
        whole(
            "case 2, three values in a line",
            "         2         4         0  0.00000E+00  0.00000E+00  0.00000E+00",
            &[(0, 0), (123_456, 0), (1, -3), (-1, 0), (2, -3), (999_999, -5), (4, -3), (0, 77)],
            "  0.00000E+00  1.23456E+05  1.00000E-03 -1.00000E+00  2.00000E-03  9.99999E+00
  4.00000E-03  0.00000E+00
",
        ),
        whole(
            "case 3, a full line only",
            "         5         3         1  0.00000E+00  1.00000E-03  0.00000E+00",
            &[(1, 0), (-1, 0), (15, -1), (-25, -1), (1, 99), (-1, -99)],
            "  1.00000E+00 -1.00000E+00  1.50000E+00 -2.50000E+00  1.00000E+99 -1.00000E-99
",
        ),
        whole(
            "case 4, two values in a line",
            "         5         3         0  0.00000E+00  0.00000E+00  0.00000E+00",
            &[(0, 0), (1, 0), (2, 0), (1, 1), (-3, 0), (4, 0), (2, 1), (5, 0), (-6, 0)],
            "  0.00000E+00  1.00000E+00  2.00000E+00  1.00000E+01 -3.00000E+00  4.00000E+00
  2.00000E+01  5.00000E+00 -6.00000E+00
",
        ),
        whole(
            "case 5, two lines",
            "         4         5         1  0.00000E+00  1.00000E-03  0.00000E+00",
            &[(1_234_567_890_123, 0), (-9_999_999_999_999, -12), (0, -5), (1, -99), (-5, 0)],
            "  1.234567890123E+12 -9.999999999999E+00  0.000000000000E+00  1.000000000000E-99
 -5.000000000000E+00
",
        ),
        whole(
            "case 6, half a line at the end",
            "         4         3         0  0.00000E+00  0.00000E+00  0.00000E+00",
            &[(1, -1), (-1_234_567_890_123, -12), (2, -1), (2, 0), (-30_000, 0), (3, 0)],
            "  1.00000E-01 -1.234567890123E+00  2.00000E-01  2.000000000000E+00
 -3.00000E+04  3.000000000000E+00
",
        ),
        whole(
            "case 7, two lines",
            "         6         3         1  0.00000E+00  1.00000E-03  0.00000E+00",
            &[(1, 0), (-1, 0), (25, -2), (-75, -2), (1_000_000, -6), (1, 6)],
            "  1.000000000000E+00 -1.000000000000E+00  2.500000000000E-01 -7.500000000000E-01
  1.000000000000E+00  1.000000000000E+06
",
        ),
        whole(
            "case 8, one value in a line",
            "         6         2         0  0.00000E+00  0.00000E+00  0.00000E+00",
            &[(-1, -1), (1, 0), (-1_000_001, 0), (2, -1), (0, 0), (7, -7)],
            " -1.00000E-01  1.000000000000E+00 -1.000001000000E+06
  2.00000E-01  0.000000000000E+00  7.000000000000E-07
",
        ),
    ]
}

/// Exponents of three digits, beside those of two, and without a letter in line 7 as lent.
fn three_digits() -> Vec<Fixed> {
    vec![
        whole(
            "case 1, exponents of three digits",
            "         2         7         1  0.00000+000  1.00000-003 -1.00000-101",
            &[(1, -101), (-1, 150), (123_456, 994), (-1, -999), (1, 99), (1, 100), (-5, -100)],
            "  1.00000-101 -1.00000+150  1.23456+999 -1.00000-999  1.00000E+99  1.00000+100
 -5.00000-100
",
        ),
        whole(
            "case 8, exponents of three digits",
            "         6         2         0  0.00000-101 -0.00000+999  1.00000-101",
            &[(1, -300), (-1_234_567_890_123, -113), (1, 150), (-25, 298), (0, 999), (1, -100)],
            "  1.00000-300 -1.234567890123-101  1.000000000000+150
 -2.50000+299  0.000000000000E+00  1.000000000000-100
",
        ),
    ]
}

/// The set keeps the header's spellings, but for blanks at line ends and CR.
fn untidy() -> Fixed {
    let header = " Drive end bearing      \r
  x
    -1 no delimiter
-1\r
     -1
   +1        -0   00 +00000000                   +7  -6           0000000000  +0\r
+000000002         1        -0     -.0D-999      0.0e+00     +12.E+05         \r
0000000017000000000000000
        12    0    0    0                        \r
         0    0    0    0 NONE                 NONE
        +0   -1   +2  -00                      NONE
";
    let due = "    -1
    58
 Drive end bearing
  x
    -1 no delimiter
-1
     -1
   +1        -0   00 +00000000                   +7  -6           0000000000  +0
+000000002         1        -0     -.0D-999      0.0e+00     +12.E+05
0000000017000000000000000
        12    0    0    0
         0    0    0    0 NONE                 NONE
        +0   -1   +2  -00                      NONE
  1.00000E+00 -2.00000E+00
    -1
";
    Fixed {
        name: "untidy header",
        header: header.as_bytes().to_vec(),
        coefficients: vec![1, -2],
        scales: vec![0, 0],
        room: ENOUGH,
        due: Ok(due.to_string()),
    }
}

/// A number, the decimals of its field, and the field, or none for 19.
type OneField = (i64, i16, usize, Option<String>);

/// All single fields.
pub fn fields() -> Vec<OneField> {
    let mut all = exponents_at_the_ends();
    for (coefficient, scale, decimals, field) in digits_and_exponents() {
        all.push((coefficient, scale, decimals, field.map(String::from)));
    }
    all
}

/// A coefficient, the exponent of its first digit, decimals, and what stands before the exponent.
const DIGITS: [(i64, i16, usize, &str); 12] = [
    (1, 0, 5, "  1.00000"),
    (-1, 0, 5, " -1.00000"),
    (1, 0, 12, "  1.000000000000"),
    (-1, 0, 12, " -1.000000000000"),
    (10, 1, 5, "  1.00000"),
    (-10, 1, 12, " -1.000000000000"),
    (999_999, 5, 5, "  9.99999"),
    (-123_456_000, 8, 5, " -1.23456"),
    (-9_999_999_999_999, 12, 12, " -9.999999999999"),
    (1_000_000_000_000_000_000, 18, 5, "  1.00000"),
    (9_223_372_036_854_000_000, 18, 12, "  9.223372036854"),
    (-9_223_372_036_854_000_000, 18, 12, " -9.223372036854"),
];

/// Exponents around those where the letter goes and where 19 comes, as they are shown.
const EXPONENTS: [(i16, Option<&str>); 18] = [
    (0, Some("E+00")),
    (9, Some("E+09")),
    (98, Some("E+98")),
    (99, Some("E+99")),
    (100, Some("+100")),
    (101, Some("+101")),
    (998, Some("+998")),
    (999, Some("+999")),
    (1_000, None),
    (1_001, None),
    (-98, Some("E-98")),
    (-99, Some("E-99")),
    (-100, Some("-100")),
    (-101, Some("-101")),
    (-998, Some("-998")),
    (-999, Some("-999")),
    (-1_000, None),
    (-1_001, None),
];

/// Each of these coefficients with each of these exponents.
fn exponents_at_the_ends() -> Vec<OneField> {
    let mut all = Vec::new();
    for (coefficient, first, decimals, digits) in DIGITS {
        for (exponent, shown) in EXPONENTS {
            let field = shown.map(|shown| digits.to_string() + shown);
            all.push((coefficient, exponent - first, decimals, field));
        }
    }
    all
}

fn digits_and_exponents() -> Vec<(i64, i16, usize, Option<&'static str>)> {
    vec![
        (0, 0, 5, Some("  0.00000E+00")),
        (0, i16::MIN, 5, Some("  0.00000E+00")),
        (0, i16::MAX, 12, Some("  0.000000000000E+00")),
        (0, -100, 12, Some("  0.000000000000E+00")),
        (1, 0, 5, Some("  1.00000E+00")),
        (-1, 0, 12, Some(" -1.000000000000E+00")),
        (10, 0, 5, Some("  1.00000E+01")),
        (10, -1, 5, Some("  1.00000E+00")),
        (-120, -4, 5, Some(" -1.20000E-02")),
        (999_999, 0, 5, Some("  9.99999E+05")),
        (-999_999, -5, 5, Some(" -9.99999E+00")),
        (1_000_000, 0, 5, Some("  1.00000E+06")),
        (1_000_001, 0, 5, None),
        (1_000_001, 0, 12, Some("  1.000001000000E+06")),
        (9_999_990, 0, 5, Some("  9.99999E+06")),
        (9_999_999, 0, 5, None),
        (123_456_000_000_000_000, -20, 5, Some("  1.23456E-03")),
        (123_456_700_000_000_000, -20, 5, None),
        (123_456_700_000_000_000, -20, 12, Some("  1.234567000000E-03")),
        (9_999_999_999_999, 0, 12, Some("  9.999999999999E+12")),
        (10_000_000_000_000, 0, 12, Some("  1.000000000000E+13")),
        (10_000_000_000_001, 0, 12, None),
        (99_999_999_999_999, 0, 12, None),
        (-9_999_999_999_999_000, 0, 12, Some(" -9.999999999999E+15")),
        (1_000_000_000_000_000_000, 81, 5, Some("  1.00000E+99")),
        (1_000_000_000_000_000_000, 82, 5, Some("  1.00000+100")),
        (1_000_000_000_000_000_000, -117, 5, Some("  1.00000E-99")),
        (1_000_000_000_000_000_000, -118, 5, Some("  1.00000-100")),
        (9_000_000_000_000_000_000, 0, 12, Some("  9.000000000000E+18")),
        (1, 99, 5, Some("  1.00000E+99")),
        (1, 100, 5, Some("  1.00000+100")),
        (1, 99, 12, Some("  1.000000000000E+99")),
        (1, 100, 12, Some("  1.000000000000+100")),
        (-1, -99, 5, Some(" -1.00000E-99")),
        (-1, -100, 5, Some(" -1.00000-100")),
        (10, -100, 5, Some("  1.00000E-99")),
        (999_999, 94, 5, Some("  9.99999E+99")),
        (999_999, 95, 5, Some("  9.99999+100")),
        (999_999, -104, 5, Some("  9.99999E-99")),
        (999_999, -105, 5, Some("  9.99999-100")),
        (i64::MIN, 0, 5, None),
        (i64::MIN, 0, 12, None),
        (i64::MIN, -18, 12, None),
        (i64::MAX, 0, 12, None),
        (1, i16::MAX, 5, None),
        (1, i16::MIN, 12, None),
        (i64::MIN, i16::MIN, 12, None),
        (i64::MIN, i16::MIN, 5, None),
        (i64::MIN, i16::MAX, 5, None),
        (i64::MIN, i16::MAX, 12, None),
        (i64::MAX, i16::MIN, 5, None),
        (i64::MAX, i16::MIN, 12, None),
        (i64::MAX, i16::MAX, 5, None),
        (i64::MAX, i16::MAX, 12, None),
        (-1, i16::MIN, 5, None),
        (-1, i16::MAX, 12, None),
        (9_000_000_000_000_000_000, i16::MAX, 12, None),
        (9_000_000_000_000_000_000, i16::MIN, 5, None),
    ]
}

/// A header of one number in a field of so many decimals.
pub fn header_of_one(decimals: usize) -> Vec<u8> {
    let ordinate = if decimals == 5 { 2 } else { 4 };
    with(7, &format!("{ordinate:10}         1         1  0.00000E+00  1.00000E-03  0.00000E+00"))
        .into_bytes()
}

/// Ordinate type and spacing of the eight cases.
pub const CASES: [(u32, u32); 8] =
    [(2, 1), (2, 0), (5, 1), (5, 0), (4, 1), (4, 0), (6, 1), (6, 0)];

/// A header of so many values.
pub fn header_of_many(ordinate: u32, spacing: u32, count: usize) -> Vec<u8> {
    let abscissa = "  0.00000E+00  0.00000E+00  0.00000E+00";
    with(7, &format!("{ordinate:10}{count:10}{spacing:10}{abscissa}")).into_bytes()
}

/// Number, line and column.
const fn refused(number: u32, line: u32, column: u32) -> Reply {
    Reply::refused(number, line, column)
}

/// Headers that are refused: what is wrong, the header and the reply.
fn refused_headers() -> Vec<(&'static str, String, Reply)> {
    let long = "x".repeat(81);
    let cut = |lines: usize| HEADER.split_inclusive('\n').take(lines).collect::<String>();
    let more = |text: &str| HEADER.to_string() + text;
    vec![
        ("no line", String::new(), refused(7, 1, 1)),
        ("one line", cut(1), refused(7, 2, 1)),
        ("ten lines", cut(10), refused(7, 11, 1)),
        ("a delimiter as line 1", with(1, "    -1"), refused(7, 1, 1)),
        ("a delimiter as line 5, blanks after it", with(5, "    -1    "), refused(7, 5, 1)),
        ("a delimiter as line 7", with(7, "    -1"), refused(7, 7, 1)),
        ("a delimiter as line 11", with(11, "    -1\r"), refused(7, 11, 1)),
        ("a delimiter after ten lines", cut(10) + "    -1\n", refused(7, 11, 1)),
        ("a twelfth line", more("x\n"), refused(8, 12, 1)),
        ("a twelfth line, blank", more("\n"), refused(8, 12, 1)),
        ("a twelfth line, a delimiter", more("    -1\n"), refused(8, 12, 1)),
        ("a twelfth line, a data line", more("  1.00000E-01\n"), refused(8, 12, 1)),
        ("a twelfth line, TAB in it", more("\tx\n"), refused(2, 12, 1)),
        ("a twelfth line, too long", more(&(long.clone() + "\n")), refused(3, 12, 1)),
        ("a twelfth line without LF", more(" "), refused(4, 12, 1)),
        ("a twelfth line, a delimiter without LF", more("    -1"), refused(4, 12, 1)),
        ("a twelfth line of one CR", more("\r"), refused(2, 12, 1)),
        ("a twelfth line, too long and without LF", more(&long), refused(3, 12, 1)),
        ("a twelfth line, a bad byte in the thirteenth", more("x\n\t\n"), refused(8, 12, 1)),
        ("line 11 without LF", HEADER.trim_end().to_string(), refused(4, 11, 1)),
        ("line 11 ends in CR", HEADER.trim_end().to_string() + "\r", refused(2, 11, 52)),
        ("line 3 without LF", cut(2) + "x", refused(4, 3, 1)),
        ("two CR before LF", with(2, "NONE\r\r"), refused(2, 2, 5)),
        ("byte 127", with(2, "\u{7f}"), refused(2, 2, 1)),
        ("81 columns", with(4, &long), refused(3, 4, 1)),
        ("81 columns, all blank", with(4, &" ".repeat(81)), refused(3, 4, 1)),
        ("81 columns and a bad byte", with(4, &(long.clone() + "\t")), refused(2, 4, 82)),
        ("81 columns without LF", cut(3) + &long, refused(3, 4, 1)),
        ("a bad byte without LF", cut(3) + "\t", refused(2, 4, 1)),
        ("two bad bytes, the first in column 80", with(4, &format!("{:79}\t\x01x", "x")), refused(2, 4, 80)),
        ("a CR in column 82 and one before LF", with(4, &(long.clone() + "\r\r")), refused(2, 4, 82)),
        ("line 1 blank", with(1, ""), refused(9, 1, 1)),
        ("line 5 of blanks", with(5, "          "), refused(9, 5, 1)),
        (
            "function type 29",
            with(6, "   29         1    0         0 NONE               7   3 NONE               0   0"),
            refused(11, 6, 1),
        ),
        (
            "direction -7",
            with(6, "    1         1    0         0 NONE               7   3 NONE               0  -7"),
            refused(11, 6, 77),
        ),
        (
            "a node that is blank",
            with(6, "    1         1    0         0 NONE                   3 NONE               0   0"),
            refused(24, 6, 42),
        ),
        (
            "a byte before the entity name",
            with(6, "    1         1    0         0xNONE               7   3 NONE               0   0"),
            refused(13, 6, 31),
        ),
        ("line 6 blank", with(6, ""), refused(24, 6, 1)),
        (
            "ordinate type 3",
            with(7, "         3         2         1  0.00000E+00  1.00000E-03  0.00000E+00"),
            refused(11, 7, 1),
        ),
        (
            "count 0",
            with(7, "         2         0         1  0.00000E+00  1.00000E-03  0.00000E+00"),
            refused(11, 7, 11),
        ),
        (
            "count 65,537",
            with(7, "         2     65537         1  0.00000E+00  1.00000E-03  0.00000E+00"),
            refused(11, 7, 11),
        ),
        (
            "spacing 2",
            with(7, "         2         2         2  0.00000E+00  1.00000E-03  0.00000E+00"),
            refused(11, 7, 21),
        ),
        (
            "Z value blank",
            with(7, "         2         2         1  0.00000E+00  1.00000E-03"),
            refused(25, 7, 57),
        ),
        (
            "increment without a point",
            with(7, "         2         2         1  0.00000E+00     100E-03  0.00000E+00"),
            refused(12, 7, 44),
        ),
        (
            "increment of two exponent digits and no letter",
            with(7, "         2         2         1  0.00000E+00   1.00000-03  0.00000E+00"),
            refused(12, 7, 44),
        ),
        (
            "Z value of four exponent digits and no letter",
            with(7, "         2         2         1  0.00000E+00  1.00000E-03 1.00000-0010"),
            refused(12, 7, 57),
        ),
        (
            "uneven, minimum not zero, no letter",
            with(7, "         2         2         0  1.00000-101  0.00000-101  0.00000E+00"),
            refused(14, 7, 31),
        ),
        (
            "column 70 of line 7",
            with(7, "         2         2         1  0.00000E+00  1.00000E-03  0.00000E+00x"),
            refused(13, 7, 70),
        ),
        (
            "uneven, increment not zero",
            with(7, "         2         2         0  0.00000E+00  1.00000E-03  0.00000E+00"),
            refused(14, 7, 44),
        ),
        (
            "uneven, minimum not zero, and column 70",
            with(7, "         2         2         0  1.00000E-03  0.00000E+00  0.00000E+00x"),
            refused(13, 7, 70),
        ),
        ("data type 20", with(8, "        20    0    0    0 NONE                 NONE"), refused(11, 8, 1)),
        ("data type 4", with(11, "         4    0    0    0 NONE                 NONE"), refused(11, 11, 1)),
        ("units exponent blank", with(9, "        12    0         0 NONE"), refused(24, 9, 16)),
        (
            "column 68 of line 10",
            with(10, "         0    0    0    0 NONE                 NONE                x"),
            refused(13, 10, 68),
        ),
        ("line 11 blank", with(11, " "), refused(24, 11, 1)),
        ("line 2 blank, line 3 too long", with(2, "").replace("12-MAR-99", &long), refused(9, 2, 1)),
        ("line 3 too long, a twelfth line", with(3, &long) + "x\n", refused(3, 3, 1)),
        ("line 9 wrong, ten lines", with(9, "").split_inclusive('\n').take(10).collect(), refused(24, 9, 1)),
    ]
}

/// Refusals of numbers and room by the good header. None has a column: tells apart one beside 19, whose place is an index.
fn refused_numbers() -> Vec<Fixed> {
    // Lines of 7, 7, 18, 5, 19, 5, 5, 81, 70, 49, 52, 52, 52, 27 and 7 bytes.
    const LENGTH: usize = 456;
    let good = |name, coefficients: &[i64], scales: &[i16], room, number, place| Fixed {
        name,
        header: HEADER.as_bytes().to_vec(),
        coefficients: coefficients.to_vec(),
        scales: scales.to_vec(),
        room,
        due: Err(Reply { number, place, column: 0 }),
    };
    let mut all = vec![
        good("no numbers", &[], &[], ENOUGH, 22, 0),
        good("one number too few", &[1], &[0], ENOUGH, 22, 0),
        good("one number too many", &[1, 2, 3], &[0, 0, 0], ENOUGH, 22, 0),
        good("one scale too few", &[1, 2], &[0], ENOUGH, 22, 0),
        good("one scale too many", &[1, 2], &[0, 0, 0], ENOUGH, 22, 0),
        good("one coefficient too few", &[1], &[0, 0], ENOUGH, 22, 0),
        good("one coefficient too many", &[1, 2, 3], &[0, 0], ENOUGH, 22, 0),
        good("22 before 19 and 20", &[i64::MIN, 1, 1], &[0, 0, 0], 0, 22, 0),
        good("19 at 0", &[1_000_001, 1], &[0, 0], ENOUGH, 19, 0),
        good("19 at 1", &[1, 1_000_001], &[0, 0], ENOUGH, 19, 1),
        good("19 at the smallest index", &[1, 1_000_001], &[1_000, 0], ENOUGH, 19, 0),
        good("19 before 20", &[0, 1], &[1_000, -1_000], 0, 19, 1),
        good("exponent 1000 after 999", &[1, 1], &[999, 1_000], ENOUGH, 19, 1),
        good("no room", &[1, 2], &[0, 0], 0, 20, 0),
        good("one byte too few", &[1, 2], &[0, 0], LENGTH - 1, 20, 0),
        good("one byte too few, exponents of three digits", &[1, -1], &[100, -999], LENGTH - 1, 20, 0),
    ];
    let line_7 = "         2         2         1  0.00000E+00  1.00000E-03  0.00000E+00";
    let two = whole("just the room", line_7, &[(1, 0), (2, 0)], "  1.00000E+00  2.00000E+00\n");
    let three = whole(
        "just the room, exponents of three digits",
        line_7,
        &[(1, 100), (-1, -999)],
        "  1.00000+100 -1.00000-999\n",
    );
    all.extend([two, three].map(|fixed| Fixed { room: LENGTH, ..fixed }));
    all
}

/// All fixed headers and numbers.
pub fn fixed() -> Vec<Fixed> {
    let mut all = cases();
    all.extend(three_digits());
    all.push(untidy());
    for (name, header, reply) in refused_headers() {
        // The header's refusal comes before those of numbers and room: wrong and right ones.
        let wrong = (vec![i64::MIN], vec![0, 0], 0);
        let right = (vec![1, 2], vec![0, 0], ENOUGH);
        for (coefficients, scales, room) in [wrong, right] {
            let header = header.clone().into_bytes();
            all.push(Fixed { name, header, coefficients, scales, room, due: Err(reply) });
        }
    }
    all.extend(refused_numbers());
    all
}
