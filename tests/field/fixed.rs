//! FORMAT texts and lines with the answers that the papers give them, typed by hand.

use crate::field::{Answer, Shown};
use crate::judge::Reply;
use crate::reader::Number;

/// A question and its answer.
pub struct Case {
    pub name: String,
    pub format: Vec<u8>,
    pub line: Vec<u8>,
    pub field: u32,
    pub answer: Answer,
}

fn case(name: &str, format: &str, line: &str, field: u32, answer: Answer) -> Case {
    Case { name: name.to_string(), format: format.as_bytes().to_vec(), line: line.as_bytes().to_vec(), field, answer }
}

fn text(first: u32, past: u32) -> Answer {
    Ok(Shown::Text(first, past))
}

fn integer(first: u32, past: u32) -> Answer {
    Ok(Shown::Integer(first, past))
}

fn real(first: u32, past: u32, (negative, coefficient, scale): (bool, u64, i16)) -> Answer {
    Ok(Shown::Real(Number { first, past, negative, coefficient, scale }))
}

/// 18, 26 and 27 have place 0 and column 0.
fn no_line(number: u32) -> Answer {
    Err(Reply::no_line(number))
}

/// A line lent alone is line 1.
fn at(number: u32, column: u32) -> Answer {
    Err(Reply::refused(number, 1, column))
}

/// `  1.00000E-01`, document 01's 100000 x 10^-6.
const TENTH: &str = "  1.00000E-01";
const A_TENTH: (bool, u64, i16) = (false, 100_000, -6);

pub fn fixed() -> Vec<Case> {
    let parts = [
        malformed(),
        widths(),
        scaled(),
        counts(),
        groups(),
        too_large(),
        lengths(),
        texts(),
        lines(),
        order(),
        reals(),
        examples(),
    ];
    parts.into_iter().flatten().collect()
}

/// 26, whatever the line is.
fn malformed() -> Vec<Case> {
    let texts = [
        "", " ", "          ", "()", "( )", "2()", "I5,", ",I5", "I5,,I5", "I5, ,I5", ",", "I5I5", "(I5)(I5)", "(I5)I5",
        "I5(I5)", "2(I5)3", "i5", "a5", "e13.5", "d13.5", "x", "1pE13.5", "I05", "I0", "I00", "0I5", "00I5", "02I5", "0X",
        "0(I5)", "01(I5)", "I", "A", "E", "D", "2I", "2", "2,I5", "I81", "A81", "E81.5", "D81.5", "2A81", "I100",
        "I99999999999999999999", "I18446744073709551621", "A00", "A0", "E0.0", "E13", "E13.", "D25", "D25.", "E13.14", "E13.05",
        "E13.00", "E013.5", "E.5", "E13.5.2", "E13.5E2", "E13,5", "E13.-5", "E80.81", "E13.18446744073709551621", "I5.2", "A5.2",
        "X5", "2X3", "X.0", "(I5", "I5)", "((I5)", "(I5))", ")(", ")I5(", "(", ")", "(I5,)", "(,I5)", "\tI5", "I5\t", "I\t5",
        "I5\n", "I5\r", "I5\0", "I5\u{7f}", "\u{a0}I5", "FORMAT(I5)", "FORMAT (I5)", "Format(I5)", "(I5) ,", "F13.5", "G13.5",
        "L5", "Z5", "5H12345", "'x'", "I5/I5", "I5:I5", "T5", "-1X", "+2I5", "-2I5", "2.5I5", "I-5", "10Al", "8110", "E13.5P",
        "PE13.5", "2PE13.5", "1P1PE13.5", "0PE13.5", "-1PE13.5", "+1PE13.5", "01PE13.5", "11PE13.5", "21PE13.5", "2 1P E13.5",
        "21P3E13.5", "1P", "1P2", "1PP", "1PI5", "1PA5", "1PX", "1P2X", "1P2I5", "1P(E13.5)", "1P2(E13.5)", "1P,E13.5",
        "1P,2E13.5", "2(1P)", "1P0E13.5", "1P02E13.5", "1P1P2E13.5", "E13.51PE13.5", "(((((I5,)))))", "((((((((((i5))))))))))",
        "9I10,", "9I10,i5", "81X,", "99999999999999999999I1,I0", "99999999999999999999I", "((((I81))))", "9I10)", "9I10I10",
        "81X)", "(((((I5)))))(", "(((((I5))))))", "9I10 I",
    ];
    let cases = texts.iter().flat_map(|format| {
        let name = format!("malformed: {}", format.escape_debug());
        [case(&name, format, "    1", 0, no_line(26)), case(&name, format, "\t", u32::MAX, no_line(26))]
    });
    let brackets = "(".repeat(120);
    let bytes_of_blanks = " ".repeat(120);
    cases
        .chain([
            case("120 opening brackets", &brackets, "", 0, no_line(26)),
            case("121 opening brackets", &(brackets.clone() + "("), "", 0, no_line(26)),
            case("120 closing brackets", &")".repeat(120), "", 0, no_line(26)),
            case("120 blanks", &bytes_of_blanks, "", 0, no_line(26)),
            case("120 digits", &"9".repeat(120), "", 0, no_line(26)),
            case("60 pairs around nothing", &("(".repeat(60) + &")".repeat(60)), "", 0, no_line(26)),
        ])
        .collect()
}

/// Widths 1 to 80, decimals 0 to the width.
fn widths() -> Vec<Case> {
    let (x80, digits) = ("x".repeat(80), "7".repeat(80));
    let wide = format!("{}1.5E+00", " ".repeat(73));
    vec![
        case("A80", "A80", "", 0, text(0, 80)),
        case("A80, all filled", "A80", &x80, 0, text(0, 80)),
        case("A80, past the last", "A80", &x80, 1, no_line(18)),
        case("A1", "A1", "x", 0, text(0, 1)),
        case("I80, 80 digits", "I80", &digits, 0, integer(0, 80)),
        case("I1", "I1", "7", 0, integer(0, 1)),
        case("E80.5", "E80.5", &wide, 0, real(0, 80, (false, 15, -1))),
        case("E80.80", "E80.80", &wide, 0, real(0, 80, (false, 15, -1))),
        case("E13.0", "E13.0", TENTH, 0, real(0, 13, A_TENTH)),
        case("E13.5", "E13.5", TENTH, 0, real(0, 13, A_TENTH)),
        case("E13.13", "E13.13", TENTH, 0, real(0, 13, A_TENTH)),
        case("E1.0 has no room for a number", "E1.0", "1", 0, at(12, 1)),
        case("E1.1 blank", "E1.1", "", 0, at(25, 1)),
        case("D13.5 takes a letter E", "D13.5", TENTH, 0, real(0, 13, A_TENTH)),
        case("E13.5 takes a letter d", "E13.5", "  1.00000d-01", 0, real(0, 13, A_TENTH)),
        case("I9", "I9", "123456789", 0, integer(0, 9)),
        case("I10", "I10", "1234567890", 0, integer(0, 10)),
    ]
}

/// 1P directly before E or D, ahead of any count; it changes nothing.
fn scaled() -> Vec<Case> {
    let two = format!("{TENTH}{TENTH}");
    vec![
        case("1P", "1PE13.5", TENTH, 0, real(0, 13, A_TENTH)),
        case("1P before D", "1PD13.5", TENTH, 0, real(0, 13, A_TENTH)),
        case("1P before a count", "1P2E13.5", &two, 1, real(13, 26, A_TENTH)),
        case("1P before the count 1", "1P1E13.5", TENTH, 0, real(0, 13, A_TENTH)),
        case("1P in a group", "2(1PE13.5)", &two, 1, real(13, 26, A_TENTH)),
        case("1P in a group, past the last", "2(1PE13.5)", &two, 2, no_line(18)),
        case("1P with blanks", " 1 P 2 E 1 3 . 5 ", &two, 1, real(13, 26, A_TENTH)),
        case("1P twice", "1PE13.5,1PE13.5", &two, 1, real(13, 26, A_TENTH)),
        case("1P once of two", "1PE13.5,E13.5", &two, 1, real(13, 26, A_TENTH)),
        case("1P in brackets alone", "(1PE13.5)", TENTH, 0, real(0, 13, A_TENTH)),
        case("1P before a count of 80", "1P80E1.0", "", 0, at(25, 1)),
        case("1P before a count of 81", "1P81E1.0", "", 0, no_line(27)),
    ]
}

/// Counts, A items with their own, X columns.
fn counts() -> Vec<Case> {
    let word = "abcdefghijklmnopqrst";
    vec![
        case("20A1 is one text", "20A1", word, 0, text(0, 20)),
        case("20A1, past the last", "20A1", word, 1, no_line(18)),
        case("10A2 is one text", "10A2", word, 0, text(0, 20)),
        case("10A2, past the last", "10A2", word, 1, no_line(18)),
        case("10A1,10A1, first", "10A1,10A1", word, 0, text(0, 10)),
        case("10A1,10A1, second", "10A1,10A1", word, 1, text(10, 20)),
        case("10A1,10A1, past the last", "10A1,10A1", word, 2, no_line(18)),
        case("2(10A1), second", "2(10A1)", word, 1, text(10, 20)),
        case("2(10A1), past the last", "2(10A1)", word, 2, no_line(18)),
        case("2(2A5), second", "2(2A5)", word, 1, text(10, 20)),
        case("20(A1), twentieth", "20(A1)", word, 19, text(19, 20)),
        case("1A20", "1A20", word, 0, text(0, 20)),
        case("10A8", "10A8", "", 0, text(0, 80)),
        case("3I2, third", "3I2", " 1 2 3", 2, integer(4, 6)),
        case("3I2, fourth", "3I2", " 1 2 3", 3, no_line(18)),
        case("80I1, last", "80I1", &"7".repeat(80), 79, integer(79, 80)),
        case("80I1, past the last", "80I1", &"7".repeat(80), 80, no_line(18)),
        case("X is one column", "X,I4", "    1", 0, integer(1, 5)),
        case("1X", "1X,I4", "    1", 0, integer(1, 5)),
        case("3X", "3X,I2", "    1", 0, integer(3, 5)),
        case("X between", "I2,2X,I2", " 1   2", 1, integer(4, 6)),
        case("X has no number", "X,I2,X,I2,X", "  1  2", 1, integer(4, 6)),
        case("X has no number, past the last", "X,I2,X,I2,X", "  1  2", 2, no_line(18)),
        case("80X, field 0", "80X", "", 0, no_line(18)),
        case("80X, field 1", "80X", "", 1, no_line(18)),
        case("80X, field 79", "80X", &" ".repeat(80), 79, no_line(18)),
        case("80X, the last field that can be asked", "80X", "", u32::MAX, no_line(18)),
        case("80X over a byte", "80X", "          x", 0, at(13, 11)),
        case("X alone", "X", "", 0, no_line(18)),
        case("X alone over a byte", "X", "x", 0, at(13, 1)),
        case("blanks inside numbers", "1 0 A 1 , 1 0A1", word, 1, text(10, 20)),
        case("blanks inside a width", "I1 2", "           1", 0, integer(0, 12)),
        case("blanks inside decimals", "E20. 12", "  1.000000000000E-01", 0, real(0, 20, (false, 1_000_000_000_000, -13))),
        case("printed with blanks", "4E20. 12", "  1.000000000000E-01", 0, at(25, 21)),
        case("printed with a blank", "I12, 10A2", "           1abcdefghijklmnopqrst", 1, text(12, 32)),
    ]
}

/// Groups, brackets and how deep they are.
fn groups() -> Vec<Case> {
    let five = "    1";
    let deep = |format: &str| case(&format!("deep: {format}"), format, five, 0, integer(0, 5));
    let deeper = |format: &str| case(&format!("deeper: {format}"), format, five, 0, no_line(27));
    let shallow = [
        "I5", "(I5)", "((I5))", "(((I5)))", "((((I5))))", "1(I5)", "1(1(I5))", "1(1(1(I5)))", "(1(1(1(I5))))", "((1(1(I5))))",
        "(((1(I5))))", " ( ( ( ( I 5 ) ) ) ) ", "1((( I5)))",
    ];
    let past = [
        "(((((I5)))))", "1((((I5))))", "1(1(1(1(I5))))", "(1(1(1(1(I5)))))", "((((1(I5)))))", "((((I5)))),X", "X,((((I5))))",
        "((((I5)))),(X)", "(X),((((I5))))", "(X,((((I5)))))", "((((((((((I5))))))))))", " ( ( ( ( ( I5 ) ) ) ) ) ",
        "2((((I1))))",
    ];
    let mut cases: Vec<Case> = shallow.iter().copied().map(deep).chain(past.iter().copied().map(deeper)).collect();
    cases.extend([
        case("(I5),(I6)", "(I5),(I6)", "    1     2", 1, integer(5, 11)),
        case("(((I5))),(((I6)))", "(((I5))),(((I6)))", "    1     2", 1, integer(5, 11)),
        case("((((I5))),I6)", "((((I5))),I6)", "    1     2", 1, integer(5, 11)),
        case("59 pairs", &format!("{}I5{}", "(".repeat(59), ")".repeat(59)), five, 0, no_line(27)),
        case("2(I3,I2), second", "2(I3,I2)", "  1 2  3 4", 1, integer(3, 5)),
        case("2(I3,I2), third", "2(I3,I2)", "  1 2  3 4", 2, integer(5, 8)),
        case("2(I3,I2), fourth", "2(I3,I2)", "  1 2  3 4", 3, integer(8, 10)),
        case("2(I3,I2), fifth", "2(I3,I2)", "  1 2  3 4", 4, no_line(18)),
        case("2(5A1,I3), third", "2(5A1,I3)", "ABCDE  1FGHIJ  2", 2, text(8, 13)),
        case("2(5A1,I3), fourth", "2(5A1,I3)", "ABCDE  1FGHIJ  2", 3, integer(13, 16)),
        case("2(X,2(I1,A1)), last", "2(X,2(I1,A1))", " 1a2b 3c4d", 7, text(9, 10)),
        case("2(X,2(I1,A1)), seventh", "2(X,2(I1,A1))", " 1a2b 3c4d", 6, integer(8, 9)),
        case("2(2(2(I1))), last", "2(2(2(I1)))", "12345678", 7, integer(7, 8)),
        case("2(2(2(I1))), past the last", "2(2(2(I1)))", "12345678", 8, no_line(18)),
        case("2(I1),X,2(I1)", "2(I1),X,2(I1)", "12 34", 3, integer(4, 5)),
    ]);
    cases
}

/// 27, however large a count is, and before the line is looked at.
fn too_large() -> Vec<Case> {
    let texts = [
        "81X", "9I10", "81A1", "41A2", "2A41", "A80,X", "X,A80", "8I10,X", "80I1,I1", "2(A41)", "2(A40,X)", "27(I3)",
        "4E20.12,X", "7E13.5", "1P6E15.7", "99999999999999999999I1", "18446744073709551616I1", "18446744073709551617I1",
        "18446744073709551617X", "18446744073709551617A1", "9223372036854775809I2", "4611686018427387905E4.0",
        "9223372036854775808I2", "1P18446744073709551617E13.5", "18446744073709551616(I1)", "18446744073709551617(I1)",
        "4294967296(4294967296(I1))", "4294967297(4294967295(I1))", "4294967296(4294967296I1),I5", "6148914691236517206(3I1)",
        "2305843009213693952(A8)", "2305843009213693953A8", "65536(65536(65536(65536I1)))", "65536(65536(65536(65536X))),I5",
        "9999999999(9999999999(9999999999I80))", "9223372036854775809X,9223372036854775808X",
        "340282366920938463463374607431768211457I1", "4294967297I1", "4294967376A1", "256I1", "257I1", "336X", "65537I1",
    ];
    let cases = texts.iter().flat_map(|format| {
        let name = format!("too large: {format}");
        [case(&name, format, "1", 0, no_line(27)), case(&name, format, "\n", u32::MAX, no_line(27))]
    });
    let nines = "9".repeat(118);
    cases
        .chain([
            case("a count of 118 digits", &format!("{nines}I1"), "1", 0, no_line(27)),
            case("a count of 119 digits before X", &format!("9{nines}X"), "1", 0, no_line(27)),
            case("a count of 115 digits before a group", &format!("{}(I1)", &nines[..115]), "1", 0, no_line(27)),
        ])
        .collect()
}

/// 120 bytes at most, blanks counted.
fn lengths() -> Vec<Case> {
    let blanks = |n: usize| " ".repeat(n);
    let many = |n: usize| vec!["I1"; n].join(",");
    let ones = "1".repeat(40);
    vec![
        case("120 bytes", &format!("I5{}", blanks(118)), "    1", 0, integer(0, 5)),
        case("121 bytes", &format!("I5{}", blanks(119)), "    1", 0, no_line(26)),
        case("120 bytes, blanks first", &format!("{}I5", blanks(118)), "    1", 0, integer(0, 5)),
        case("121 bytes, blanks first", &format!("{}I5", blanks(119)), "    1", 0, no_line(26)),
        case("119 bytes without a blank", &many(40), &ones, 39, integer(39, 40)),
        case(
            "120 bytes without a blank",
            &format!("{},I10", many(39)),
            &format!("{}         1", &ones[1..]),
            39,
            integer(39, 49),
        ),
        case("119 bytes and one", &format!("{},I1 ", many(39)), &ones, 39, integer(39, 40)),
        case("119 bytes and two", &format!("{},I1  ", many(39)), &ones, 39, no_line(26)),
        case("122 bytes without a blank", &format!("{},I1", many(40)), &format!("{ones}1"), 40, no_line(26)),
        case("121 bytes of 27", &format!("81X{}", blanks(118)), "", 0, no_line(26)),
        case("120 bytes of 27", &format!("81X{}", blanks(117)), "", 0, no_line(27)),
        case("10,000 bytes", &format!("I5{}", blanks(9_998)), "    1", 0, no_line(26)),
    ]
}

/// Texts and where they stand: past may be over the line's length.
fn texts() -> Vec<Case> {
    vec![
        case("past the line's end", "I5,10A1", "    1", 1, text(5, 15)),
        case("wholly past the line's end", "I5,5X,10A1,20A2", "    1", 2, text(20, 60)),
        case("every byte that is allowed", "A80", "~ !\"#$%&'()*+,-./09:;<=>?@AZ[\\]^_`az{|}", 0, text(0, 80)),
        case("a blank text is shown", "80A1", "", 0, text(0, 80)),
        case("40A2", "40A2", "x", 0, text(0, 80)),
        case("9A1,1X,8A1, first", "9A1,1X,8A1", "12-MAR-99 08:30:00", 0, text(0, 9)),
        case("9A1,1X,8A1, second", "9A1,1X,8A1", "12-MAR-99 08:30:00", 1, text(10, 18)),
    ]
}

/// Lines: empty, delimiters, 80 and 81 columns, bad bytes, integers.
fn lines() -> Vec<Case> {
    let blanks = |n: usize| " ".repeat(n);
    let far = format!("{}\t{}", blanks(84), blanks(5));
    let mut cases = vec![
        case("empty, I5", "I5", "", 0, at(24, 1)),
        case("empty, E13.5", "E13.5", "", 0, at(25, 1)),
        case("empty, X,I5", "X,I5", "", 0, at(24, 2)),
        case("empty, 5X,E13.5", "5X,E13.5", "", 0, at(25, 6)),
        case("empty, A5", "A5", "", 0, text(0, 5)),
        case("a delimiter as integer", "I6", "    -1", 0, integer(0, 6)),
        case("a delimiter as text", "80A1", "    -1", 0, text(0, 80)),
        case("a delimiter cut", "I5,I5", "    -1", 0, at(10, 1)),
        case("a delimiter with a short field", "I5", "    -1", 0, at(10, 1)),
        case("a delimiter as real", "E13.5", "    -1", 0, at(12, 1)),
        case("80 blanks", "X", &blanks(80), 0, no_line(18)),
        case("81 blanks", "X", &blanks(81), 0, at(3, 1)),
        case("81 columns of text", "A80", &"x".repeat(81), 0, at(3, 1)),
        case("80 columns of text", "A80", &"x".repeat(80), 0, text(0, 80)),
        case("81 columns, a bad field", "I5", &"x".repeat(81), 0, at(3, 1)),
        case("10,000 columns", "X", &blanks(10_000), 0, at(3, 1)),
        case("LF at its end", "I5", "    1\n", 0, at(2, 6)),
        case("CR at its end", "I5", "    1\r", 0, at(2, 6)),
        case("CR LF at its end", "I5", "    1\r\n", 0, at(2, 6)),
        case("LF alone", "A80", "\n", 0, at(2, 1)),
        case("CR at its end, past column 80", "A80", &format!("{}\r", blanks(80)), 0, at(2, 81)),
        case("LF between", "A80", "ab\ncd", 0, at(2, 3)),
        case("a bad byte past column 80", "A80", &far, 0, at(2, 85)),
        case("a bad byte, a bad field and too long", "I5", &format!("x{far}"), 0, at(2, 86)),
        case("a TAB", "A80", "ab\tcd", 0, at(2, 3)),
        case("byte 127", "A80", "\u{7f}", 0, at(2, 1)),
        case("byte 31", "A80", "x\u{1f}", 0, at(2, 2)),
        case("byte 0", "A80", "xy\0", 0, at(2, 3)),
        case("two bytes over 127", "A80", "x\u{fc}", 0, at(2, 2)),
        case("the last field that can be asked", "I5", "    1", u32::MAX, no_line(18)),
        case("field 2147483648", "I5", "    1", 0x8000_0000, no_line(18)),
        case("field 256", "I5", "    1", 256, no_line(18)),
        case("field 80", "80A1", "", 80, no_line(18)),
    ];
    let last = Case { line: vec![b' ', 255], ..case("byte 255", "A80", "", 0, at(2, 2)) };
    cases.push(last);
    let good = ["    1", "   -1", "   +1", "-0000", "+9999", "00000", "12345", "   -0", "    0"];
    cases.extend(good.iter().map(|line| case(&format!("good: {line}"), "I5", line, 0, integer(0, 5))));
    let bad = [
        "1", "1    ", "   1 ", "    +", "    -", "  - 1", "1   1", "  1-1", "  +-1", "    x", "x   1", "  1.0", "   1.", " 1E+0",
        "  1,0", "-   1", "0x001", "    .",
    ];
    cases.extend(bad.iter().map(|line| case(&format!("bad: {line}"), "I5", line, 0, at(10, 1))));
    cases.extend([
        case("2147483648", "I10", "2147483648", 0, integer(0, 10)),
        case("-2147483649", "I12", " -2147483649", 0, integer(0, 12)),
        case("twelve nines", "I12", "999999999999", 0, integer(0, 12)),
        case("a blank field, after an integer beyond 32 bits", "2I10", "9999999999", 0, at(24, 11)),
        case("a sign and 79 digits", "I80", &format!("-{}", "9".repeat(79)), 0, integer(0, 80)),
        case("a function type off its list", "I5", "   29", 0, integer(0, 5)),
    ]);
    cases
}

/// Which refusal comes first.
fn order() -> Vec<Case> {
    vec![
        case("26 before 27", "9I10,i5", "    1", 0, no_line(26)),
        case("26 before 27, brackets", "(((((I5,)))))", "    1", 0, no_line(26)),
        case("26 before the line", "i5", "\t", 0, no_line(26)),
        case("27 before the line", "9I10", "\t", 0, no_line(27)),
        case("2 before 3", "I5", &format!("{}\t", " ".repeat(100)), 0, at(2, 101)),
        case("2 before the fields", "I5", "x\t", 0, at(2, 2)),
        case("3 before the fields", "I5", &format!("x{}", " ".repeat(80)), 0, at(3, 1)),
        case("3 before 13", "X", &"x".repeat(81), 0, at(3, 1)),
        case("the first of two bad fields", "E13.5,I5", "             x    ", 0, at(25, 1)),
        case("the second of two fields", "E13.5,I5", &format!("{TENTH}    x"), 0, at(10, 14)),
        case("the second of two fields, blank", "E13.5,I5", TENTH, 0, at(24, 14)),
        case("a blank field after a bad one", "I5,I5", "    x     ", 1, at(10, 1)),
        case("a bad field after a blank one", "I5,I5", "         x", 1, at(24, 1)),
        case("a real after an integer", "I5,E13.5", "    x", 1, at(10, 1)),
        case("10 before 13 to its left", "I5,X,I5", "    1x   x2", 0, at(10, 7)),
        case("12 before 13 to its left", "X,E13.5", "x           1", 0, at(12, 2)),
        case("25 before 13 past the fields", "E13.5", "                 x", 0, at(25, 1)),
        case("13 in X columns", "I5,2X,I5", "    1 x    2x", 0, at(13, 7)),
        case("13 past the fields", "I5,2X,I5", "    1      2x", 0, at(13, 13)),
        case("13 in column 80", "I5", &format!("    1{}x", " ".repeat(74)), 0, at(13, 80)),
        case("13 before 18", "I5", "    1x", 9, at(13, 6)),
        case("10 before 18", "I5", "    x", 9, at(10, 1)),
        case("24 before 18", "I5", "", u32::MAX, at(24, 1)),
        case("2 before 18", "I5", "\t", 9, at(2, 1)),
        case("3 before 18", "I5", &" ".repeat(81), 9, at(3, 1)),
        case("all fields are looked at", "I5,I5", "    1", 0, at(24, 6)),
        case("13 is looked at", "I5,I5", "    1    2 x", 0, at(13, 12)),
        case("a text is none of it", "A5,I5", "\\\\\\\\\\    1", 0, text(0, 5)),
        case("never 9", "80A1", "", 0, text(0, 80)),
        case(
            "never 14",
            "3D25.17",
            " -1.00000000000000000D+00  0.00000000000000000D+00 -1.00000000000000000D+00",
            0,
            real(0, 25, (true, 100_000_000_000_000_000, -17)),
        ),
    ]
}

/// Real fields as document 01 and C-12 name them, whatever decimals and letter say.
fn reals() -> Vec<Case> {
    let shown = |spelled: &str, means: (bool, u64, i16)| {
        let width = spelled.len();
        case(&format!("real: {spelled}"), &format!("E{width}.0"), spelled, 0, real(0, width as u32, means))
    };
    let bad = |spelled: &str| {
        let width = spelled.len();
        case(&format!("no real: {spelled}"), &format!("X,D{width}.{width}"), &format!(" {spelled}"), 0, at(12, 2))
    };
    let mut cases = vec![
        shown("  1.00000E-01", A_TENTH),
        shown("-.5E+00", (true, 5, -1)),
        shown("1.E+00", (false, 1, 0)),
        shown("+1.E+00", (false, 1, 0)),
        shown("-0.0E+00", (true, 0, -1)),
        shown("0.50E+00", (false, 50, -2)),
        shown("1.5E+999", (false, 15, 998)),
        shown("1.5e-999", (false, 15, -1_000)),
        shown("1.5D+00", (false, 15, -1)),
        shown("1.5d-100", (false, 15, -101)),
        shown("-1.234567890123-101", (true, 1_234_567_890_123, -113)),
        shown("1.+000", (false, 1, 0)),
        shown(".5-005", (false, 5, -6)),
        shown("1.5+999", (false, 15, 998)),
        shown("0.12345678901234567E-999", (false, 12_345_678_901_234_567, -1_016)),
        shown(".123456789012345678E-999", (false, 123_456_789_012_345_678, -1_017)),
        shown("999999999999999999.E+999", (false, 999_999_999_999_999_999, 999)),
        shown("000000000000000001.E+00", (false, 1, 0)),
        shown("   -1.5E+00", (true, 15, -1)),
    ];
    let spellings = [
        "1.5", "15E+00", "1.5E00", "1.5E+0", "1.5E+0000", "1.5+00", "1.5-10", "1.5-1010", "1-101", ".-101", "-.+000", "1.5 -101",
        "1.5- 101", "1.5--101", "1.5-101 ", "1.5E101", "1.5E-1010", ".E+00", "-.E+00", "1..5E+00", "1.5.E+00", "1.5F+00",
        "1.5 E+00", "1.5E +00", "1.5E+ 0", "1 .5E+00", "- 1.5E+00", "--1.5E+00", "+-1.5E+00", "1.5E+00 ", "1.5E++00", "1.5EE+00",
        "x1.5E+00", "1,5E+00", "NaN", "Inf", "1", "0", "-", ".", "E+00", "1.5E", "1.5E+", "1.5E+0x", "1234567890123456789.E+00",
        "1.234567890123456789-101", "0000000000000000000.E+00", "1.5Q+00", "1.5ED+00", "+000", "+00", "1.5E+00E+00",
        "1.5+000+000",
    ];
    cases.extend(spellings.iter().copied().map(bad));
    cases.extend([
        case("touching", "2E11.4", "-1.5000E+00-2.5000E+00", 1, real(11, 22, (true, 25_000, -4))),
        case("touching, without a letter", "2E10.4", "-1.5000-100-2.5000-100", 0, at(12, 1)),
        case("in the second of two", "2E13.5", &format!("{TENTH}  1.00000E 01"), 0, at(12, 14)),
        case("19 digits in D25.17", "D25.17", " 1.234567890123456789D+00", 0, at(12, 1)),
        case("18 digits in D25.17", "D25.17", "  1.23456789012345678D+00", 0, real(0, 25, (false, 123_456_789_012_345_678, -17))),
    ]);
    cases
}

/// Lines of document 01's example by the FORMATs printed for them.
fn examples() -> Vec<Case> {
    let dof = "    1         1    0         0 NONE               7   3 NONE               0   0";
    let form = "         2         7         1  0.00000E+00  1.00000E-03  0.00000E+00";
    let axis = "        17    0    0    0 Time                 s";
    let data = "  1.00000E-01 -2.00000E-01  3.00000E-01 -4.00000E-01  5.00000E-01 -6.00000E-01";
    let units = "         1SI: Meter (newton)           2";
    vec![
        case("line 6, function type", "2(I5,I10),2(1X,10A1,I10,I4)", dof, 0, integer(0, 5)),
        case("line 6, load case", "2(I5,I10),2(1X,10A1,I10,I4)", dof, 3, integer(20, 30)),
        case("line 6, response name", "(2(I5, I10), 2(1X, 10A1, I10, I4))", dof, 4, text(31, 41)),
        case("line 6, response node", "2(I5,I10),2(1X, 10A1,I10,I4)", dof, 5, integer(41, 51)),
        case("line 6, reference direction", "2(I5,I10),2(1X,10A1,I10,I4)", dof, 9, integer(76, 80)),
        case("line 6, past the last", "2(I5,I10),2(1X,10A1,I10,I4)", dof, 10, no_line(18)),
        case("line 7, count", "3I10,3E13.5", form, 1, integer(10, 20)),
        case("line 7, increment", "(3I10,3E13.5)", form, 4, real(43, 56, (false, 100_000, -8))),
        case("line 8, label", "I10,3I5,2(1X,20A1)", axis, 4, text(26, 46)),
        case("line 8, units", "I10,3I5,2(1X,20A1)", axis, 5, text(47, 67)),
        case("data, fifth", "6E13.5", data, 5, real(65, 78, (true, 600_000, -6))),
        case("data, one short", "5E13.5", data, 0, at(13, 67)),
        case("data, as four doubles", "4E20.12", data, 0, at(12, 1)),
        case("the last line by its FORMAT", "E13.5", "  7.00000E-01", 0, real(0, 13, (false, 700_000, -6))),
        case("the last line by the full one", "6E13.5", "  7.00000E-01", 0, at(25, 14)),
        case("164, mode", "I10,20A1,I10", units, 2, integer(30, 40)),
        case("164, by 002's print", "I10,20A1", units, 0, at(13, 40)),
        case("164, mode blank", "I10,20A1,I10", "         1SI: Meter (newton)", 0, at(24, 31)),
        case("151, record 4, its numbers blank", "10A1,10A1,3I10", "13-JUN-95 10:20:30", 0, at(24, 21)),
        case(
            "151, record 4, one number blank",
            "10A1,10A1,3I10",
            "13-JUN-95 10:20:30           6                   0",
            0,
            at(24, 31),
        ),
        case(
            "151, record 4, its third number",
            "10A1,10A1,3I10",
            "13-JUN-95 10:20:30           6         1         3",
            4,
            integer(40, 50),
        ),
        case(
            "padding is shown by the full FORMAT",
            "6E13.5",
            "  7.00000E-01  0.00000E+00  0.00000E+00  0.00000E+00  0.00000E+00 -0.00000E+00",
            5,
            real(65, 78, (true, 0, -5)),
        ),
        case(
            "a remainder with a hole",
            "6E13.5",
            "  7.00000E-01  8.00000E-01               9.00000E-01  1.00000E+00  1.00000E+00",
            0,
            at(25, 27),
        ),
        case("a 58b's number line", "I6", "    58b", 0, at(13, 7)),
        case("151, by 002's print", "10A1,10A1", "13-JUN-95 10:20:30           6", 1, at(13, 30)),
        case("1815, record 3", "2(1I2,1I6),1I12", " 1     2 0     1           4", 3, integer(10, 16)),
        case(
            "1815, record 7",
            "1P1E15.7,1I2,1I12,1I6",
            "  1.0000000E+00 1           2     3",
            0,
            real(0, 15, (false, 10_000_000, -7)),
        ),
    ]
}

/// A wrong program, a question, and what that program answers.
pub struct Wrong {
    pub program: &'static str,
    pub case: Case,
    pub instead: Answer,
}

/// Each wrong program gives another answer than the papers to its question.
pub fn wrong_programs() -> Vec<Wrong> {
    let wrong = |program, format: &str, line: &str, field, right, instead| Wrong {
        program,
        case: case(program, format, line, field, right),
        instead,
    };
    let five = "    1";
    vec![
        wrong("a count repeats only a group's last item", "2(I3,I2)", "  1 2  3 4", 2, integer(5, 8), at(24, 6)),
        wrong("a count repeats only a group's first item", "2(I3,I2)", "  1 2  3 4", 3, integer(8, 10), at(10, 4)),
        wrong("a count of an A item is several texts", "10A1", "abcdefghij", 0, text(0, 10), text(0, 1)),
        wrong("a count of a group of one A item is one text", "2(10A1)", "abcdefghij", 0, text(0, 10), text(0, 20)),
        wrong("A items beside each other are one text", "10A1,10A1", "abcdefghij", 0, text(0, 10), text(0, 20)),
        wrong("a group's count is used once", "3(I2)", " 1 2 3", 2, integer(4, 6), at(13, 4)),
        wrong("an inner group's count is used once", "2(2(I2))", " 1 2 3 4", 3, integer(6, 8), at(13, 6)),
        wrong("1P before I is taken", "1PI5", five, 0, no_line(26), integer(0, 5)),
        wrong("1P before a group is taken", "1P(E13.5)", TENTH, 0, no_line(26), real(0, 13, A_TENTH)),
        wrong("1P before a group's count is taken", "1P1(E13.5)", TENTH, 0, no_line(26), real(0, 13, A_TENTH)),
        wrong("1P before A is taken", "1PA5", "abcde", 0, no_line(26), text(0, 5)),
        wrong("1P before X is taken", "1PX,I4", five, 0, no_line(26), integer(1, 5)),
        wrong("1P,E13.5 is taken", "1P,E13.5", TENTH, 0, no_line(26), real(0, 13, A_TENTH)),
        wrong("1P after the count is taken", "11PE13.5", TENTH, 0, no_line(26), real(0, 13, A_TENTH)),
        wrong("1P before a count is refused", "1P1E13.5", TENTH, 0, real(0, 13, A_TENTH), no_line(26)),
        wrong("1P moves the point", "1PE13.5", TENTH, 0, real(0, 13, A_TENTH), real(0, 13, (false, 100_000, -7))),
        wrong("decimals move the point", "E13.3", TENTH, 0, real(0, 13, A_TENTH), real(0, 13, (false, 100_000, -4))),
        wrong("four groups deep are taken", "1(1(1(1(I5))))", five, 0, no_line(27), integer(0, 5)),
        wrong("three groups deep are refused", "1(1(1(I5)))", five, 0, integer(0, 5), no_line(27)),
        wrong("the outer pair is counted", "((((I5))))", five, 0, integer(0, 5), no_line(27)),
        wrong("an outer pair with a count is not counted", "1((((I5))))", five, 0, no_line(27), integer(0, 5)),
        wrong("a first and a last bracket of two pairs are not counted", "((((I5)))),(X)", five, 0, no_line(27), integer(0, 5)),
        wrong("81 columns are taken", "I5,76X", five, 0, no_line(27), integer(0, 5)),
        wrong("80 columns are refused", "I5,75X", five, 0, integer(0, 5), no_line(27)),
        wrong("X columns are not counted among 80", "80X,X", "", 0, no_line(27), no_line(18)),
        wrong("a count wraps at 2^64", "18446744073709551617I5", five, 0, no_line(27), integer(0, 5)),
        wrong("a count wraps at 2^32", "4294967297I5", five, 0, no_line(27), integer(0, 5)),
        wrong("a product of counts wraps", "274177(67280421310721(I5))", five, 0, no_line(27), integer(0, 5)),
        wrong("blanks inside a number are refused", "1 0A1", "", 0, text(0, 10), no_line(26)),
        wrong("blanks inside a number end it", "I1 2", "           1", 0, integer(0, 12), at(24, 1)),
        wrong("a leading zero is taken", "I05", five, 0, no_line(26), integer(0, 5)),
        wrong("a leading zero of a count is taken", "01I5", five, 0, no_line(26), integer(0, 5)),
        wrong("decimals with a leading zero are taken", "E13.05", TENTH, 0, no_line(26), real(0, 13, A_TENTH)),
        wrong("decimals of 0 are refused", "E13.0", TENTH, 0, real(0, 13, A_TENTH), no_line(26)),
        wrong("decimals over the width are taken", "E13.14", TENTH, 0, no_line(26), real(0, 13, A_TENTH)),
        wrong("decimals of the width are refused", "E13.13", TENTH, 0, real(0, 13, A_TENTH), no_line(26)),
        wrong("a width over 80 is 27", "I81", five, 0, no_line(26), no_line(27)),
        wrong("27 comes before 26", "9I10,i5", five, 0, no_line(26), no_line(27)),
        wrong("the first of 26 and 27 in the text comes", "((((((I5,))))))", five, 0, no_line(26), no_line(27)),
        wrong("the line comes before 27", "9I10", "\t", 0, no_line(27), at(2, 1)),
        wrong("the line comes before 26", "I5,", "\t", 0, no_line(26), at(2, 1)),
        wrong("18 comes before the line's own", "I5", "    x", 7, at(10, 1), no_line(18)),
        wrong("18 comes before 13", "I5", "    1 x", 1, at(13, 7), no_line(18)),
        wrong("only the field that is asked is looked at", "I5,I5", "    1    x", 0, at(10, 6), integer(0, 5)),
        wrong("13 is not looked at", "I5", "    1 x", 0, at(13, 7), integer(0, 5)),
        wrong("X columns may hold a byte", "I5,X,I5", "    1x    2", 1, at(13, 6), integer(6, 11)),
        wrong("X is counted as a field", "X,I4", five, 0, integer(1, 5), text(0, 1)),
        wrong("X without a count is refused", "X,I4", five, 0, integer(1, 5), no_line(26)),
        wrong("first and past are counted from 1", "I5", five, 0, integer(0, 5), integer(1, 6)),
        wrong("past is the last byte", "I5", five, 0, integer(0, 5), integer(0, 4)),
        wrong("past is no further than the line", "I5,10A1", five, 1, text(5, 15), text(5, 5)),
        wrong("an out-of-range integer is refused", "I12", "999999999999", 0, integer(0, 12), at(11, 1)),
        wrong("an out-of-range integer ends the look at a line: 13", "I12", "999999999999 x", 0, at(13, 14), integer(0, 12)),
        wrong("an out-of-range integer ends the look at a line: 10", "2I10", "9999999999         x", 0, at(10, 11), integer(0, 10)),
        wrong("a blank text is refused", "A5", "", 0, text(0, 5), at(9, 1)),
        wrong("a blank integer is malformed", "I5", "", 0, at(24, 1), at(10, 1)),
        wrong("a blank real is malformed", "E13.5", "", 0, at(25, 1), at(12, 1)),
        wrong("a blank field is zero", "E13.5", "", 0, at(25, 1), real(0, 13, (false, 0, 0))),
        wrong("CR at the line's end belongs to it", "I5", "    1\r", 0, at(2, 6), integer(0, 5)),
        wrong("LF at the line's end belongs to it", "I5", "    1\n", 0, at(2, 6), integer(0, 5)),
        wrong("3 comes before 2", "X", &format!("{}\t", " ".repeat(90)), 0, at(2, 91), at(3, 1)),
        wrong("a line lent alone is 4", "I5", five, 0, integer(0, 5), at(4, 1)),
        wrong("a delimiter is 7", "I6", "    -1", 0, integer(0, 6), at(7, 1)),
        wrong("121 bytes are taken", &format!("I5{}", " ".repeat(119)), five, 0, no_line(26), integer(0, 5)),
        wrong("120 bytes are refused", &format!("I5{}", " ".repeat(118)), five, 0, integer(0, 5), no_line(26)),
        wrong("blanks are not counted among 120 bytes", &format!("I{}5", " ".repeat(119)), five, 0, no_line(26), integer(0, 5)),
        wrong("letters that are not capitals are taken", "i5", five, 0, no_line(26), integer(0, 5)),
        wrong("the word FORMAT is taken", "FORMAT(I5)", five, 0, no_line(26), integer(0, 5)),
        wrong("a comma may be left out", "I3I2", five, 1, no_line(26), integer(3, 5)),
        wrong("an empty list is taken", "I5,()", five, 0, no_line(26), integer(0, 5)),
        wrong("a comma may end a list", "(I5,)", five, 0, no_line(26), integer(0, 5)),
        wrong("a bracket may stay open", "(I5", five, 0, no_line(26), integer(0, 5)),
        wrong("what follows the text is passed over", "I5)", five, 0, no_line(26), integer(0, 5)),
        wrong("E without decimals is taken", "E13", TENTH, 0, no_line(26), real(0, 13, A_TENTH)),
    ]
}
