//! Request C-14: files whose refusals have a column, each typed from the documents' FORMATs.
//!
//! Each wrong program that the request's issue names is told apart by one of these files; the comment
//! above a list says which. A column beside 19 is told apart by `tests/writer`, number and column
//! exchanged in the word by every refusal here whose two differ.

use super::{accepted, no_line, put, refused, with, List, HEADER, ORDERS, TRACE, UNITS};
use crate::common::files::{empty_sets, function, lines};
use crate::judge::Reply;

/// A numeric field.
#[derive(Clone, Copy, PartialEq)]
enum Kind {
    /// An integer.
    I,
    /// An integer that may be blank.
    Mode,
    /// A real.
    E,
}

use Kind::{Mode, E, I};

/// A field's kind, first column (from 1), width, and texts that are well-formed but break its rule (11;
/// 14 for a real).
type Field = (Kind, usize, usize, &'static [&'static str]);

/// Past the range of an integer.
const PAST: &[&str] = &["2147483648"];

/// A text of so many columns is put there, at the right end of the field.
fn put_field(file: &[u8], line: usize, (_, first, width, _): Field, text: &str) -> Vec<u8> {
    put(file, line, first, &format!("{text:>width$}"))
}

/// What each kind is refused with where it is blank (none where it passes) and where it is malformed.
fn numbers_of(kind: Kind) -> (Option<u32>, u32) {
    match kind {
        I => (Some(24), 10),
        Mode => (None, 10),
        E => (Some(25), 12),
    }
}

/// Malformed texts, those that are not wider than the field.
fn malformed(kind: Kind) -> &'static [&'static str] {
    match kind {
        I | Mode => &["x", "1 ", "-", "1.", "+ 1", "1 2"],
        E => &["x", "1.0E+00 ", "-", "1.0E+0", "1E+00", "1.0 E+00", "1.0+00", "1.0"],
    }
}

/// Every numeric field of a line, blank, malformed and out of its rule, alone and with all after it malformed too.
/// Tells apart: the field's last column, a column from 0, the column of the field after, a blank field called
/// malformed and a malformed one blank.
fn add_fields(list: &mut List, name: &str, file: &[u8], line: usize, fields: &[Field]) {
    let lines = lines(file).len() as u32;
    for (n, &field) in fields.iter().enumerate() {
        let (kind, first, width, wrong) = field;
        let at = |number| refused(number, line as u32, first as u32);
        let (blank, bad) = numbers_of(kind);
        let name = format!("{name}, line {line}, column {first}");
        list.add(&format!("{name} blank"), put_field(file, line, field, ""), blank.map_or(accepted(lines), at));
        for text in malformed(kind).iter().filter(|text| text.len() <= width) {
            list.add(&format!("{name}: {text:?}"), put_field(file, line, field, text), at(bad));
        }
        for text in wrong {
            let number = if kind == E { 14 } else { 11 };
            list.add(&format!("{name}: {text:?}"), put_field(file, line, field, text), at(number));
        }
        let after = fields[n + 1..].iter().fold(file.to_vec(), |file, &field| put_field(&file, line, field, "x"));
        list.add(&format!("{name} and all after it malformed"), put_field(&after, line, field, "x"), at(bad));
        if let Some(number) = blank {
            list.add(&format!("{name} blank, all after it malformed"), put_field(&after, line, field, ""), at(number));
        }
    }
}

/// 58 by document 001, with document 01's codes.
fn functions(list: &mut List) {
    let even = function(1, 7, 7);
    // Record 6: Format(2(I5,I10),2(1X,10A1,I10,I4)).
    let record_6 = [
        (I, 1, 5, &["29", "-1"][..]),
        (I, 6, 10, PAST),
        (I, 16, 5, &[]),
        (I, 21, 10, PAST),
        (I, 42, 10, PAST),
        (I, 52, 4, &["7", "-7"]),
        (I, 67, 10, PAST),
        (I, 77, 4, &["7", "-7"]),
    ];
    add_fields(list, "58", &even, 8, &record_6);
    // Record 7: Format(3I10,3E13.5). Minimum and increment have a rule where the spacing is uneven. A blank
    // count is 24 and not 11.
    let three_integers = [(I, 1, 10, &["3", "2147483648"][..]), (I, 11, 10, &["0", "65537"]), (I, 21, 10, &["2", "-1"])];
    let z_value = (E, 57, 13, &[][..]);
    let even_7 = [&three_integers[..], &[(E, 31, 13, &[]), (E, 44, 13, &[]), z_value]].concat();
    add_fields(list, "58", &even, 9, &even_7);
    let not_zero = &["1.00000E-03", "-1.0-101"][..];
    let uneven_7 = [&three_integers[..], &[(E, 31, 13, not_zero), (E, 44, 13, not_zero), z_value]].concat();
    add_fields(list, "58, uneven", &function(2, 7, 7), 9, &uneven_7);
    // Records 8 to 11: Format(I10,3I5,2(1X,20A1)).
    let axis = [(I, 1, 10, &["4", "20", "-1"][..]), (I, 11, 5, &[]), (I, 16, 5, &[]), (I, 21, 5, &[])];
    for line in 10..=13 {
        add_fields(list, "58", &even, line, &axis);
    }
    // The data, by case: the first columns and widths of 6E13.5, 4E20.12, 2(E13.5,E20.12) and E13.5,2E20.12.
    let single = [(1, 13), (14, 13), (27, 13), (40, 13), (53, 13), (66, 13)];
    let double = [(1, 20), (21, 20), (41, 20), (61, 20)];
    let both = [(1, 13), (14, 20), (34, 13), (47, 20)];
    let three = [(1, 13), (14, 20), (34, 20)];
    let cases: [&[(usize, usize)]; 8] = [&single, &single, &single, &single, &double, &both, &double, &three];
    for (case, fields) in (1..).zip(cases) {
        let fields: Vec<Field> = fields.iter().map(|&(first, width)| (E, first, width, &[][..])).collect();
        let file = function(case, 12, 12);
        add_fields(list, &format!("case {case}"), &file, 14, &fields);
        add_fields(list, &format!("case {case}"), &file, lines(&file).len() - 1, &fields);
    }
    add_fields(list, "case 1, its last line", &even, 15, &[(E, 1, 13, &[])]);
    add_fields(list, "case 5, its last line", &function(5, 6, 6), 15, &[(E, 1, 20, &[]), (E, 21, 20, &[])]);
}

/// 82, 151 and 164 by document 000, with document 01's rules.
fn other_sets(list: &mut List) {
    // 82: 3I10, then 8I10.
    let trace = [(I, 1, 10, &["0", "-1", "2147483648"][..]), (I, 11, 10, &["0", "251"]), (I, 21, 10, &["-1"])];
    add_fields(list, "82", TRACE.as_bytes(), 3, &trace);
    let entries: Vec<Field> = (0..8).map(|n| (I, 10 * n + 1, 10, &["-1", "2147483648"][..])).collect();
    add_fields(list, "82", TRACE.as_bytes(), 5, &entries);
    add_fields(list, "82", TRACE.as_bytes(), 6, &entries[..2]);
    // 151, record 4: 10A1,10A1,3I10. One that is blank beside others is 24.
    let made = [(I, 21, 10, PAST), (I, 31, 10, PAST), (I, 41, 10, &["3", "-1"])];
    add_fields(list, "151", HEADER.as_bytes(), 6, &made);
    // 164: I10,20A1,I10; 3D25.17; D25.17.
    add_fields(list, "164", UNITS.as_bytes(), 3, &[(I, 1, 10, &["0", "10"]), (Mode, 31, 10, &["0", "3"])]);
    let not_above = &["0.00000000000000000D+00", "-1.0D+00", "-0.0-101"][..];
    add_fields(list, "164", UNITS.as_bytes(), 4, &[(E, 1, 25, not_above), (E, 26, 25, not_above), (E, 51, 25, not_above)]);
    add_fields(list, "164", UNITS.as_bytes(), 5, &[(E, 1, 25, &[])]);
}

/// 1815 by document 004: records 1 to 24 as printed, and the two lists.
fn orders(list: &mut List) {
    let reals = |first: usize, count: usize| (0..count).map(move |n| (E, first + 15 * n, 15, &[][..]));
    let switches = |first: usize, count: usize| (0..count).map(move |n| (I, first + 2 * n, 2, &[][..]));
    let records: [(usize, Vec<Field>); 22] = [
        // 1: (I12, 10A2)
        (1, vec![(I, 1, 12, PAST)]),
        // 2, 4, 5: (1P2E15.7)
        (2, reals(1, 2).collect()),
        (4, reals(1, 2).collect()),
        (5, reals(1, 2).collect()),
        // 3: (2(1I2,1I6),1I12)
        (3, vec![(I, 1, 2, &[]), (I, 3, 6, &["4", "-1"]), (I, 9, 2, &[]), (I, 11, 6, &["0", "3"]), (I, 17, 12, PAST)]),
        // 6: (1P3E15.7,1I12,1I2)
        (6, reals(1, 3).chain([(I, 46, 12, PAST), (I, 58, 2, &[])]).collect()),
        // 7: (1P1E15.7,1I2,1I12,1I6)
        (7, vec![(E, 1, 15, &[]), (I, 16, 2, &[]), (I, 18, 12, PAST), (I, 30, 6, &["4", "-1"])]),
        // 8: (1I12)
        (8, vec![(I, 1, 12, PAST)]),
        // 9: (1I6,1P1E15.7)
        (9, vec![(I, 1, 6, &["-2", "2"]), (E, 7, 15, &[])]),
        // 10: (1I2,1I6,1I12,1P2E15.7)
        (10, [(I, 1, 2, &[][..]), (I, 3, 6, &["0", "4"]), (I, 9, 12, PAST)].into_iter().chain(reals(21, 2)).collect()),
        // 11: (1I2,1I6,1P3E15.7)
        (11, [(I, 1, 2, &[][..]), (I, 3, 6, &["0", "3"])].into_iter().chain(reals(9, 3)).collect()),
        // 12: (3I6,8I2)
        (
            12,
            [(I, 1, 6, &["1", "4", "15"][..]), (I, 7, 6, &["3", "-1"]), (I, 13, 6, &["4", "-1"])]
                .into_iter()
                .chain(switches(19, 8))
                .collect(),
        ),
        // 15: (1I12,3I6,1I2)
        (
            15,
            vec![
                (I, 1, 12, PAST),
                (I, 13, 6, &["0", "3"]),
                (I, 19, 6, &["4", "-1"]),
                (I, 25, 6, &["10", "-1"]),
                (I, 31, 2, &[]),
            ],
        ),
        // 16: (1I6,1P2E15.7)
        (16, [(I, 1, 6, &[][..])].into_iter().chain(reals(7, 2)).collect()),
        // 17: (1I2,1I12,1P1E15.7)
        (17, vec![(I, 1, 2, &[]), (I, 3, 12, PAST), (E, 15, 15, &[])]),
        // 18: (1I2)
        (18, vec![(I, 1, 2, &[])]),
        // 19: (2I2,1I12)
        (19, vec![(I, 1, 2, &[]), (I, 3, 2, &[]), (I, 5, 12, PAST)]),
        // 24: (2I12), both 0 to 256
        (24, vec![(I, 1, 12, &["-1", "257"]), (I, 13, 12, &["-1", "257"])]),
        // The lists, (1P5E15.7): five orders and one, and one display order.
        (25, reals(1, 5).collect()),
        (26, reals(1, 1).collect()),
        (27, reals(1, 1).collect()),
        // 20 to 23 are any text: nothing in them is a number.
        (20, vec![]),
    ];
    for (record, fields) in records {
        add_fields(list, "1815", ORDERS.as_bytes(), record + 2, &fields);
    }
}

/// 13 in X columns and past the fields, alone and before and after another stray byte. Tells apart: the first byte
/// of the line for 13, the last stray byte.
fn stray_bytes(list: &mut List) {
    let even = function(1, 7, 7);
    // The file, its line, and the columns outside its fields (some of them): X columns first.
    let lines: [(&str, &[u8], usize, &[usize]); 12] = [
        ("58", &even, 8, &[31, 56]),
        ("58", &even, 9, &[70, 71, 80]),
        ("58", &even, 10, &[26, 47, 68, 80]),
        ("58", &even, 13, &[26, 47, 68, 80]),
        ("58", &even, 14, &[79, 80]),
        ("58", &even, 15, &[79, 80]),
        ("82", TRACE.as_bytes(), 3, &[31, 80]),
        ("82", TRACE.as_bytes(), 6, &[21, 22, 30, 80]),
        ("151", HEADER.as_bytes(), 6, &[51, 80]),
        ("164", UNITS.as_bytes(), 3, &[41, 80]),
        ("164", UNITS.as_bytes(), 5, &[26, 80]),
        ("1815", ORDERS.as_bytes(), 14, &[35, 36, 80]),
    ];
    for (name, file, line, columns) in lines {
        for (n, &first) in columns.iter().enumerate() {
            let one = put(file, line, first, "x");
            let due = refused(13, line as u32, first as u32);
            list.add(&format!("{name}, line {line}: x in column {first}"), &one, due);
            for &second in &columns[n + 1..] {
                let name = format!("{name}, line {line}: x in columns {first} and {second}");
                list.add(&name, put(&one, line, second, "~"), due);
            }
        }
    }
}

/// 14 for minimum, increment and each factor, alone and together. Tells apart: the increment named where the
/// minimum offends too.
fn conditions(list: &mut List) {
    let uneven = function(2, 7, 7);
    let (minimum, increment) = ((E, 31, 13, &[][..]), (E, 44, 13, &[][..]));
    for text in ["1.00000E+00", "-1.00000E+00", "0.00001-999"] {
        let both = put_field(&put_field(&uneven, 9, minimum, text), 9, increment, text);
        list.add(&format!("uneven, minimum and increment {text}"), &both, refused(14, 9, 31));
        list.add(&format!("uneven, minimum {text}"), put_field(&both, 9, increment, "0.0E+00"), refused(14, 9, 31));
        list.add(&format!("uneven, increment {text}"), put_field(&both, 9, minimum, "-0.0E+00"), refused(14, 9, 44));
        let even = function(1, 7, 7);
        let both = put_field(&put_field(&even, 9, minimum, text), 9, increment, text);
        list.add(&format!("even, minimum and increment {text}"), &both, accepted(16));
    }
    // Which of the three factors are not above zero, and the column.
    let factors = [(E, 1, 25, &[][..]), (E, 26, 25, &[]), (E, 51, 25, &[])];
    for (which, column) in [
        ([true, false, false], 1),
        ([false, true, false], 26),
        ([false, false, true], 51),
        ([true, true, false], 1),
        ([true, false, true], 1),
        ([false, true, true], 26),
        ([true, true, true], 1),
    ] {
        for text in ["0.0D+00", "-0.0D+00", "-1.0D+00"] {
            let file = factors.iter().zip(which).filter(|(_, wrong)| *wrong);
            let file = file.fold(UNITS.as_bytes().to_vec(), |file, (&factor, _)| put_field(&file, 4, factor, text));
            list.add(&format!("164, factors {which:?} {text}"), file, refused(14, 4, column));
        }
    }
}

/// A line of x with a bad byte in a column, and what comes after that byte.
fn bad_line(column: usize, bad: u8, after: &str) -> Vec<u8> {
    [&vec![b'x'; column - 1], &[bad][..], after.as_bytes()].concat()
}

/// Columns around those that a line may have and that the record of the streaming calls keeps.
const AROUND: [usize; 7] = [1, 79, 80, 81, 82, 83, 84];

/// Files of one line that has a bad byte, and its column: alone, before a second one, before a CR, with the line's
/// LF and without. Tells apart: the second bad byte, a column from 0; in bursts the column counted from the burst's
/// first byte, a dropped bad byte's column lost, a later one told.
pub fn bad_bytes() -> Vec<(String, Vec<u8>, usize)> {
    let mut all = Vec::new();
    for column in AROUND.into_iter().chain([100, 200]) {
        for bad in [b'\t', 0, 31, 127, 128, 255] {
            for after in ["\n", "", "\r\n", "x\n", "\x01\n", "\x01", "x\t\n", "\r\r\n", "\r", "xxxxx", "xxxxx\t\r\n"] {
                let name = format!("byte {bad} in column {column}, then {after:?}");
                all.push((name, bad_line(column, bad, after), column));
            }
        }
    }
    all
}

/// Lines whose CR is or is not part of the line's end, and the reply. A CR that is not is refused at its own
/// column. Tells apart: a CR before LF told.
pub fn carriage_returns() -> Vec<(String, Vec<u8>, Reply)> {
    let mut all = Vec::new();
    for columns in [0, 1, 78, 79, 80, 81, 82, 83, 84, 100] {
        let at = columns as u32 + 1;
        // The reply where the CR is part of the end: the line itself is refused, or blank.
        let line = match columns {
            0 => no_line(16),
            1..=80 => refused(5, 1, 1),
            _ => refused(3, 1, 1),
        };
        let unended = match columns {
            0 => no_line(16),
            1..=80 => refused(4, 1, 1),
            _ => refused(3, 1, 1),
        };
        for (end, reply) in [
            ("\n", line),
            ("\r\n", line),
            ("", unended),
            ("\r\r\n", refused(2, 1, at)),
            ("\r", refused(2, 1, at)),
            ("\r\r", refused(2, 1, at)),
            ("\rx\n", refused(2, 1, at)),
            ("\r\t\n", refused(2, 1, at)),
            ("\r\r\r\n", refused(2, 1, at)),
        ] {
            let file = [&vec![b'x'; columns], end.as_bytes()].concat();
            all.push((format!("{columns} bytes, then {end:?}"), file, reply));
        }
    }
    all
}

/// The longest files whose one line has a bad byte: its column, the bytes after it, and whether it is the last that
/// a file can have.
pub fn far_bytes() -> Vec<(&'static str, Vec<u8>, usize)> {
    vec![
        ("a bad byte in column 16,777,216", bad_line(16_777_216, 0x80, ""), 16_777_216),
        ("a CR in column 16,777,216", bad_line(16_777_216, b'\r', ""), 16_777_216),
        ("bad bytes in columns 16,777,215 and 16,777,216", bad_line(16_777_215, b'\t', "\t"), 16_777_215),
        ("a bad byte in column 16,777,215, LF", bad_line(16_777_215, 0, "\n"), 16_777_215),
        ("a CR in column 16,777,214, CR LF", bad_line(16_777_214, b'\r', "\r\n"), 16_777_214),
        ("bad bytes in columns 83 and 16,777,216", bad_line(83, 1, &("x".repeat(16_777_132) + "\x01")), 83),
    ]
}

/// 2 at the first bad byte of a line, wherever that is.
fn bad_columns(list: &mut List) {
    for (name, file, column) in bad_bytes() {
        list.add(&name, &file, refused(2, 1, column as u32));
        // The same in the second line, and in a set.
        list.add(&format!("a blank line, {name}"), [b"\n", &*file].concat(), refused(2, 2, column as u32));
    }
    for column in AROUND {
        let line = bad_line(column, b'\t', "x\x01x");
        let file = with(&function(1, 7, 7), 4, std::str::from_utf8(&line).expect("ASCII"));
        list.add(&format!("58, line 4: TAB in column {column}"), file, refused(2, 4, column as u32));
    }
    for (name, file, reply) in carriage_returns() {
        list.add(&name, file, reply);
    }
    for (name, file, column) in far_bytes() {
        list.add(name, file, refused(2, 1, column as u32));
    }
    let too_long = bad_line(16_777_217, b'\t', "");
    list.add("a bad byte in column 16,777,217", too_long, no_line(1));
    list.add("16,777,215 blanks, LF", [&vec![b' '; 16_777_215], &b"\n"[..]].concat(), refused(3, 1, 1));
}

/// The order of refusals on a line is what it was: 2 and 3 before the rule of its place, fields before 13 before 14,
/// a blank number line 6. Tells apart: a blank number line as 24, a column beside 0, 1 and 16.
fn orders_of_refusals(list: &mut List) {
    let even = function(1, 7, 7);
    let uneven = function(2, 7, 7);
    let x = |file: &[u8], line, column| put(file, line, column, "x");
    list.add("2 after 24", put(&put(&even, 8, 1, "     "), 8, 60, "\t"), refused(2, 8, 60));
    list.add("3 before 24", put(&put(&even, 8, 1, "     "), 8, 81, "x"), refused(3, 8, 1));
    list.add("24 before 13", x(&put(&even, 8, 77, "    "), 8, 31), refused(24, 8, 77));
    list.add("24 before 11", put(&put(&even, 8, 6, "          "), 8, 52, "  -7"), refused(24, 8, 6));
    list.add("11 before 24", put(&put(&even, 8, 1, "   29"), 8, 6, "          "), refused(11, 8, 1));
    list.add("25 before 12", put(&put(&even, 14, 14, &" ".repeat(13)), 14, 27, "            x"), refused(25, 14, 14));
    list.add("12 before 25", put(&put(&even, 14, 27, &" ".repeat(13)), 14, 14, "            x"), refused(12, 14, 14));
    list.add("25 before 14", put(&put(&uneven, 9, 31, "  1.00000E+00"), 9, 44, &" ".repeat(13)), refused(25, 9, 44));
    list.add("13 before 14", x(&put(&uneven, 9, 31, "  1.00000E+00"), 9, 80), refused(13, 9, 80));
    for number_line in ["", " ", "      ", &" ".repeat(80)] {
        let file = format!("    -1\n{number_line}\n    -1\n");
        list.add(&format!("number line of {} blanks", number_line.len()), file, refused(6, 2, 1));
    }
    list.add("no set", "", no_line(16));
    list.add("blank lines alone", " \n\n", no_line(16));
    list.add("a set", empty_sets(1), accepted(3));
    list.add("7 at lines + 1", "    -1\n    58\nx\n", refused(7, 4, 1));
}

pub(super) fn add_all(list: &mut List) {
    functions(list);
    other_sets(list);
    orders(list);
    stray_bytes(list);
    conditions(list);
    bad_columns(list);
    orders_of_refusals(list);
}
