//! Files that a Fortran program wrote, read here; and what the writer lays out, read by a Fortran program.

use crate::generate::Random;
use crate::reader::{self, Accepted, Number};
use crate::{case_of, equal, fixed, inputs, writer, Numbers, Run, Subject};
use std::io::Write;
use std::path::Path;
use std::process::{Command, Stdio};

/// Values of each case that the Fortran program reads.
const VALUES: usize = 2_000;

/// So many numbers that it reads must have an exponent without a letter.
const LEAST_WITHOUT_LETTER: usize = 5_000;

/// Each file of a folder is accepted and reads as the numbers typed for it.
pub fn check_files(folder: &Path, alone: bool) {
    let read = |name: &str| match std::fs::read(folder.join(name)) {
        Ok(bytes) => bytes,
        Err(error) => fail(&format!("{name}: {error}")),
    };
    let text = |name: &str| String::from_utf8_lossy(&read(name)).into_owned();
    let mut run = Run::new(alone);
    let typed = text("expected.txt");
    for case in 1..=8 {
        let numbers = typed_numbers(&typed, &case.to_string());
        for name in [format!("case{case}.uff"), format!("case{case}-1p.uff")] {
            take_set(&mut run, (&name, case), &read(&name), &numbers);
        }
    }
    let typed = text("exponents.txt");
    for (name, units) in [("exponents.uff", "164"), ("exponents-1p.uff", "164-1p")] {
        take_exponents(&mut run, name, &read(name), (&typed, units));
    }
    let typed = text("full.txt");
    for (name, earlier) in [("full-old.uff", true), ("full-zero.uff", false)] {
        take_full(&mut run, name, &read(name), (&typed, earlier));
    }
    println!("{} sets from Fortran read as the numbers typed", run.headers);
}

fn fail(what: &str) -> ! {
    println!("{what}");
    std::process::exit(1);
}

/// The numbers typed for a set, each a coefficient, e and a scale.
fn typed_numbers(typed: &str, set: &str) -> Numbers {
    let mut numbers = Numbers { coefficients: Vec::new(), scales: Vec::new() };
    for line in typed.lines().filter(|line| !line.starts_with('#')) {
        let mut words = line.split_whitespace();
        if words.next() != Some(set) {
            continue;
        }
        for word in words {
            let parts = word.split_once('e').map(|(c, s)| (c.parse(), s.parse()));
            let Some((Ok(coefficient), Ok(scale))) = parts else {
                fail(&format!("{word} is not a coefficient, e and a scale"));
            };
            numbers.coefficients.push(coefficient);
            numbers.scales.push(scale);
        }
    }
    numbers
}

/// One 58: accepted, of its case, with the numbers typed; with 1P it is, but for blanks at line ends, what
/// the writer makes of header and numbers.
fn take_set(run: &mut Run, (name, case): (&str, usize), file: &[u8], numbers: &Numbers) {
    let lines = file.split_inclusive(|&b| b == b'\n');
    let header = lines.skip(2).take(11).collect::<Vec<_>>().concat();
    let subject = Subject { name, header: &header, numbers };
    let accepted = accept(&subject, file);
    let Numbers { coefficients, scales } = numbers;
    for (j, (&coefficient, &scale)) in coefficients.iter().zip(scales).enumerate() {
        let number = accepted.number(1, j as u32);
        if !number.is_ok_and(|number| equal(coefficient, scale, &number)) {
            subject.fail("plain reader", &format!("{name} at {j}: {number:?}"));
        }
    }
    // The same header and numbers, written.
    run.take(name, &header, numbers);
    let written = subject.write(usize::MAX);
    let one_p = name.contains("-1p");
    let same = written.as_ref().is_ok_and(|set| !one_p || *set == accepted.rewrite());
    if !same || accepted.list().len() != 1 || case_of(file) != Some(case - 1) {
        subject.fail("plain writer", &format!("{name}: other bytes, or another case"));
    }
    if !run.alone {
        subject.ask_accepted(file, accepted.rewrite());
        for index in 0..coefficients.len() as u32 {
            subject.ask_number(file, &accepted, index);
        }
    }
}

fn accept<'a>(subject: &Subject, file: &'a [u8]) -> Accepted<'a> {
    match reader::accept(file) {
        Ok(accepted) => accepted,
        Err(reply) => subject.fail("plain judge", &format!("{}: {reply:?}", subject.name)),
    }
}

/// A 164 and the eight cases in one file, each with exponents without a letter.
fn take_exponents(run: &mut Run, name: &str, file: &[u8], (typed, units): (&str, &str)) {
    let numbers = typed_numbers(typed, units);
    let subject = Subject { name, header: &[], numbers: &numbers };
    let accepted = accept(&subject, file);
    if !run.alone {
        subject.ask_accepted(file, accepted.rewrite());
    }
    let rows = accepted.list();
    if rows.iter().map(|row| row[1]).ne([164, 58, 58, 58, 58, 58, 58, 58, 58]) {
        subject.fail("plain lister", "other sets");
    }
    check_units(&subject, file);
    for (case, row) in (1..).zip(&rows[1..]) {
        let [_, _, _, first, past, data, ..] = row.map(|place| place as usize);
        let numbers = typed_numbers(typed, &case.to_string());
        let letters = file[data..past].iter().filter(|b| b.is_ascii_alphabetic()).count();
        if letters >= numbers.scales.len() {
            subject.fail("its data", &format!("no exponent of case {case} is without a letter"));
        }
        take_set(run, (name, case), &file[first..past], &numbers);
    }
}

/// Sets whose last line Addendum B's statements filled past the count (request C-13): the counted numbers are read, the
/// seventh number is as typed, and what the arrays still held is what stands in the padding.
fn take_full(run: &mut Run, name: &str, file: &[u8], (typed, earlier): (&str, bool)) {
    let none = Numbers { coefficients: Vec::new(), scales: Vec::new() };
    let subject = Subject { name, header: &[], numbers: &none };
    let accepted = accept(&subject, file);
    let rows = accepted.list();
    let typed: Vec<[usize; 3]> = typed.lines().filter(|line| !line.starts_with('#')).map(full_set).collect();
    if rows.len() != typed.len() {
        subject.fail("plain lister", &format!("{} sets, {} typed", rows.len(), typed.len()));
    }
    if !run.alone {
        subject.ask_accepted(file, accepted.rewrite());
        subject.ask_list(file, &accepted);
    }
    for (row, [case, count, padding]) in rows.iter().zip(typed) {
        let [_, dataset, declared, first, past, _, seventh] = row.map(|place| place as usize);
        if [dataset, declared, seventh] != [58, count, padding] {
            subject.fail("plain lister", &format!("case {case}, count {count}, padding {padding}: {row:?}"));
        }
        let numbers = eighths(count * [1, 2, 2, 3, 1, 2, 2, 3][case - 1]);
        take_set(run, (name, case), &file[first..past], &numbers);
        check_held(&subject, &file[first..past], (case, numbers.scales.len()), earlier);
    }
}

/// Case, count and padding numbers of a set.
fn full_set(line: &str) -> [usize; 3] {
    let words: Vec<usize> = line.split(' ').filter_map(|word| word.parse().ok()).collect();
    words.try_into().unwrap_or_else(|_| fail(&format!("{line} is not a case, a count and a number")))
}

/// So many stored numbers: number k (from 1) is k eighths, negative where k is even.
fn eighths(stored: usize) -> Numbers {
    let coefficients = (1..=stored as i64).map(|k| if k % 2 == 0 { -125 * k } else { 125 * k }).collect();
    Numbers { coefficients, scales: vec![-3; stored] }
}

/// The fields of the last line past so many stored numbers: those of the line before, or -987.5 where there is none; zeros
/// where the arrays were cleared.
fn check_held(subject: &Subject, set: &[u8], (case, stored): (usize, usize), earlier: bool) {
    let widths: &[usize] = match case {
        1..=4 => &[13; 6],
        5 | 7 => &[20; 4],
        6 => &[13, 20, 13, 20],
        _ => &[13, 20, 20],
    };
    let lines: Vec<&[u8]> = set.split(|&b| b == b'\n').collect();
    // The closing delimiter and what stands after its LF come last.
    let last = lines[lines.len() - 3];
    let before = stored.saturating_sub(1) / widths.len() * widths.len();
    let old = eighths(before);
    for field in stored - before..widths.len() {
        let from: usize = widths[..field].iter().sum();
        let (negative, coefficient, scale) = reader::meaning(&last[from..from + widths[field]]);
        let number = Number { first: 0, past: 0, negative, coefficient, scale };
        let (size, scale) = match (earlier, before) {
            (false, _) => (0, 0),
            (true, 0) => (-9_875, -1),
            (true, _) => (old.coefficients[before - widths.len() + field], -3),
        };
        if !equal(size, scale, &number) {
            subject.fail("padding", &format!("case {case}, {stored} stored numbers: {number:?} in field {field}"));
        }
    }
}

/// The factors and the offset of a file's first set, a 164, are the numbers typed.
fn check_units(subject: &Subject, file: &[u8]) {
    let lines: Vec<&[u8]> = file.split(|&b| b == b'\n').collect();
    let fields = [&lines[3][..25], &lines[3][25..50], &lines[3][50..75], &lines[4][..25]];
    let Numbers { coefficients, scales } = subject.numbers;
    let same = |((field, &coefficient), &scale): ((&&[u8], &i64), &i16)| {
        let (negative, size, read_scale) = reader::meaning(field);
        let number = Number { first: 0, past: 0, negative, coefficient: size, scale: read_scale };
        equal(coefficient, scale, &number)
    };
    let all = scales.len() == fields.len();
    if !all || !fields.iter().zip(coefficients).zip(scales).all(same) {
        subject.fail("plain reader", "the 164 has other numbers");
    }
}

/// In each of the eight cases, what the writer lays out of sizes from 10^-300 to 10^300 is read by a
/// Fortran program as the doubles next to the numbers.
pub fn check_read(program: &Path, alone: bool) {
    let mut random = Random::new(0x5EED_0E13_0300_0E20);
    let mut run = Run::new(alone);
    let mut read = 0;
    for (ordinate, spacing) in fixed::CASES {
        let header = fixed::header_of_many(ordinate, spacing, VALUES);
        let Ok(form) = writer::form(&header) else {
            fail("the header of many numbers is refused");
        };
        let numbers = inputs::doubles(&mut random, &form);
        run.take("numbers for Fortran", &header, &numbers);
        let subject = Subject { name: "numbers for Fortran", header: &header, numbers: &numbers };
        let Ok(set) = subject.write(usize::MAX) else {
            subject.fail("plain writer", "a number is refused");
        };
        check_doubles(&subject, &read_by(program, &set));
        read += form.stored;
    }
    println!("{read} numbers, {} without a letter, read by Fortran as doubles", run.without_letter);
    if run.without_letter < LEAST_WITHOUT_LETTER {
        fail(&format!("less than {LEAST_WITHOUT_LETTER} without a letter"));
    }
}

/// What a program prints of a set that it gets on standard input.
fn read_by(program: &Path, set: &[u8]) -> String {
    let answer = || {
        let mut child =
            Command::new(program).stdin(Stdio::piped()).stdout(Stdio::piped()).spawn()?;
        // The program prints only when it has read all numbers. Closed at the end of the statement.
        child.stdin.take().expect("a pipe").write_all(set)?;
        child.wait_with_output()
    };
    match answer() {
        Ok(output) if output.status.success() => String::from_utf8_lossy(&output.stdout).into_owned(),
        Ok(output) => fail(&format!("{}: {}", program.display(), output.status)),
        Err(error) => fail(&format!("{}: {error}", program.display())),
    }
}

/// The bits printed, one number a line, are those of the decimal numbers rounded once.
fn check_doubles(subject: &Subject, printed: &str) {
    let Numbers { coefficients, scales } = subject.numbers;
    let nearest = |(coefficient, scale): (&i64, &i16)| {
        let double: f64 = format!("{coefficient}e{scale}").parse().expect("a decimal number");
        format!("{:016X}", double.to_bits())
    };
    let due: Vec<String> = coefficients.iter().zip(scales).map(nearest).collect();
    let read: Vec<&str> = printed.lines().map(str::trim).collect();
    if read.len() != due.len() {
        subject.fail("Fortran", &format!("{} numbers read of {}", read.len(), due.len()));
    }
    if let Some(j) = (0..due.len()).find(|&j| read[j] != due[j]) {
        subject.fail("Fortran", &format!("at {j}: {} read, {} is next", read[j], due[j]));
    }
}
