//! Lines that both sides and gfortran take, read by gfortran's own formatted READ. What gfortran takes beyond (blanks as
//! zeros among it) is not asked.

use crate::field::{self, Field, Kind, Shown};
use crate::generate::{self, Random};
use crate::judge::judge;
use crate::made::{line_for, proper};
use crate::records;
use crate::run::{self, Run};
use std::io::Write;
use std::path::Path;
use std::process::{Command, Stdio};

/// Generated texts, each with a line, and generated files.
const TEXTS: usize = 20_000;
const FILES: usize = 200;

/// An integer of more digits has no kind in gfortran.
const MOST_DIGITS: usize = 38;

/// So many integers, reals and texts must be read.
const LEAST: usize = 20_000;

/// A text, a line, its fields and how many items Fortran has in each.
struct Question {
    text: Vec<u8>,
    line: Vec<u8>,
    fields: Vec<Field>,
    items: Vec<usize>,
}

/// Holds every field that is shown against what the program reads there.
pub fn check(program: &Path, alone: bool) {
    let mut random = Random::new(0x5EED_0F0A_F077_2018);
    let mut run = Run::new(alone);
    let mut questions = generated(&mut random);
    questions.extend(of_files(&mut random));
    let read = read_by(program, &questions);
    let mut printed = read.lines();
    let mut came = [0; 3];
    for question in &questions {
        let Question { text, line, fields, .. } = question;
        for (n, field) in (0..).zip(fields) {
            run.take("for Fortran", text, line, n, 20);
            came[field.kind as usize] += 1;
            if let Err(what) = same(question, n, &mut printed) {
                run::fail("Fortran", text, line, n, &what);
            }
        }
    }
    let left = printed.count();
    println!("{} lines read by Fortran: {} texts, {} integers, {} reals as shown", questions.len(), came[0], came[1], came[2]);
    if left > 0 || came.iter().any(|&read| read < LEAST) {
        run::end(&format!("{left} items too many were read, or less than {LEAST} of a kind"));
    }
}

impl Question {
    /// Whether every field is shown, and gfortran has a kind for each integer.
    fn is_taken(&self) -> bool {
        let long = |field: &Field| field.kind == Kind::Integer && columns(&self.line, field).trim().len() > MOST_DIGITS;
        field::ask(&self.text, &self.line, 0).is_ok() && !self.fields.iter().any(long)
    }
}

/// Texts by the grammar that are read, each with a line.
fn generated(random: &mut Random) -> Vec<Question> {
    let mut questions = Vec::new();
    while questions.len() < TEXTS {
        let made = proper(random);
        if made.reading().is_ok() {
            let line = line_for(random, &made.fields, 0);
            let question = Question { text: made.text, line, fields: made.fields, items: made.items };
            questions.extend(question.is_taken().then_some(question));
        }
    }
    questions
}

/// The lines of proper files by the FORMATs printed for them, in which every A has the width 1 or 2.
fn of_files(random: &mut Random) -> Vec<Question> {
    let mut questions = Vec::new();
    for _ in 0..FILES {
        let file = generate::proper(random).file;
        assert_eq!(judge(&file).number, 0, "a proper file");
        for line in records::lines(&file, usize::MAX) {
            for text in line.formats {
                let fields = field::fields(text.as_bytes()).expect("a printed FORMAT");
                let width = if text.contains("A2") { 2 } else { 1 };
                let items = |field: &Field| if field.kind == Kind::Text { (field.past - field.first) / width } else { 1 };
                let items = fields.iter().map(items).collect();
                let question = Question { text: text.into_bytes(), line: line.line.to_vec(), fields, items };
                questions.extend(question.is_taken().then_some(question));
            }
        }
    }
    questions
}

/// A field's columns in the line filled with blanks.
fn columns(line: &[u8], field: &Field) -> String {
    let filled = format!("{:80}", String::from_utf8_lossy(line));
    filled[field.first..field.past].to_string()
}

/// How many integers, reals and texts follow each other, round by round.
fn rounds(question: &Question) -> Vec<[usize; 3]> {
    let mut rounds = vec![[0; 3]];
    let mut before = 0;
    for (field, items) in question.fields.iter().zip(&question.items) {
        let place = match field.kind {
            Kind::Integer => 0,
            Kind::Real => 1,
            Kind::Text => 2,
        };
        if place < before {
            rounds.push([0; 3]);
        }
        before = place;
        rounds.last_mut().expect("a round")[place] += items;
    }
    rounds
}

/// What the program prints of the questions.
fn read_by(program: &Path, questions: &[Question]) -> String {
    let mut input = Vec::new();
    for question in questions {
        let rounds = rounds(question);
        let counts: Vec<String> = rounds.iter().flatten().map(usize::to_string).collect();
        input.extend_from_slice(&[b"(".as_slice(), &question.text, b")\n"].concat());
        input.extend_from_slice(format!("{}\n{}\n", rounds.len(), counts.join(" ")).as_bytes());
        input.extend_from_slice(&[question.line.as_slice(), b"\n"].concat());
    }
    let answer = || {
        let mut child = Command::new(program).stdin(Stdio::piped()).stdout(Stdio::piped()).spawn()?;
        let mut pipe = child.stdin.take().expect("a pipe");
        // The program prints while it reads.
        let writer = std::thread::spawn(move || pipe.write_all(&input));
        let output = child.wait_with_output();
        writer.join().expect("a thread")?;
        output
    };
    match answer() {
        Ok(output) if output.status.success() => String::from_utf8_lossy(&output.stdout).into_owned(),
        Ok(output) => run::end(&format!("{}: {}", program.display(), output.status)),
        Err(error) => run::end(&format!("{}: {error}", program.display())),
    }
}

/// Takes a field's items from what the program printed. An integer has the value of its columns, a real is the double next
/// to what is shown, a text's items are its columns, each without the blanks at its end.
fn same<'a>(question: &Question, n: u32, printed: &mut impl Iterator<Item = &'a str>) -> Result<(), String> {
    let (field, items) = (&question.fields[n as usize], question.items[n as usize]);
    let columns = columns(&question.line, field);
    let due: Vec<String> = match field::ask(&question.text, &question.line, n) {
        Ok(Shown::Text(..)) => {
            let width = columns.len() / items;
            (0..items).map(|k| columns[k * width..(k + 1) * width].trim_end().to_string()).collect()
        }
        Ok(Shown::Integer(..)) => vec![columns.trim().parse::<i128>().map_err(|error| error.to_string())?.to_string()],
        Ok(Shown::Real(number)) => {
            let sign = if number.negative { "-" } else { "" };
            let double: f64 = format!("{sign}{}e{}", number.coefficient, number.scale).parse().expect("a decimal number");
            vec![format!("{:016X}", double.to_bits())]
        }
        Err(reply) => return Err(format!("plain: {reply:?}")),
    };
    let read: Vec<&str> = printed.take(items).collect();
    if read == due {
        Ok(())
    } else {
        Err(format!("shown:   {due:?}\nFortran: {read:?}"))
    }
}
