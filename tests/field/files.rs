//! Each record's printed FORMAT over the lines of generated files: against the judge and the reader in Rust, and
//! against the proved side.

use crate::field::{self, Shown};
use crate::generate::{self, Random};
use crate::judge::{judge, Reply};
use crate::made::pick;
use crate::reader;
use crate::records::{self, Line};
use crate::run::{self, Run, ROOMS};
use std::collections::BTreeMap;

/// Generated files: proper, faulty and damaged ones in turn.
const FILES: usize = 9_000;

/// So many lines must be passed by the judge, refused by it as by the question, and refused by it with 4, 9, 11 or 14.
const LEAST: [u32; 3] = [100_000, 1_000, 200];

/// So many numbers of data lines must be the reader's, and each text must be that of so many lines.
const LEAST_NUMBERS: u32 = 10_000;
const LEAST_OF_A_TEXT: u32 = 20;

#[derive(Default)]
struct Ties {
    of_text: BTreeMap<String, u32>,
    passed: u32,
    refused: u32,
    not_looked_at: u32,
    numbers: u32,
}

pub fn take_files(run: &mut Run) {
    let mut random = Random::new(0x5EED_0F0A_0058_0082);
    let mut ties = Ties::default();
    let texts = records::printed();
    for n in 0..FILES {
        let file = file(&mut random, n);
        take_file(run, &mut random, &mut ties, &file);
        // Any line by any record's text.
        for line in file.split(|&b| b == b'\n').take(12) {
            let text = pick(&mut random, &texts);
            run.take("a printed text", text.as_bytes(), line, random.below(12) as u32, pick(&mut random, &ROOMS));
        }
    }
    check(&ties, &texts);
}

/// Ends the program if the files had too little of something. Records 20 to 23 of 1815 are left out.
fn check(ties: &Ties, texts: &[&str]) {
    let few = |text: &&&str| ties.of_text.get(**text).is_none_or(|&lines| lines < LEAST_OF_A_TEXT) && **text != "6I12";
    if let Some(text) = texts.iter().chain(&records::CUT).find(few) {
        run::end(&format!("{text} was that of less than {LEAST_OF_A_TEXT} lines"));
    }
    let Ties { passed, refused, not_looked_at, numbers, of_text } = ties;
    println!("lines by {} printed FORMATs: {passed} passed by the judge and shown, {refused} refused alike,", of_text.len());
    println!("{not_looked_at} refused by the judge with 4, 9, 11 or 14; {numbers} numbers of data lines as the reader's");
    if [passed, refused, not_looked_at].iter().zip(LEAST).any(|(came, least)| **came < least) || *numbers < LEAST_NUMBERS {
        run::end(&format!("less than {LEAST:?} or {LEAST_NUMBERS}"));
    }
}

fn file(random: &mut Random, n: usize) -> Vec<u8> {
    match n % 3 {
        0 => generate::proper(random).file,
        1 => generate::faulty(random, [30, 60, 120][n / 3 % 3]),
        _ => {
            let mut file = generate::proper(random).file;
            generate::damage(random, &mut file);
            file
        }
    }
}

/// The lines up to the first bad one by their records' FORMATs, tied to the judge: what it passes is shown, what it
/// refuses for its bytes or fields has the same number and column. 9 and 14 come last, so all fields are shown there too.
fn take_file(run: &mut Run, random: &mut Random, ties: &mut Ties, file: &[u8]) {
    let reply = judge(file);
    let last = if reply.number == 0 { usize::MAX } else { reply.place as usize };
    let accepted = reader::accept(file).ok();
    for (n, line) in (1..).zip(records::lines(file, last)) {
        for format in &line.formats {
            let name = format!("line {n} of a file");
            let answer = field::ask(format.as_bytes(), line.line, 0).map(|_| ());
            let due = if n < last { Ok(()) } else { refusal_of(reply) };
            match (n < last, due) {
                (true, _) => ties.passed += 1,
                (_, Err(Some(_))) => ties.refused += 1,
                _ => ties.not_looked_at += 1,
            }
            let tied = match due {
                Ok(()) => answer == Ok(()),
                Err(Some(reply)) => answer == Err(reply),
                Err(None) => true,
            };
            if !tied {
                run::fail(&name, format.as_bytes(), line.line, 0, &format!("judge: {reply:?}\nplain: {answer:?}"));
            }
            *ties.of_text.entry(format.clone()).or_default() += 1;
            ask_all(run, random, &name, format, &line);
            if let Some(accepted) = &accepted {
                ties.numbers += same_numbers(accepted, &line, format);
            }
        }
    }
}

/// What the question has to answer on the judge's bad line: all is shown, the same refusal, or anything (11, which stands
/// between the fields, 4, and what is of no field).
fn refusal_of(reply: Reply) -> Result<(), Option<Reply>> {
    match reply.number {
        9 | 14 => Ok(()),
        2 | 3 | 10 | 12 | 13 | 24 | 25 => Err(Some(Reply { place: 1, ..reply })),
        _ => Err(None),
    }
}

/// Some fields of a line, the brackets around the text on and off.
fn ask_all(run: &mut Run, random: &mut Random, name: &str, format: &str, line: &Line) {
    let fields = field::fields(format.as_bytes()).map_or(0, |fields| fields.len());
    let bracketed = format!("({format})");
    for _ in 0..2 {
        let text = if random.one_in(2) { format } else { &bracketed };
        let asked = random.below(fields + 1) as u32;
        run.take(name, text.as_bytes(), line.line, asked, pick(random, &ROOMS));
    }
}

/// Each stored number of a data line is shown as the reader shows it, with bytes counted in the line; says how many there are.
fn same_numbers(accepted: &reader::Accepted, line: &Line, format: &str) -> u32 {
    let Some((set, index)) = line.stored else {
        return 0;
    };
    let mut same = 0;
    while let (Ok(stored), Ok(Shown::Real(shown))) =
        (accepted.number(set, index + same), field::ask(format.as_bytes(), line.line, same))
    {
        let means = |number: &reader::Number| (number.negative, number.coefficient, number.scale, number.past - number.first);
        if means(&stored) != means(&shown) {
            run::fail("a data line", format.as_bytes(), line.line, same, &format!("reader: {stored:?}\nplain: {shown:?}"));
        }
        same += 1;
    }
    same
}
