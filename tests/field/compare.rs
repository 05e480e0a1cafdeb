//! Holds the proved reader by FORMAT (request C-15, `uff_field`) against the plain one, question by question.
//!
//! `compare` takes the fixed questions, generated FORMAT texts and lines, and the lines of generated files by the FORMATs printed for
//! their records, asks both sides and stops at the first difference (exit 1). `compare --self` asks the plain side alone: against the
//! answers typed by hand, against the fields that generated texts have by their making, and against judge and reader in Rust.
//! `compare --fortran PROGRAM` holds what is shown against gfortran's own formatted READ.

#[path = "../common/mod.rs"]
mod common;
mod field;
mod files;
mod fixed;
mod fortran;
#[allow(dead_code)]
#[path = "../judge/generate.rs"]
mod generate;
#[path = "../judge/judge.rs"]
mod judge;
mod made;
#[allow(dead_code)]
#[path = "../reader/reader.rs"]
mod reader;
mod records;
mod run;

use generate::Random;
use made::{any_line, any_text, line_for, pick, proper};
use run::{Run, ROOMS};
use std::path::Path;

/// Generated texts; each is asked about a few lines.
const TEXTS: usize = 60_000;

/// Each outcome must come at least so often, so that the questions are known to be of use.
const LEAST: [(usize, u32); 11] = [
    (2, 5_000),
    (3, 1_000),
    (10, 5_000),
    (12, 5_000),
    (13, 5_000),
    (18, 20_000),
    (20, 20_000),
    (24, 5_000),
    (25, 5_000),
    (26, 20_000),
    (27, 5_000),
];

/// Texts, integers and reals must each be shown so often.
const LEAST_SHOWN: u32 = 40_000;

/// Both sides answer as was typed, in every room that matters.
fn take_fixed(run: &mut Run) {
    for case in fixed::fixed() {
        run.take_typed(&case);
    }
    let typed = run.questions;
    for wrong in fixed::wrong_programs() {
        if wrong.instead == wrong.case.answer {
            run::fail(
                &wrong.case.name,
                &wrong.case.format,
                &wrong.case.line,
                wrong.case.field,
                &format!("{}: not told apart", wrong.program),
            );
        }
        run.take_typed(&wrong.case);
    }
    println!("{} questions as the papers say, {} of them of wrong programs", run.questions, run.questions - typed);
}

fn take_generated(run: &mut Run) {
    let mut random = Random::new(0x5EED_0F0A_0015_0120);
    for _ in 0..TEXTS {
        let made = proper(&mut random);
        let fields = field::fields(&made.text);
        if fields != made.reading() {
            run::fail("a text by the grammar", &made.text, b"", 0, &format!("made: {:?}\nplain: {fields:?}", made.reading()));
        }
        take_lines(run, &mut random, "a text by the grammar", &made.text);
        let text = any_text(&mut random);
        take_lines(run, &mut random, "any text", &text);
    }
}

/// Asks about lines that suit the text, nearly suit it, or not.
fn take_lines(run: &mut Run, random: &mut Random, name: &str, text: &[u8]) {
    let Ok(fields) = field::fields(text) else {
        let (line, asked) = (any_line(random), random.below(3) as u32);
        return run.take(name, text, &line, asked, pick(random, &ROOMS));
    };
    for one_in in [0, 10, 3] {
        let line = line_for(random, &fields, one_in);
        if one_in == 0 {
            run.take(name, text, &line, fields.len() as u32, pick(random, &ROOMS));
            run.take(name, text, &line, random.next() as u32, pick(random, &ROOMS));
        }
        for _ in 0..2 {
            let past = usize::from(random.one_in(8));
            let asked = random.below(fields.len() + past) as u32;
            run.take(name, text, &line, asked, pick(random, &ROOMS));
        }
    }
    let line = any_line(random);
    run.take(name, text, &line, random.below(4) as u32, pick(random, &ROOMS));
}

fn check_outcomes(run: &Run) {
    println!("shown: {} texts, {} integers, {} reals", run.shown[0], run.shown[1], run.shown[2]);
    for (number, least) in LEAST {
        println!("refused {number:2}: {}", run.came[number]);
        if run.came[number] < least {
            run::end(&format!("refusal {number} came less than {least} times"));
        }
    }
    let others = (0..run.came.len()).filter(|number| LEAST.iter().all(|(due, _)| due != number));
    if others.map(|number| run.came[number]).sum::<u32>() > 0 {
        run::end("a refusal came that C-15 does not give");
    }
    if run.shown.iter().any(|&shown| shown < LEAST_SHOWN) {
        run::end(&format!("a kind was shown less than {LEAST_SHOWN} times"));
    }
}

fn main() {
    let arguments: Vec<String> = std::env::args().skip(1).collect();
    let alone = arguments.iter().any(|argument| argument == "--self");
    if let Some(at) = arguments.iter().position(|argument| argument == "--fortran") {
        let Some(program) = arguments.get(at + 1) else {
            run::end("usage: compare --fortran PROGRAM [--self]");
        };
        return fortran::check(Path::new(program), alone);
    }
    let mut run = Run::new(alone);
    take_fixed(&mut run);
    take_generated(&mut run);
    files::take_files(&mut run);
    check_outcomes(&run);
    println!("{} {} questions", if alone { "the plain side alone:" } else { "compared" }, run.questions);
}
