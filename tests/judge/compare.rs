//! Holds the proved judge against the plain one, file by file.
//!
//! `compare` takes every edge file, a few hundred thousand generated files and arbitrary strings of
//! bytes, asks both judges and stops at the first disagreement (exit 1). `compare --self` asks the
//! plain judge alone and checks it against the replies typed by hand. `compare --million` takes usual files
//! alone, damaged with every byte value, and `compare --million N` one in N of them.

#[path = "../common/mod.rs"]
mod common;
mod edges;
mod generate;
mod judge;
mod usual;

use common::files::print_lines;
use common::uff::{self, Word, SETS};
use generate::Random;
use judge::Reply;
use std::fmt::Arguments;
use usual::Share;

/// Generated files, half of them proper and half of them faulty or damaged.
const FILES: usize = 240_000;

/// Strings of bytes that are a file by chance only.
const ARBITRARY: usize = 60_000;

/// Lines of any length, with bad bytes and CRs in any column.
const LONG_LINES: usize = 60_000;

/// Files around the limit of 4,096 sets.
const FILES_OF_MANY_SETS: usize = 48;

/// Each refusal must come at least so often among the generated files. 1 and 16 are left to the
/// edge files: 1 needs 16 MB.
const LEAST: [(usize, u32); 17] = [
    (0, 120_000),
    (2, 1_000),
    (3, 1_000),
    (4, 1_000),
    (5, 1_000),
    (6, 1_000),
    (7, 1_000),
    (8, 1_000),
    (9, 1_000),
    (10, 1_000),
    (11, 1_000),
    (12, 1_000),
    (13, 1_000),
    (14, 1_000),
    (15, 12),
    (24, 1_000),
    (25, 1_000),
];

/// So many reals of the proper files must have an exponent without a letter.
const LEAST_WITHOUT_LETTER: u32 = 400_000;

/// So many sets of the proper files must have padding.
const LEAST_PADDED: u32 = 10_000;

/// So many usual files, most of them damaged, must be among those of the gate.
const LEAST_USUAL: u32 = 50_000;

/// The proved judge's whole reply. An empty file is lent as null and otherwise, in turn.
fn proved(file: &[u8]) -> Word {
    if file.is_empty() {
        assert_eq!(uff::judge(file), uff::judge(file), "an empty file lent as null and otherwise");
    }
    uff::judge(file)
}

struct Run {
    /// Ask the plain judge only.
    alone: bool,
    files: u32,
    bytes: usize,
    /// How often each refusal came.
    came: [u32; 26],
    /// Exponents without a letter in the proper files.
    without_letter: u32,
    /// Sets with padding in the proper files.
    padded: u32,
    /// Usual files, damaged ones too.
    usual: u32,
}

impl Run {
    fn new(alone: bool) -> Run {
        Run { alone, files: 0, bytes: 0, came: [0; 26], without_letter: 0, padded: 0, usual: 0 }
    }

    /// Takes one file; a wrong reply ends the program. `expected` is what the papers give, if known.
    fn take(&mut self, name: &str, file: &[u8], expected: Option<Reply>) {
        let plain = judge::judge(file);
        self.files += 1;
        self.bytes += file.len();
        self.came[plain.number as usize] += 1;
        if let Some(expected) = expected {
            if plain != expected {
                fail(name, file, &[("papers", expected.into()), ("plain", plain.into())]);
            }
        }
        if self.alone {
            return;
        }
        let word = proved(file);
        if word != Word::from(plain) {
            fail(name, file, &[("proved", word), ("plain", plain.into())]);
        }
    }

    /// Takes usual files and damaged ones; what is damaged is told only where the replies differ.
    fn take_usual(&mut self, share: &mut Share) {
        usual::files(share, &mut |name: Arguments, file: &[u8], _: usize| {
            let plain = judge::judge(file);
            self.usual += 1;
            self.files += 1;
            self.bytes += file.len();
            self.came[plain.number as usize] += 1;
            if !self.alone && proved(file) != Word::from(plain) {
                fail(&name.to_string(), file, &[("proved", proved(file)), ("plain", plain.into())]);
            }
        });
    }
}

/// Prints the file and the replies and ends the program.
fn fail(name: &str, file: &[u8], replies: &[(&str, Word)]) -> ! {
    println!("DISAGREEMENT on: {name} ({} bytes)", file.len());
    print_lines(file, 400);
    for (who, reply) in replies {
        println!("{who:>8}: {reply:?}");
    }
    std::process::exit(1);
}

/// Generated files, proper, faulty and damaged, arbitrary bytes, lines of any length and files of many sets.
fn take_generated(run: &mut Run) {
    let mut random = Random::new(0x5EED_0F58_0082_0151);
    for n in 0..FILES {
        match n % 4 {
            // A proper writing must be accepted, at its last line.
            0 | 2 => {
                let made = generate::proper(&mut random);
                let expected = Reply::accepted(made.lines);
                run.without_letter += made.without_letter;
                run.padded += made.padded;
                run.take("proper file", &made.file, Some(expected));
            }
            // Wrong fields, lines and counts, now and then damaged on top.
            1 => {
                let one_in = [30, 60, 120][n / 4 % 3];
                let mut file = generate::faulty(&mut random, one_in);
                if random.one_in(8) {
                    generate::damage(&mut random, &mut file);
                }
                run.take("faulty file", &file, None);
            }
            // A proper file damaged once, twice or three times.
            _ => {
                let mut file = generate::proper(&mut random).file;
                generate::damage(&mut random, &mut file);
                while random.one_in(3) {
                    generate::damage(&mut random, &mut file);
                }
                run.take("damaged file", &file, None);
            }
        }
    }
    for _ in 0..ARBITRARY {
        run.take("arbitrary bytes", &generate::arbitrary(&mut random), None);
    }
    for _ in 0..LONG_LINES {
        run.take("a line of any length", &generate::long_line(&mut random), None);
    }
    take_many_sets(run, &mut random);
}

fn take_many_sets(run: &mut Run, random: &mut Random) {
    for n in 0..FILES_OF_MANY_SETS {
        let sets = SETS - 1 + n % 4;
        let mut made = generate::many_sets(random, sets);
        let expected = (sets <= SETS).then_some(Reply::accepted(made.lines));
        run.take("many sets", &made.file, expected);
        if n % 8 >= 4 {
            generate::damage(random, &mut made.file);
            run.take("many sets, damaged", &made.file, None);
        }
    }
}

/// Ends the program if the generated files had too little of something.
fn check_outcomes(run: &Run) {
    for (number, least) in LEAST {
        if run.came[number] < least {
            println!("refusal {number} came {} times, less than {least}", run.came[number]);
            std::process::exit(1);
        }
    }
    println!("{} exponents without a letter, {} sets with padding in proper files", run.without_letter, run.padded);
    if run.without_letter < LEAST_WITHOUT_LETTER || run.padded < LEAST_PADDED {
        println!("less than {LEAST_WITHOUT_LETTER} or {LEAST_PADDED}");
        std::process::exit(1);
    }
}

/// Prints how often each refusal came.
fn print_came(run: &Run) {
    for (number, came) in run.came.iter().enumerate().filter(|(_, &came)| came > 0) {
        println!("{number:7}  {came:10}");
    }
}

/// Usual files alone, damaged with every byte value in every column.
fn million(share: &mut Share) {
    let mut run = Run::new(false);
    run.take_usual(share);
    print_came(&run);
    println!("{} million bytes", run.bytes / 1_000_000);
    println!("compared {} usual files", run.usual);
}

fn main() {
    if let Some(mut share) = Share::by_hand() {
        return million(&mut share);
    }
    let alone = std::env::args().any(|argument| argument == "--self");
    let mut run = Run::new(alone);
    for edge in edges::edges() {
        run.take(&edge.name, &edge.file, Some(edge.reply));
    }
    let edge_files = run.files;
    let edge_came = run.came;
    run.came = [0; 26];
    take_generated(&mut run);

    println!("refusal  edge files  generated files");
    for number in (0..17).chain(24..26) {
        println!("{number:7}  {:10}  {:15}", edge_came[number], run.came[number]);
    }
    check_outcomes(&run);
    if alone {
        println!("the plain judge alone, {edge_files} edge files as the papers say");
    } else {
        run.take_usual(&mut Share::of_gate(20, true));
        println!("{} usual files, damaged ones too", run.usual);
        assert!(run.usual >= LEAST_USUAL, "too few usual files");
        println!("{} million bytes, of them {edge_files} edge files", run.bytes / 1_000_000);
    }
    println!("compared {} files", run.files);
}
