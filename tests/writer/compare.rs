//! Holds the proved writer of dataset 58 against the plain one, header by header.
//!
//! `compare` takes the fixed headers, some tens of thousands of generated ones, arbitrary bytes and the
//! longest sets, lends both sides the same numbers and room, and stops at the first difference (exit 1).
//! Every set that is written is judged, read back and rewritten by both sides. `compare --self` asks the plain
//! side alone: against what was typed by hand, and against what must hold of each set it writes.
//! `compare --fortran DIR` takes the files that a Fortran program wrote, `compare --fortran-read PROGRAM` lets a
//! Fortran program read what the writer lays out.

#[path = "../common/mod.rs"]
mod common;
mod fixed;
mod fortran;
#[allow(dead_code)]
#[path = "../judge/generate.rs"]
mod generate;
mod inputs;
#[path = "../judge/judge.rs"]
mod judge;
#[allow(dead_code)]
#[path = "../reader/reader.rs"]
mod reader;
mod writer;

use common::files::{ends, print_lines};
use common::lent::{self, Due};
use common::uff::{self, Word, LONGEST, NUMBER_BYTES, ROW_NUMBERS};
use generate::Random;
use inputs::Numbers;
use judge::Reply;
use reader::{Accepted, Number};
use std::path::Path;

/// Generated headers, half of them proper and half of them faulty or damaged.
const HEADERS: usize = 24_000;

/// Headers and numbers that are nobody's.
const ARBITRARY: usize = 12_000;

/// Sets of more numbers are asked for a few of them only.
const MANY: usize = 1_000;

/// Each outcome must come at least so often, so that the inputs are known to be of use.
const LEAST: [(usize, u32); 17] = [
    (0, 10_000),
    (2, 100),
    (3, 100),
    (4, 100),
    (7, 100),
    (8, 100),
    (9, 100),
    (10, 100),
    (11, 100),
    (12, 100),
    (13, 100),
    (14, 10),
    (19, 1_000),
    (20, 5_000),
    (22, 1_000),
    (24, 100),
    (25, 100),
];

/// Sets of each of the eight cases must be written so often.
const LEAST_OF_A_CASE: u32 = 500;

/// So many numbers must be written with an exponent without a letter.
const LEAST_WITHOUT_LETTER: usize = 100_000;

/// The header and the numbers at hand.
struct Subject<'a> {
    name: &'a str,
    header: &'a [u8],
    numbers: &'a Numbers,
}

impl Subject<'_> {
    /// Prints what went wrong, the call and what was lent, and ends the program.
    fn fail(&self, call: &str, what: &str) -> ! {
        println!("DIFFERENCE on: {} (header of {} bytes)", self.name, self.header.len());
        print_lines(self.header, 20);
        let Numbers { coefficients, scales } = self.numbers;
        println!("{} coefficients, {} scales:", coefficients.len(), scales.len());
        for (j, (coefficient, scale)) in coefficients.iter().zip(scales).take(200).enumerate() {
            println!("{j:5} {coefficient}E{scale}");
        }
        println!("call: {call}");
        println!("{what}");
        std::process::exit(1);
    }

    /// What the plain writer makes of it.
    fn write(&self, room: usize) -> Result<Vec<u8>, Reply> {
        let Numbers { coefficients, scales } = self.numbers;
        writer::write(self.header, coefficients, scales, room)
    }

    /// Lends so many bytes to a proved call and holds its reply and all bytes against what is due.
    fn hold(&self, name: &str, room: usize, due: Due<u8>, call: impl FnOnce(&mut [u8]) -> Word) {
        if let Err(what) = lent::hold(room, &due, call) {
            self.fail(&format!("{name}, {room} bytes lent"), &what);
        }
    }

    /// The proved judge and rewriter on an accepted file, and what the rewriter must give.
    fn ask_accepted(&self, file: &[u8], rewritten: Vec<u8>) {
        self.hold("uff_judge", 0, Ok((ends(file) as u32, Vec::new())), |_| uff::judge(file));
        let length = rewritten.len();
        self.hold("uff_rewrite", length, Ok((length as u32, rewritten)), |out| uff::rewrite(file, out));
    }

    /// The proved lister on an accepted file.
    fn ask_list(&self, file: &[u8], accepted: &Accepted) {
        let due: Due<u32> = Ok((accepted.list().len() as u32, accepted.list().concat()));
        let places = accepted.list().len() * ROW_NUMBERS;
        if let Err(what) = lent::hold(places, &due, |rows| uff::list(file, rows)) {
            self.fail(&format!("uff_list, {places} places lent"), &what);
        }
    }

    /// The proved reader on a stored number of a file's first set.
    fn ask_number(&self, file: &[u8], accepted: &Accepted, index: u32) {
        if let Ok(number) = accepted.number(1, index) {
            let due = Ok((NUMBER_BYTES as u32, number.bytes()));
            self.hold(&format!("uff_number, index {index}"), NUMBER_BYTES, due, |out| uff::number(file, 1, index, out));
        }
    }
}

struct Run {
    /// Ask the plain side only.
    alone: bool,
    random: Random,
    headers: u32,
    written: u32,
    /// How often each refusal came (0 for none).
    came: [u32; 26],
    cases: [u32; 8],
    /// Numbers written with an exponent without a letter.
    without_letter: usize,
}

impl Run {
    fn new(alone: bool) -> Run {
        let random = Random::new(0x5EED_0B1E_0019_0022);
        Run { alone, random, headers: 0, written: 0, came: [0; 26], cases: [0; 8], without_letter: 0 }
    }

    /// Lends so many bytes to both writers.
    fn ask(&mut self, subject: &Subject, room: usize) {
        let due = subject.write(room);
        self.came[due.as_ref().map_or_else(|reply| reply.number as usize, |_| 0)] += 1;
        if self.alone {
            return;
        }
        let due = due.map(|set| (set.len() as u32, set));
        let Numbers { coefficients, scales } = subject.numbers;
        subject.hold("uff_write", room, due, |out| uff::write(subject.header, coefficients, scales, out));
    }

    /// Takes one header with its numbers, in exact, larger and too little room.
    fn take(&mut self, name: &str, header: &[u8], numbers: &Numbers) {
        self.headers += 1;
        let subject = Subject { name, header, numbers };
        match subject.write(usize::MAX) {
            Ok(set) => {
                self.written += 1;
                self.ask(&subject, set.len());
                self.ask(&subject, set.len() - 1);
                if numbers.scales.len() < MANY {
                    let more = self.random.below(40);
                    self.ask(&subject, set.len() + 1 + more);
                    let less = self.random.below(2) * self.random.below(set.len());
                    self.ask(&subject, less);
                }
                let accepted = sound(&subject, &set);
                self.cases[case_of(&set).expect("an accepted set")] += 1;
                // The writer's only letter is E.
                let data = accepted.list()[0][5] as usize;
                let letters = set[data..].iter().filter(|&&b| b == b'E').count();
                self.without_letter += numbers.scales.len() - letters;
                if !self.alone {
                    self.ask_written(&subject, &set, &accepted);
                }
            }
            Err(reply) => {
                sound_refusal(&subject, reply);
                let room = self.random.below(3) * self.random.below(4_000);
                self.ask(&subject, room);
            }
        }
    }

    /// The proved judge, reader and rewriter on a set that was written.
    fn ask_written(&mut self, subject: &Subject, set: &[u8], accepted: &Accepted) {
        subject.ask_accepted(set, set.to_vec());
        let stored = subject.numbers.scales.len();
        let some = [0, stored - 1, self.random.below(stored), self.random.below(stored)];
        for index in some {
            subject.ask_number(set, accepted, index as u32);
        }
    }
}

// What must hold of the plain writer's replies -------------------------------------------------

/// A written set is accepted, is the only set, is rewritten as itself, has the header's lines and
/// reads as the numbers lent, each in the writer's form.
fn sound<'a>(subject: &Subject, set: &'a [u8]) -> Accepted<'a> {
    let reply = judge::judge(set);
    if reply != Reply::accepted(ends(set) as u32) {
        subject.fail("plain judge", &format!("{reply:?} for\n{}", String::from_utf8_lossy(set)));
    }
    let Ok(accepted) = reader::accept(set) else {
        subject.fail("plain reader", "not accepted");
    };
    let rows = accepted.list();
    if rows.len() != 1 || rows[0][1] != 58 || accepted.rewrite() != set {
        subject.fail("plain rewriter", &String::from_utf8_lossy(set));
    }
    // The header as it was lent, with the written data lines, is rewritten as the written set.
    let data = rows[0][5] as usize;
    let lent = [b"    -1\n    58\n", subject.header, &set[data..]].concat();
    if reader::rewrite(&lent).as_deref() != Ok(set) {
        subject.fail("plain writer", "the header's lines are not kept");
    }
    let Numbers { coefficients, scales } = subject.numbers;
    for (j, (&coefficient, &scale)) in coefficients.iter().zip(scales).enumerate() {
        let read = accepted.number(1, j as u32);
        let good = read.is_ok_and(|number| {
            let field = &set[number.first as usize..number.past as usize];
            equal(coefficient, scale, &number) && in_form(field, coefficient)
        });
        if !good {
            subject.fail("plain reader", &format!("{coefficient}E{scale} at {j} reads {read:?}"));
        }
    }
    if accepted.number(1, coefficients.len() as u32).is_ok() {
        subject.fail("plain reader", "more numbers than were lent");
    }
    accepted
}

/// Are they the same decimal number? A zero has no sign.
fn equal(coefficient: i64, scale: i16, number: &Number) -> bool {
    let plain = |mut size: u64, scale: i16| {
        let mut scale = i32::from(scale);
        while size > 0 && size % 10 == 0 {
            size /= 10;
            scale += 1;
        }
        (size, if size == 0 { 0 } else { scale })
    };
    let lent = plain(coefficient.unsigned_abs(), scale);
    let sign = coefficient == 0 || (coefficient < 0) == number.negative;
    sign && lent == plain(number.coefficient, number.scale)
}

/// Is the field blanks, a minus if negative, one digit (0 only for zero), the point, five or twelve
/// digits, and an exponent of four columns?
fn in_form(field: &[u8], coefficient: i64) -> bool {
    let decimals = if field.len() == 13 { 5 } else { 12 };
    let (before, after) = field.split_at(field.len() - decimals - 6);
    let (digits, exponent) = after.split_at(decimals + 2);
    let minus = if coefficient < 0 { b'-' } else { b' ' };
    before == [b' ', minus]
        && digits[0].is_ascii_digit()
        && (digits[0] == b'0') == (coefficient == 0)
        && digits[1] == b'.'
        && digits[2..].iter().all(u8::is_ascii_digit)
        && exponent_in_form(exponent)
        && (coefficient != 0 || exponent == b"E+00")
}

/// Is it E, a sign and two digits, or a sign and three digits of which the first is not 0?
fn exponent_in_form(exponent: &[u8]) -> bool {
    match exponent {
        [b'E', b'+' | b'-', digits @ ..] => digits.iter().all(u8::is_ascii_digit),
        [b'+' | b'-', b'1'..=b'9', digits @ ..] => digits.iter().all(u8::is_ascii_digit),
        _ => false,
    }
}

/// 22 and 19 are given for a reason, and 20 is not given when there is all the room.
fn sound_refusal(subject: &Subject, reply: Reply) {
    let Numbers { coefficients, scales } = subject.numbers;
    let good = match (writer::form(subject.header), reply.number) {
        (Err(header), _) => header == reply,
        (Ok(form), 22) => coefficients.len() != form.stored || scales.len() != form.stored,
        (Ok(form), 19) => {
            let fits = |j: usize| {
                let decimals = form.fields[j % form.fields.len()].decimals;
                fits(coefficients[j], scales[j], decimals)
            };
            let first = (0..form.stored).find(|&j| !fits(j));
            first == Some(reply.place as usize)
        }
        _ => false,
    };
    if !good {
        subject.fail("plain writer", &format!("{reply:?} for no reason"));
    }
}

/// Is the number zero, or some m times a power of ten, m of just one digit more than the decimals
/// and the exponent of its first digit from -999 to 999?
fn fits(coefficient: i64, scale: i16, decimals: usize) -> bool {
    let (mut m, mut power) = (i128::from(coefficient).abs(), i32::from(scale));
    let most = 10i128.pow(decimals as u32 + 1);
    while m > 0 && m < most / 10 {
        m *= 10;
        power -= 1;
    }
    while m >= most && m % 10 == 0 {
        m /= 10;
        power += 1;
    }
    m == 0 || (m < most && (-999..=999).contains(&(power + decimals as i32)))
}

/// Which of the eight cases a set is, from 0, by the last columns of ordinate type and spacing.
fn case_of(set: &[u8]) -> Option<usize> {
    const CASES: [[u8; 2]; 8] = [*b"21", *b"20", *b"51", *b"50", *b"41", *b"40", *b"61", *b"60"];
    let line = set.split(|&b| b == b'\n').nth(8)?;
    CASES.iter().position(|case| [line[9], line[29]] == *case)
}

// The headers and numbers ------------------------------------------------------------------------

/// Holds the plain writer against what was typed by hand; says how many answers there are.
fn check_fixed() -> usize {
    let mut answers = 0;
    let mut check = |name: &str, lent: (&[u8], &[i64], &[i16], usize), due: Result<&[u8], Reply>| {
        answers += 1;
        let (header, coefficients, scales, room) = lent;
        let got = writer::write(header, coefficients, scales, room);
        if got.as_deref().map_err(|&reply| reply) != due {
            let text = |set: Result<&[u8], Reply>| match set {
                Ok(set) => String::from_utf8_lossy(set).into_owned(),
                Err(reply) => format!("{reply:?}"),
            };
            println!("DIFFERENCE on: {name}\npapers:\n{}", text(due));
            println!("plain:\n{}", text(got.as_deref().map_err(|&reply| reply)));
            std::process::exit(1);
        }
    };
    for fixed in fixed::fixed() {
        let lent = (&*fixed.header, &*fixed.coefficients, &*fixed.scales, fixed.room);
        check(fixed.name, lent, fixed.due.as_ref().map(|set| set.as_bytes()).map_err(|&r| r));
    }
    for (coefficient, scale, decimals, field) in fixed::fields() {
        let header = fixed::header_of_one(decimals);
        let parts = |field: &str| {
            [b"    -1\n    58\n", &*header, field.as_bytes(), b"\n    -1\n"].concat()
        };
        let set = field.as_deref().map(parts);
        let due = set.as_deref().ok_or(writer::not_exact(0));
        let name = format!("{coefficient}E{scale}, {decimals} decimals");
        check(&name, (&header, &[coefficient], &[scale], 10_000), due);
    }
    answers
}

/// The fixed headers and fields, for both sides.
fn take_fixed(run: &mut Run) {
    for fixed::Fixed { name, header, coefficients, scales, .. } in fixed::fixed() {
        run.take(name, &header, &Numbers { coefficients, scales });
    }
    for (coefficient, scale, decimals, _) in fixed::fields() {
        let numbers = Numbers { coefficients: vec![coefficient], scales: vec![scale] };
        run.take("one number", &fixed::header_of_one(decimals), &numbers);
    }
}

fn take_generated(run: &mut Run) {
    let mut random = Random::new(0x5EED_0058_0E13_0E20);
    for n in 0..HEADERS {
        let (name, header) = match n % 4 {
            0 | 2 => ("proper header", inputs::proper(&mut random)),
            1 => ("faulty header", inputs::faulty(&mut random)),
            _ if n % 64 == 3 => ("header with a blank real", inputs::blanked(&mut random)),
            _ => ("damaged header", inputs::damaged(&mut random)),
        };
        let mut numbers = match writer::form(&header) {
            Ok(form) => {
                let mut numbers = inputs::writable(&mut random, &form);
                if random.one_in(4) {
                    inputs::spoil(&mut random, &mut numbers, &form);
                }
                numbers
            }
            Err(_) => {
                let stored = 1 + random.below(20);
                inputs::any(&mut random, stored)
            }
        };
        if random.one_in(6) {
            inputs::misfit(&mut random, &mut numbers);
        }
        run.take(name, &header, &numbers);
    }
}

/// Arbitrary bytes as headers, alone and in place of lines of a proper one, and arbitrary numbers.
fn take_arbitrary(run: &mut Run) {
    let mut random = Random::new(0x5EED_0A4B_0058_0007);
    for n in 0..ARBITRARY {
        let (name, header) = match n % 3 {
            0 => ("proper header, arbitrary numbers", inputs::proper(&mut random)),
            1 => ("header with arbitrary lines", inputs::arbitrary_lines(&mut random)),
            _ => ("arbitrary bytes", generate::arbitrary(&mut random)),
        };
        let stored = writer::form(&header).map_or_else(|_| random.below(20), |form| form.stored);
        let numbers = inputs::arbitrary(&mut random, stored);
        run.take(name, &header, &numbers);
    }
}

/// The largest count in each of the eight cases, and once more with the last number spoiled.
fn take_longest(run: &mut Run) {
    let mut random = Random::new(0x5EED_0058_6553_6000);
    for (ordinate, spacing) in fixed::CASES {
        let header = fixed::header_of_many(ordinate, spacing, 65_536);
        let Ok(form) = writer::form(&header) else {
            println!("the header of the largest count is refused");
            std::process::exit(1);
        };
        let mut numbers = inputs::writable(&mut random, &form);
        run.take("largest count", &header, &numbers);
        if form.stored == 3 * 65_536 {
            numbers.coefficients[form.stored - 1] = i64::MIN;
            run.take("largest count, its last number wrong", &header, &numbers);
        }
    }
}

/// Zero of every scale, in E13.5 and in E20.12.
fn take_zeros(run: &mut Run) {
    let scales: Vec<i16> = (i16::MIN..=i16::MAX).collect();
    let numbers = Numbers { coefficients: vec![0; scales.len()], scales };
    for ordinate in [2, 4] {
        run.take("zero of every scale", &fixed::header_of_many(ordinate, 1, 65_536), &numbers);
    }
}

/// Headers longer than a file may be: 1 is not given.
fn take_long_headers(run: &mut Run) {
    const LONG: usize = LONGEST + 84;
    let numbers = Numbers { coefficients: vec![1], scales: vec![0] };
    let good = fixed::header_of_one(5);
    let text = vec![b'x'; LONG];
    let blank_lines = vec![b'\n'; LONG];
    let due = [
        (text.clone(), Reply::refused(3, 1, 1)),
        ([&*text, b"\t\n"].concat(), Reply::refused(2, 1, 16_777_301)),
        (blank_lines.clone(), Reply::refused(9, 1, 1)),
        ([&*good, &text].concat(), Reply::refused(3, 12, 1)),
        ([&*good, &text, b"\x7f"].concat(), Reply::refused(2, 12, 16_777_301)),
        ([good, blank_lines].concat(), Reply::refused(8, 12, 1)),
    ];
    for (header, reply) in due {
        let got = writer::form(&header);
        if got != Err(reply) {
            println!("a header of {} bytes: plain {got:?}", header.len());
            std::process::exit(1);
        }
        run.take("header longer than a file", &header, &numbers);
    }
}

/// A bad byte in a column that the reply has no room for: "a column over 33,554,431 is given as
/// 33,554,431". A word that kept the lowest 25 bits, or let the column run into the number, differs.
fn take_far_columns(run: &mut Run) {
    let numbers = Numbers { coefficients: vec![1], scales: vec![0] };
    for (column, given) in [
        (33_554_430, 33_554_430),
        (33_554_431, 33_554_431),
        (33_554_432, 33_554_431),
        (33_554_433, 33_554_431),
        (40_000_000, 33_554_431),
    ] {
        let header = [&*vec![b'x'; column - 1], b"\x7f\x7f\n"].concat();
        let word = writer::form(&header).map_err(Word::from);
        if word != Err(Word::from(Reply::refused(2, 1, given))) {
            println!("a bad byte in column {column} of a header: plain {word:?}");
            std::process::exit(1);
        }
        run.take("a header with a bad byte far out", &header, &numbers);
    }
}

/// Prints how often each outcome came and ends the program if one came too seldom.
fn check_outcomes(run: &Run) {
    println!("refusal    calls");
    for (number, came) in run.came.iter().enumerate().filter(|(_, &came)| came > 0) {
        println!("{number:7} {came:8}");
    }
    println!("sets of the eight cases: {:?}", run.cases);
    println!("numbers written without a letter: {}", run.without_letter);
    let mut seldom = run.without_letter < LEAST_WITHOUT_LETTER;
    seldom |= run.cases.iter().any(|&came| came < LEAST_OF_A_CASE);
    seldom |= LEAST.iter().any(|&(number, least)| run.came[number] < least);
    if seldom {
        println!("some outcome came too seldom");
        std::process::exit(1);
    }
}

/// The argument after this one, if this one is given.
fn path_after<'a>(arguments: &'a [String], name: &str) -> Option<&'a Path> {
    let at = arguments.iter().position(|argument| argument == name)?;
    let Some(path) = arguments.get(at + 1) else {
        eprintln!("{name} needs a path");
        std::process::exit(2);
    };
    Some(Path::new(path))
}

fn main() {
    let arguments: Vec<String> = std::env::args().skip(1).collect();
    let alone = arguments.iter().any(|argument| argument == "--self");
    if let Some(folder) = path_after(&arguments, "--fortran") {
        fortran::check_files(folder, alone);
        return;
    }
    if let Some(program) = path_after(&arguments, "--fortran-read") {
        fortran::check_read(program, alone);
        return;
    }
    println!("{} answers as the papers say", check_fixed());
    let mut run = Run::new(alone);
    take_fixed(&mut run);
    take_generated(&mut run);
    take_arbitrary(&mut run);
    take_longest(&mut run);
    take_zeros(&mut run);
    take_long_headers(&mut run);
    take_far_columns(&mut run);
    check_outcomes(&run);
    let done = if alone { "the plain side alone:" } else { "compared" };
    println!("{done} {} headers, {} written", run.headers, run.written);
}
