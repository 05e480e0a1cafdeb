//! The questions about a file, and how they were answered.

use crate::common::files::ends;
use crate::common::lent::{hold, Due, Place};
use crate::common::uff::{Row, Word, NUMBER_BYTES, ROW_NUMBERS, VALUE_BYTES};
use crate::fixed::Fixed;
use crate::generate::Random;
use crate::judge::Reply;
use crate::padded::SEVENTH;
use crate::subject::{numbers_of, Subject};
use crate::value::BYTES;
use crate::{list, number, rewrite, values};
use std::fmt::Arguments;

/// Longer files are asked a few questions only.
pub const LONG: usize = 60_000;

/// The calls that are asked.
#[derive(Clone, Copy)]
pub enum Call {
    List,
    Number,
    Value,
    Values,
    Rewrite,
}

/// Outcomes of one call: how often each refusal came (0 for none), and how often it was compared.
#[derive(Default)]
pub struct Tally {
    pub came: [u32; 26],
    pub compared: u32,
}

/// A 58: its set, its declared count and its stored numbers.
#[derive(Clone, Copy)]
pub struct Function {
    pub set: u32,
    pub count: u32,
    pub numbers: u32,
}

impl Function {
    /// Numbers in a value.
    pub fn width(self) -> usize {
        (self.numbers / self.count) as usize
    }
}

pub struct Run {
    /// Ask the plain side only.
    pub alone: bool,
    pub random: Random,
    pub files: u32,
    /// Usual files, damaged ones too.
    pub usual: u32,
    tallies: [Tally; 5],
    pub kinds: [u32; 5],
    /// Numbers and values with an exponent without a letter.
    pub without_letter: [u32; 2],
    /// Sets with padding.
    pub padded: usize,
    /// Sets whose values at once and one by one were held against each other: accepted, 21.
    pub at_once: [u32; 2],
    /// Sets that were asked alone, and how many of their numbers and values were shown.
    pub sets_alone: [u32; 2],
}

impl Run {
    pub fn new(alone: bool) -> Run {
        Run {
            alone,
            random: Random::new(0x5EED_0A5C_0018_0020),
            files: 0,
            usual: 0,
            tallies: Default::default(),
            kinds: [0; 5],
            without_letter: [0; 2],
            padded: 0,
            at_once: [0; 2],
            sets_alone: [0; 2],
        }
    }

    pub fn tally(&self, call: Call) -> &Tally {
        &self.tallies[call as usize]
    }

    /// Counts what a call must give and holds what the proved one gives against it, in so many lent places.
    pub fn ask<T: Place>(
        &mut self,
        call: Call,
        subject: &Subject,
        name: Arguments,
        (lent, due): (usize, &Due<T>),
        ask: impl FnOnce(&mut [T]) -> Word,
    ) {
        let tally = &mut self.tallies[call as usize];
        tally.came[due.as_ref().map_or_else(|reply| reply.number as usize, |_| 0)] += 1;
        if self.alone {
            return;
        }
        tally.compared += 1;
        if let Err(what) = hold(lent, due, ask) {
            subject.fail(format_args!("{name}, {lent} places lent"), &what);
        }
    }

    /// Takes one file. `expected` is the judge's reply, if the papers give it; `every` asks for
    /// every number and value.
    pub fn take(&mut self, name: &str, file: &[u8], expected: Option<Reply>, every: bool) {
        self.files += 1;
        let subject = Subject::new(name, file);
        match (expected, &subject.opened) {
            (Some(Reply { number: 0, .. }), Ok(_)) | (None, _) => {}
            (Some(expected), Err(reply)) if expected == *reply => {}
            (Some(expected), opened) => {
                let plain = opened.as_ref().err();
                subject.fail("judge", &format!("papers: {expected:?}\nplain:  {plain:?}"));
            }
        }
        if subject.opened.is_ok() {
            sound(&subject);
            self.take_accepted(&subject, every);
        } else {
            self.take_refused(&subject);
        }
    }

    /// Takes a fixed file: every number and value, and the questions whose answers are typed.
    pub fn take_fixed(&mut self, fixed: &Fixed) {
        let file = fixed.file.as_bytes();
        let good = Reply::accepted(ends(file) as u32);
        self.take(fixed.name, file, Some(good), true);
        let subject = Subject::new(fixed.name, file);
        for (set, index, _) in &fixed.numbers {
            self.ask_number(&subject, *set, *index, NUMBER_BYTES);
        }
        for (set, index, _) in &fixed.values {
            self.ask_value(&subject, *set, *index, VALUE_BYTES);
        }
        for (set, _) in &fixed.all_values {
            self.ask_values(&subject, *set, 60);
        }
    }

    /// Every call gives the judge's refusal, whatever is asked and lent.
    pub fn take_refused(&mut self, subject: &Subject) {
        let set = self.random.below(4) as u32;
        let index = self.random.below(4) as u32;
        let lent = self.random.below(60);
        self.ask_list(subject, lent);
        self.ask_number(subject, set, index, lent);
        self.ask_value(subject, set, index, lent);
        let places = self.random.below(3) * lent;
        self.ask_values(subject, set, places);
        let lent = self.random.below(2) * subject.file.len().min(LONG);
        self.ask_rewrite(subject, lent);
    }

    fn take_accepted(&mut self, subject: &Subject, every: bool) {
        let rows = subject.accepted().list();
        self.padded += rows.iter().filter(|row| row[SEVENTH] > 0).count();
        let long = subject.file.len() > LONG;
        self.take_places(subject, ROW_NUMBERS * rows.len(), long, Run::ask_list);
        self.take_places(subject, subject.accepted().rewrite().len(), long, Run::ask_rewrite);

        let last = rows.len() as u32;
        self.no_such(subject, 0, 0);
        self.no_such(subject, last + 1, 0);
        for set in [0, last + 1, u32::MAX] {
            let places = self.random.below(2) * self.random.below(40);
            self.ask_values(subject, set, places);
        }
        if long {
            self.long_function(subject, &rows);
            return;
        }
        if self.random.one_in(4) {
            let wild = self.random.next() as u32;
            self.no_such(subject, wild.max(last + 1), wild);
        }
        if let Some(at) = rows.iter().position(|row| row[1] != 58) {
            self.no_such(subject, at as u32 + 1, 0);
        }
        for (set, row) in (1..).zip(&rows) {
            self.take_set(subject, set, row, every);
        }
        if !self.alone && rows.len() > 1 {
            self.take_alone(subject);
        }
    }

    /// Lends exactly enough places, more, and too few.
    fn take_places(
        &mut self,
        subject: &Subject,
        enough: usize,
        long: bool,
        ask: fn(&mut Run, &Subject, usize),
    ) {
        ask(self, subject, enough);
        if long {
            return;
        }
        let more = enough + 1 + self.random.below(30);
        ask(self, subject, more);
        ask(self, subject, enough - 1);
        if self.random.one_in(4) {
            let few = self.random.below(2) * self.random.below(enough);
            ask(self, subject, few);
        }
    }

    /// A number or a value that is not there is 18, whatever is lent.
    fn no_such(&mut self, subject: &Subject, set: u32, index: u32) {
        let lent = self.random.below(30);
        if self.random.one_in(2) {
            self.ask_number(subject, set, index, lent);
        } else {
            self.ask_value(subject, set, index, lent);
        }
    }

    /// A set of a file that is not long: a 58, or another one, which has no values.
    fn take_set(&mut self, subject: &Subject, set: u32, row: &Row, every: bool) {
        if let Some(function) = function_of(subject, set, row) {
            self.function(subject, function, every);
            self.function_at_once(subject, function, every);
        } else {
            let places = self.random.below(40);
            self.ask_values(subject, set, places);
        }
    }

    /// Number and value at an index, with room that suits: exact, more or, now and then, less.
    fn ask_both(&mut self, subject: &Subject, function: Function, number: u32, value: u32) {
        let lent = |random: &mut Random, enough: usize| match random.below(8) {
            0..=3 => enough,
            4 | 5 => enough + 1 + random.below(20),
            6 => enough - 1,
            _ => random.below(enough),
        };
        let room = lent(&mut self.random, NUMBER_BYTES);
        self.ask_number(subject, function.set, number, room);
        let room = lent(&mut self.random, BYTES * function.width());
        self.ask_value(subject, function.set, value, room);
    }

    /// A 58: first, last, one past the last and others.
    fn function(&mut self, subject: &Subject, function: Function, every: bool) {
        let Function { set, count, numbers } = function;
        self.ask_both(subject, function, 0, 0);
        self.ask_both(subject, function, numbers - 1, count - 1);
        self.ask_both(subject, function, numbers, count);
        for _ in 0..3 {
            let number = self.random.below(numbers as usize) as u32;
            let value = self.random.below(count as usize) as u32;
            self.ask_both(subject, function, number, value);
        }
        // Far past the last, where a product with 2 or 3 would wrap.
        let far = [u32::MAX, 0x8000_0000, 0x5555_5556, 0x1_0000, numbers + 1][self.random.below(5)];
        self.no_such(subject, set, far.max(numbers));
        if every {
            for number in 0..numbers {
                self.ask_number(subject, set, number, NUMBER_BYTES);
                self.ask_value(subject, set, number, BYTES * function.width());
            }
        }
    }

    /// A few questions about the last set of a long file.
    fn long_function(&mut self, subject: &Subject, rows: &[Row]) {
        let last = rows.last().and_then(|row| function_of(subject, rows.len() as u32, row));
        if let Some(function) = last {
            let Function { set, count, numbers } = function;
            self.ask_number(subject, set, numbers - 1, NUMBER_BYTES);
            self.ask_value(subject, set, count - 1, BYTES * function.width());
            self.ask_number(subject, set, numbers, NUMBER_BYTES);
            self.ask_value(subject, set, count, BYTES * function.width());
            self.ask_values(subject, set, numbers as usize);
            self.ask_values(subject, set, numbers as usize - 1);
        }
    }
}

/// A set of an accepted file and its row, if it is a 58.
fn function_of(subject: &Subject, set: u32, row: &Row) -> Option<Function> {
    let [_, dataset, count, ..] = *row;
    let numbers = numbers_of(subject.accepted(), set).len() as u32;
    (dataset == 58).then_some(Function { set, count, numbers })
}

/// What must hold of the plain side's answers on every accepted file.
pub fn sound(subject: &Subject) {
    let rows = subject.accepted().list();
    list::sound(subject, &rows);
    for (set, row) in (1..).zip(&rows).filter(|(_, row)| row[5] > 0) {
        let numbers = numbers_of(subject.accepted(), set);
        number::sound(subject, set, row, &numbers);
        values::sound(subject, set, &numbers);
    }
    rewrite::sound(subject, &rows);
}
