//! The file at hand, and what each call must give for it.

use crate::common::files::print_lines;
use crate::common::lent::Due;
use crate::judge::Reply;
use crate::reader::{self, Accepted, Number};
use std::fmt::Display;

pub struct Subject<'a> {
    pub name: &'a str,
    pub file: &'a [u8],
    /// What the plain side makes of the file.
    pub opened: Result<Accepted<'a>, Reply>,
}

impl<'a> Subject<'a> {
    pub fn new(name: &'a str, file: &'a [u8]) -> Subject<'a> {
        Subject { name, file, opened: reader::accept(file) }
    }

    /// Prints what went wrong, the call and the file, and ends the program.
    pub fn fail(&self, call: impl Display, what: &str) -> ! {
        println!("DIFFERENCE on: {} ({} bytes)", self.name, self.file.len());
        print_lines(self.file, 400);
        println!("call: {call}");
        println!("{what}");
        std::process::exit(1);
    }

    /// Its accepted file.
    pub fn accepted(&self) -> &Accepted<'a> {
        self.opened.as_ref().expect("an accepted file")
    }

    /// What a call must give where the lent places are enough, and what it gives otherwise.
    pub fn due<T>(
        &self,
        answer: impl FnOnce(&Accepted) -> Due<T>,
        places: usize,
        too_few: u32,
    ) -> Due<T> {
        let (answer, put) = match &self.opened {
            Ok(accepted) => answer(accepted)?,
            Err(reply) => return Err(*reply),
        };
        if put.len() > places {
            return Err(Reply::no_line(too_few));
        }
        Ok((answer, put))
    }

    /// Has one of so many numbers from an index on, all of which are there, no letter?
    pub fn without_letter(&self, set: u32, index: u32, numbers: u32) -> bool {
        let mut there = (index..index + numbers).map_while(|j| self.accepted().number(set, j).ok());
        there.any(|number| without_letter(self.field(&number)))
    }

    /// The bytes of a stored number's columns.
    pub fn field(&self, number: &Number) -> &'a [u8] {
        &self.file[number.first as usize..number.past as usize]
    }
}

pub fn without_letter(field: &[u8]) -> bool {
    !field.iter().any(u8::is_ascii_alphabetic)
}

/// All stored numbers of a set; none if it is no 58.
pub fn numbers_of(accepted: &Accepted, set: u32) -> Vec<Number> {
    (0..).map_while(|index| accepted.number(set, index).ok()).collect()
}

pub fn bits(values: &[f64]) -> Vec<u64> {
    values.iter().map(|y| y.to_bits()).collect()
}

pub fn is_blank(bytes: &[u8]) -> bool {
    bytes.iter().all(|b| b" \r\n".contains(b))
}
