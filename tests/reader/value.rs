//! The reader of values.

use crate::common::uff;
use crate::fixed::{self, Fixed};
use crate::judge::Reply;
use crate::reader::{self, Accepted, Number};
use crate::run::{Call, Run};
use crate::subject::{bits, Subject};

/// The bytes of an f64.
pub const BYTES: usize = 8;

impl Run {
    pub fn ask_value(&mut self, subject: &Subject, set: u32, index: u32, lent: usize) {
        let answer = |accepted: &Accepted| {
            let (kind, shown) = accepted.value(set, index)?;
            Ok((kind, shown.iter().flat_map(|y| y.to_le_bytes()).collect()))
        };
        let due = subject.due(answer, lent, 20);
        if let Ok((kind, put)) = &due {
            self.kinds[*kind as usize] += 1;
            let k = (put.len() / BYTES) as u32;
            self.without_letter[1] += u32::from(subject.without_letter(set, index * k, k));
        }
        let name = format_args!("uff_value, set {set}, index {index}");
        self.ask(Call::Value, subject, name, (lent, &due), |out| uff::value(subject.file, set, index, out));
    }
}

/// The f64 of a stored number; none outside the exact path.
pub fn real(number: &Number) -> Option<f64> {
    reader::real(number.negative, number.coefficient, number.scale)
}

/// What was typed of the exact path; says how many answers there are.
pub fn check_exact() -> usize {
    let exact = fixed::exact();
    for &((negative, coefficient, scale), right) in &exact {
        let got = reader::real(negative, coefficient, scale);
        if got.map(f64::to_bits) != right.map(f64::to_bits) {
            println!("{negative} {coefficient} {scale}: papers {right:?}, plain {got:?}");
            std::process::exit(1);
        }
    }
    exact.len()
}

/// The values typed for a fixed file; says how many they are.
pub fn check_fixed(subject: &Subject, fixed: &Fixed) -> usize {
    let kind_and_bits = |(kind, shown): &(u32, Vec<f64>)| (*kind, bits(shown));
    for (set, index, right) in &fixed.values {
        let got = reader::value(subject.file, *set, *index);
        let right_bits = right.as_ref().map(kind_and_bits).map_err(|&number| Reply::no_line(number));
        if got.as_ref().map(kind_and_bits).map_err(|&reply| reply) != right_bits {
            let what = format!("papers: {right:?}\nplain:  {got:?}");
            subject.fail(format_args!("value, set {set}, index {index}"), &what);
        }
    }
    fixed.values.len()
}
