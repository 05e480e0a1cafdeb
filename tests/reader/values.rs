//! The reader of all values of a set.

use crate::common::lent::{hold, Due};
use crate::common::uff;
use crate::fixed::Fixed;
use crate::judge::Reply;
use crate::reader::{self, Accepted, Number};
use crate::run::{Call, Function, Run};
use crate::subject::{bits, Subject};
use crate::value::{real, BYTES};

/// Sets of more numbers are not asked value by value, but those of the fixed files.
const FEW: usize = 12;

impl Run {
    pub fn ask_values(&mut self, subject: &Subject, set: u32, places: usize) {
        let answer = |accepted: &Accepted| {
            let values = accepted.values(set)?;
            Ok((values.len() as u32, bits(&values)))
        };
        let due = subject.due(answer, places, 20);
        let name = format_args!("uff_values, set {set}");
        self.ask(Call::Values, subject, name, (places, &due), |out| values(subject, set, out));
    }

    /// All values of a 58 in exact room, more, one place too few and none; value by value too where
    /// they are few.
    pub fn function_at_once(&mut self, subject: &Subject, function: Function, every: bool) {
        let enough = function.numbers as usize;
        let more = enough + 1 + self.random.below(30);
        for places in [enough, more, enough - 1, 0] {
            self.ask_values(subject, function.set, places);
        }
        if !self.alone && (every || enough <= FEW) {
            self.one_by_one(subject, function);
        }
    }

    /// Holds all values of a 58 against its values one by one, both of the proved side: the same bits,
    /// or 21 where one of them is 21.
    fn one_by_one(&mut self, subject: &Subject, function: Function) {
        let Function { set, count, numbers } = function;
        let mut each = Vec::new();
        let mut refused = false;
        for index in 0..count {
            let mut out = vec![0; BYTES * function.width()];
            refused |= uff::value(subject.file, set, index, &mut out).number() == 21;
            let parts = out.chunks_exact(BYTES).map(|part| part.try_into().expect("eight bytes"));
            each.extend(parts.map(u64::from_le_bytes));
        }
        self.at_once[usize::from(refused)] += 1;
        let due: Due<u64> = if refused { Err(Reply::no_line(21)) } else { Ok((numbers, each)) };
        if let Err(what) = hold(numbers as usize, &due, |out| values(subject, set, out)) {
            subject.fail(format_args!("uff_values, set {set}, due as uff_value gives it"), &what);
        }
    }
}

/// The proved call, its places seen as bits.
fn values(subject: &Subject, set: u32, out: &mut [u64]) -> uff::Word {
    uff::values(subject.file, set, uff::doubles(out))
}

/// All values typed for sets of a fixed file; says how many sets.
pub fn check_fixed(subject: &Subject, fixed: &Fixed) -> usize {
    for (set, right) in &fixed.all_values {
        let got = reader::values(subject.file, *set);
        let right_bits = right.as_deref().map(bits).map_err(|&number| Reply::no_line(number));
        if got.as_deref().map(bits).map_err(|&reply| reply) != right_bits {
            let what = format!("papers: {right:?}\nplain:  {got:?}");
            subject.fail(format_args!("all values, set {set}"), &what);
        }
    }
    fixed.all_values.len()
}

/// All values at once are those of the fields.
pub fn sound(subject: &Subject, set: u32, numbers: &[Number]) {
    let due = numbers.iter().map(real).collect::<Option<Vec<_>>>().ok_or(Reply::no_line(21));
    let got = subject.accepted().values(set);
    if got.as_deref().map(bits) != due.as_deref().map(bits) {
        subject.fail("plain values", &format!("set {set}: {got:?}, of its fields {due:?}"));
    }
}
