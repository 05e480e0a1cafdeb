//! The reader of stored numbers.

use crate::common::uff::{self, Row, NUMBER_BYTES};
use crate::fixed::Fixed;
use crate::judge::Reply;
use crate::reader::{self, Accepted, Number};
use crate::run::{Call, Run};
use crate::subject::{is_blank, without_letter, Subject};
use crate::value::real;

impl Run {
    pub fn ask_number(&mut self, subject: &Subject, set: u32, index: u32, lent: usize) {
        let answer = |accepted: &Accepted| {
            let number = accepted.number(set, index)?;
            Ok((NUMBER_BYTES as u32, number.bytes()))
        };
        let due = subject.due(answer, lent, 20);
        self.without_letter[0] += u32::from(due.is_ok() && subject.without_letter(set, index, 1));
        let name = format_args!("uff_number, set {set}, index {index}");
        self.ask(Call::Number, subject, name, (lent, &due), |out| uff::number(subject.file, set, index, out));
    }
}

/// The numbers typed for a fixed file; says how many they are.
pub fn check_fixed(subject: &Subject, fixed: &Fixed) -> usize {
    for (set, index, right) in &fixed.numbers {
        let got = reader::number(subject.file, *set, *index);
        if got != right.map_err(Reply::no_line) {
            let what = format!("papers: {right:?}\nplain:  {got:?}");
            subject.fail(format_args!("number, set {set}, index {index}"), &what);
        }
    }
    fixed.numbers.len()
}

/// Every non-blank byte of a 58's data lines is in just one stored number's field or in the padding that its row
/// counts, and each stored number's field in std's reading is the f64 of the exact path.
pub fn sound(subject: &Subject, set: u32, row: &Row, numbers: &[Number]) {
    let file = subject.file;
    let [_, _, count, _, past, data, padding] = row.map(|place| place as usize);
    let closing = file[..past - 1].iter().rposition(|&b| b == b'\n').map_or(0, |n| n + 1);
    let mut at = data;
    for number in numbers {
        let (first, past) = (number.first as usize, number.past as usize);
        if first < at || past > closing || !is_blank(&file[at..first]) {
            subject.fail("plain number", &format!("{number:?} is not in its columns"));
        }
        at = past;
        let spelled = spelled_with_letter(subject.field(number));
        let right: f64 = spelled.trim().parse().unwrap_or(f64::NAN);
        let real = real(number);
        if real.is_some_and(|real| real.to_bits() != right.to_bits()) {
            subject.fail("plain value", &format!("{real:?} for {spelled:?}"));
        }
    }
    // A padding number has one point, and a point is in no blank field.
    let points = file[at..closing].iter().filter(|&&b| b == b'.').count();
    if points != padding || (padding == 0 && !is_blank(&file[at..closing])) || numbers.len() % count != 0 {
        subject.fail("plain number", &format!("{} numbers in set {set}, {padding} of padding", numbers.len()));
    }
}

/// A real field as std reads it: the letter E before the exponent, which has four bytes where it has no
/// letter.
fn spelled_with_letter(field: &[u8]) -> String {
    let mut text = String::from_utf8_lossy(field).replace(['D', 'd'], "E");
    if without_letter(field) {
        text.insert(text.len() - 4, 'E');
    }
    text
}
