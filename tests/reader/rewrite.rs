//! The rewriter.

use crate::common::uff::{self, Row};
use crate::fixed::Fixed;
use crate::padded::SEVENTH;
use crate::reader::{self, Accepted, Number};
use crate::run::{Call, Run, LONG};
use crate::subject::{numbers_of, Subject};

impl Run {
    pub fn ask_rewrite(&mut self, subject: &Subject, lent: usize) {
        let answer = |accepted: &Accepted| {
            let text = accepted.rewrite();
            Ok((text.len() as u32, text))
        };
        let due = subject.due(answer, lent, 20);
        self.ask(Call::Rewrite, subject, format_args!("uff_rewrite"), (lent, &due), |out| uff::rewrite(subject.file, out));
    }
}

/// The rewritten text typed for a fixed file; says how many answers that is.
pub fn check_fixed(subject: &Subject, fixed: &Fixed) -> usize {
    let text = reader::rewrite(subject.file).map(|text| String::from_utf8_lossy(&text).into_owned());
    if text.as_ref() != Ok(&fixed.rewritten) {
        subject.fail("rewrite", &format!("papers: {:?}\nplain:  {text:?}", fixed.rewritten));
    }
    1
}

/// The rewritten file is accepted, has the same sets and numbers and no padding, is rewritten as itself and is no longer.
pub fn sound(subject: &Subject, rows: &[Row]) {
    let text = subject.accepted().rewrite();
    let untidy = text.contains(&b'\r') || text.windows(2).any(|two| two == b" \n") || text.len() > subject.file.len();
    let again = match reader::accept(&text) {
        Ok(again) if !untidy && again.rewrite() == text => again,
        _ => subject.fail("plain rewrite", &String::from_utf8_lossy(&text)),
    };
    let kept = |row: &Row| (row[1], row[2]);
    if !again.list().iter().map(kept).eq(rows.iter().map(kept)) || again.list().iter().any(|row| row[SEVENTH] > 0) {
        subject.fail("plain rewrite", "the rewritten file has other sets, or padding");
    }
    if subject.file.len() > LONG {
        return;
    }
    let meaning = |n: Number| (n.negative, n.coefficient, n.scale);
    for set in 1..=rows.len() as u32 {
        let before = numbers_of(subject.accepted(), set).into_iter().map(meaning);
        if !before.eq(numbers_of(&again, set).into_iter().map(meaning)) {
            subject.fail("plain rewrite", &format!("set {set} has other numbers"));
        }
    }
}
