//! The lister.

use crate::common::files::ends;
use crate::common::uff::{self, Row};
use crate::fixed::Fixed;
use crate::reader::{self, Accepted};
use crate::run::{Call, Run};
use crate::subject::{is_blank, Subject};

impl Run {
    pub fn ask_list(&mut self, subject: &Subject, places: usize) {
        let answer = |accepted: &Accepted| {
            let rows = accepted.list();
            Ok((rows.len() as u32, rows.concat()))
        };
        let due = subject.due(answer, places, 17);
        self.ask(Call::List, subject, format_args!("uff_list"), (places, &due), |rows| uff::list(subject.file, rows));
    }
}

/// The rows typed for a fixed file; says how many answers that is.
pub fn check_fixed(subject: &Subject, fixed: &Fixed) -> usize {
    let rows = reader::list(subject.file);
    if rows.as_ref() != Ok(&fixed.rows) {
        subject.fail("list", &format!("papers: {:?}\nplain:  {rows:?}", fixed.rows));
    }
    1
}

/// Each row is where its lines are, between delimiters, and outside the sets all is blank.
pub fn sound(subject: &Subject, rows: &[Row]) {
    let file = subject.file;
    let mut at = 0;
    let mut lines = 1;
    for row in rows {
        let [opening, _, _, first, past, ..] = row.map(|place| place as usize);
        lines += ends(&file[at..first]);
        let outside = is_blank(&file[at..first]);
        let delimited = file[first..].starts_with(b"    -1") && file[..past].ends_with(b"\n");
        if !outside || !delimited || lines != opening {
            subject.fail("plain list", &format!("row {row:?} is not where its lines are"));
        }
        lines += ends(&file[first..past]);
        at = past;
    }
    if !is_blank(&file[at..]) {
        subject.fail("plain list", "something stands after the last set");
    }
}
