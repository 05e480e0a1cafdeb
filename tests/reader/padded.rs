//! Request C-13: files with padding, against the padding numbers typed for them and the same files without it.
//!
//! Tells apart: padding counted as a value, kept by the rewriter, or taking the last counted number with it; a seventh
//! number that is one off, counts values or is given for a line that is full by its count; six places a set.

use crate::common::uff::ROW_NUMBERS;
use crate::edges::padding::{self, Padded};
use crate::reader::Accepted;
use crate::run::Run;
use crate::subject::{bits, numbers_of, Subject};

/// Which of a row's numbers counts the padding.
pub const SEVENTH: usize = 6;

/// Every file with padding that is accepted, on the plain side; says how many there are.
pub fn check_padded() -> usize {
    let files = padding::files().into_iter().filter(|padded| padded.reply.number == 0);
    files.map(|padded| check(&padded)).count()
}

/// Two files that differ in padding alone: each row's seventh is as typed, and 0 without; rewritten they are the same
/// bytes, with no padding; numbers and values are the same.
fn check(padded: &Padded) {
    let subject = Subject::new(&padded.name, &padded.file);
    let bare = Subject::new(&padded.name, &padded.bare);
    let (with, without) = (subject.accepted(), bare.accepted());
    let sevenths = |accepted: &Accepted| accepted.list().iter().map(|row| row[SEVENTH]).collect::<Vec<_>>();
    if sevenths(with) != padded.sevenths || sevenths(without).iter().any(|&seventh| seventh > 0) {
        subject.fail("plain list", &format!("padding: papers {:?}, plain {:?}", padded.sevenths, sevenths(with)));
    }
    if with.rewrite() != without.rewrite() {
        subject.fail("plain rewrite", "with padding and without it are rewritten as other bytes");
    }
    let shown = |row: &[u32; ROW_NUMBERS]| (row[0], row[1], row[2]);
    if !with.list().iter().map(shown).eq(without.list().iter().map(shown)) {
        subject.fail("plain list", "with padding and without it are listed as other sets");
    }
    // Of the sets of a file with very many the last is enough.
    for set in [1, padded.sevenths.len() as u32] {
        let meaning = |accepted| numbers_of(accepted, set).into_iter().map(|n| (n.negative, n.coefficient, n.scale)).collect::<Vec<_>>();
        let values = |accepted: &Accepted| accepted.values(set).map(|values| bits(&values));
        if meaning(with) != meaning(without) || values(with) != values(without) {
            subject.fail("plain number", &format!("set {set} has other numbers with padding and without it"));
        }
    }
}

/// 4,096 sets with padding in room for seven numbers a set, for one fewer, and for six a set.
pub fn take_most_sets(run: &mut Run) {
    let padded = padding::most_sets();
    let subject = Subject::new(&padded.name, &padded.file);
    let sets = padded.sevenths.len();
    for places in [ROW_NUMBERS * sets, ROW_NUMBERS * sets - 1, 6 * sets, ROW_NUMBERS * sets + 1] {
        run.ask_list(&subject, places);
    }
    let enough = subject.accepted().rewrite().len();
    for room in [enough, enough - 1, padded.file.len()] {
        run.ask_rewrite(&subject, room);
    }
}
