//! A set alone: its bytes, from its row's fourth number to its fifth, asked as a file of one set and held
//! against the whole file, both of the proved side; and what it takes to read a file of the most sets so.

use crate::common::files::{ends, function};
use crate::common::lent::{Lent, Place};
use crate::common::uff::{self, Row, Word, NUMBER_BYTES, ROW_NUMBERS, SETS, VALUE_BYTES};
use crate::run::Run;
use crate::subject::{bits, numbers_of, Subject};

/// A reply, and the lent places afterwards.
type Answer<T> = (Word, Vec<T>);

fn ask<T: Place>(places: usize, call: impl FnOnce(&mut [T]) -> Word) -> Answer<T> {
    let mut lent = Lent::new(places);
    let word = call(lent.places());
    (word, lent.places().to_vec())
}

/// A set in the whole file, and its own bytes.
struct Alone<'a> {
    subject: &'a Subject<'a>,
    set: u32,
    row: Row,
    bytes: &'a [u8],
}

impl<'a> Alone<'a> {
    fn new(subject: &'a Subject<'a>, set: u32, row: Row) -> Alone<'a> {
        Alone { subject, set, row, bytes: own_bytes(subject.file, &row) }
    }

    fn hold<T: Place>(&self, call: &str, whole: &Answer<T>, alone: &Answer<T>) {
        if whole != alone {
            let what = format!("whole: {whole:?}\nalone: {alone:?}");
            self.subject.fail(format_args!("{call}, set {} alone", self.set), &what);
        }
    }

    /// It is accepted at its last line; its row is the file's, counted from its opening line and first byte.
    fn same_row(&self) {
        let [_, number, count, first, past, data, padding] = self.row;
        let judged = (Word::accepted(ends(self.bytes) as u32), Vec::<u32>::new());
        self.hold("uff_judge", &judged, &(uff::judge(self.bytes), Vec::new()));
        let row = vec![1, number, count, 0, past - first, data.saturating_sub(first), padding];
        self.hold("uff_list", &(Word::accepted(1), row), &ask(ROW_NUMBERS, |rows| uff::list(self.bytes, rows)));
    }

    /// Every number and value, two past the last and the last index there is; says how many are shown.
    fn same_answers(&self) -> u32 {
        let [count, numbers] = [self.row[2], numbers_of(self.subject.accepted(), self.set).len() as u32];
        let mut shown = 0;
        for index in (0..numbers + 2).chain([u32::MAX]) {
            let whole = ask(NUMBER_BYTES, |out| uff::number(self.subject.file, self.set, index, out));
            let mut alone = ask(NUMBER_BYTES, |out| uff::number(self.bytes, 1, index, out));
            if alone.0.number() == 0 {
                behind(self.row[3], &mut alone.1);
                shown += 1;
            }
            self.hold(&format!("uff_number, index {index}"), &whole, &alone);
        }
        for index in (0..count + 2).chain([u32::MAX]) {
            let whole = ask(VALUE_BYTES, |out| uff::value(self.subject.file, self.set, index, out));
            let alone = ask(VALUE_BYTES, |out| uff::value(self.bytes, 1, index, out));
            shown += u32::from(alone.0.number() == 0);
            self.hold(&format!("uff_value, index {index}"), &whole, &alone);
        }
        let places = numbers as usize;
        let whole = ask(places, |out| uff::values(self.subject.file, self.set, uff::doubles(out)));
        self.hold("uff_values", &whole, &ask(places, |out| uff::values(self.bytes, 1, uff::doubles(out))));
        shown
    }
}

/// The bytes of a set, by its row.
fn own_bytes<'a>(file: &'a [u8], row: &Row) -> &'a [u8] {
    &file[row[3] as usize..row[4] as usize]
}

/// Counts first and past byte of a stored number from so many bytes earlier.
fn behind(bytes: u32, number: &mut [u8]) {
    for place in number[..8].chunks_exact_mut(4) {
        let counted = u32::from_le_bytes(place.try_into().expect("four bytes")) + bytes;
        place.copy_from_slice(&counted.to_le_bytes());
    }
}

/// The rows of an accepted file of so many sets, by the proved lister.
fn listed(file: &[u8], sets: usize) -> Vec<Row> {
    let (word, rows) = ask(ROW_NUMBERS * sets, |rows| uff::list(file, rows));
    assert_eq!(word, Word::accepted(sets as u32), "the rows of a file that is accepted");
    rows.chunks_exact(ROW_NUMBERS).map(|row| row.try_into().expect("a row")).collect()
}

/// A file rewritten.
fn rewritten(file: &[u8]) -> Vec<u8> {
    let (word, mut text) = ask(file.len(), |out| uff::rewrite(file, out));
    assert_eq!(word.number(), 0, "a file that is accepted, in room of its own length");
    text.truncate(word.place() as usize);
    text
}

impl Run {
    /// Every set of an accepted file alone, against the whole file.
    pub fn take_alone(&mut self, subject: &Subject) {
        let rows = listed(subject.file, subject.accepted().list().len());
        let mut texts = Vec::new();
        for (set, row) in (1..).zip(&rows) {
            let alone = Alone::new(subject, set, *row);
            alone.same_row();
            self.sets_alone[0] += 1;
            self.sets_alone[1] += alone.same_answers();
            texts.extend(rewritten(alone.bytes));
        }
        if texts != rewritten(subject.file) {
            subject.fail("uff_rewrite", "the sets alone, one after the other, are rewritten otherwise than the file");
        }
    }
}

/// What a host lends to read a file: how often, and how many bytes in all.
#[derive(Default)]
struct Lending {
    calls: usize,
    bytes: usize,
}

impl Lending {
    fn lend<'a>(&mut self, file: &'a [u8]) -> &'a [u8] {
        self.calls += 1;
        self.bytes += file.len();
        file
    }
}

/// A 58 with other numbers than that for another n, and up to two blank lines.
fn nth_function(n: usize) -> String {
    let values = n % 5 + 1;
    let text = String::from_utf8(function(n % 8 + 1, values, values)).expect("plain text");
    text.replace("1.00000", &format!("1.{n:05}")) + &"\n".repeat(n % 3)
}

/// Reads a file of the most sets as the header says, all values of each set from its own bytes, and holds
/// them against the plain side's, which has the whole file. One call a set and one for the rows is all that
/// it takes, and no more than twice the file's bytes are lent.
pub fn check_one_pass() {
    let file = (0..SETS).map(nth_function).collect::<String>().into_bytes();
    let subject = Subject::new("the most sets, each a 58", &file);
    let mut host = Lending::default();
    for (set, row) in (1..).zip(listed(host.lend(&file), SETS)) {
        let due = bits(&subject.accepted().values(set).expect("the values of a 58"));
        let whole = (Word::accepted(due.len() as u32), due);
        let own = host.lend(own_bytes(&file, &row));
        let alone = ask(whole.1.len(), |out| uff::values(own, 1, uff::doubles(out)));
        Alone::new(&subject, set, row).hold("uff_values", &whole, &alone);
    }
    println!("{SETS} sets alone: {} calls, {} bytes lent, of a file of {}", host.calls, host.bytes, file.len());
    if host.calls != SETS + 1 || host.bytes > 2 * file.len() {
        subject.fail("each set alone", "more than one pass over the sets was lent");
    }
}
