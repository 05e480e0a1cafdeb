//! What is timed beside the plain Rust: the proved calls, C's strtod and gfortran's formatted READ.

use crate::common::uff::{self, Row, Word, SETS, STREAM_LINE, STREAM_NUMBERS};
use std::hint::black_box;

/// The calls of another archive, whose names begin with before_; only some of them are timed.
#[allow(dead_code)]
#[cfg(before)]
mod before {
    crate::common::uff::calls!("before_");
}

/// The calls of one archive, by name.
pub struct Archive {
    pub name: &'static str,
    pub judge: fn(&[u8]) -> Word,
    pub list: fn(&[u8], &mut [u32]) -> Word,
    pub values: fn(&[u8], u32, &mut [f64]) -> Word,
    pub rewrite: fn(&[u8], &mut [u8]) -> Word,
    /// The end's reply for a file that comes in bursts of so many bytes.
    pub in_bursts: fn(&[u8], usize) -> Word,
}

macro_rules! archive {
    ($name:literal, $calls:ident) => {
        Archive {
            name: $name,
            judge: $calls::judge,
            list: $calls::list,
            values: $calls::values,
            rewrite: $calls::rewrite,
            in_bursts: |file, length| {
                let (mut numbers, mut line) = ([0; STREAM_NUMBERS], [0; STREAM_LINE]);
                $calls::start(&mut numbers, &mut line);
                for burst in file.chunks(length) {
                    black_box($calls::burst(&mut numbers, &mut line, burst));
                }
                $calls::end(&mut numbers, &line)
            },
        }
    };
}

/// The archives that are timed: the present one first, then the one from before, if one is given.
#[cfg(not(before))]
pub const ARCHIVES: &[Archive] = &[archive!("proved", uff)];
#[cfg(before)]
pub const ARCHIVES: &[Archive] = &[archive!("proved", uff), archive!("before", before)];

/// The rows of a file's sets.
pub fn list(file: &[u8]) -> Vec<Row> {
    let mut rows = vec![Row::default(); SETS];
    let sets = uff::list(file, rows.as_flattened_mut()).place();
    rows.truncate(sets as usize);
    rows
}

extern "C" {
    fn read_by_strtod(
        data: *const u8,
        data_len: usize,
        widths: *const usize,
        fields: usize,
        numbers: *mut f64,
        count: usize,
    );
}

#[cfg(fortran)]
extern "C" {
    fn read_by_format(records: *const u8, lines: i32, layout: i32, numbers: *mut f64, count: i32);
}

/// Is gfortran's READ built in?
pub const FORTRAN: bool = cfg!(fortran);

/// The data lines of a 58, as they stand and as records of 80 columns without their ends.
pub struct Data<'a> {
    bytes: &'a [u8],
    /// Only gfortran reads these two.
    #[cfg_attr(not(fortran), allow(dead_code))]
    records: Vec<u8>,
    #[cfg_attr(not(fortran), allow(dead_code))]
    case: usize,
    widths: &'static [usize],
}

impl<'a> Data<'a> {
    /// The data lines of a set of this case that stands in this row of the lister.
    pub fn new(file: &'a [u8], row: Row, case: usize) -> Data<'a> {
        const CLOSING: usize = b"    -1\n".len();
        let [_, _, _, _, past, data, ..] = row.map(|place| place as usize);
        let bytes = &file[data..past - CLOSING];
        let mut records = Vec::new();
        for line in bytes.split(|&b| b == b'\n') {
            records.extend_from_slice(line);
            records.resize(records.len().next_multiple_of(80), b' ');
        }
        let widths: &[usize] = match case {
            1..=4 => &[13; 6],
            5 | 7 => &[20; 4],
            6 => &[13, 20, 13, 20],
            _ => &[13, 20, 20],
        };
        Data { bytes, records, case, widths }
    }

    pub fn strtod(&self, numbers: &mut [f64]) {
        let (bytes, widths) = (self.bytes, self.widths);
        unsafe {
            let (data, out) = (bytes.as_ptr(), numbers.as_mut_ptr());
            read_by_strtod(data, bytes.len(), widths.as_ptr(), widths.len(), out, numbers.len());
        }
    }

    #[cfg(fortran)]
    pub fn fortran(&self, numbers: &mut [f64]) {
        let lines = (self.records.len() / 80) as i32;
        let (records, out) = (self.records.as_ptr(), numbers.as_mut_ptr());
        unsafe { read_by_format(records, lines, self.case as i32, out, numbers.len() as i32) }
    }

    #[cfg(not(fortran))]
    pub fn fortran(&self, _: &mut [f64]) {}
}
