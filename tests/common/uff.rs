//! The proved calls as C has them: the header's sizes, a reply taken apart, and safe functions over lent slices.

use crate::judge::Reply;
use std::fmt;
use std::sync::atomic::{AtomicBool, Ordering};

const UFF_H: &[u8] = include_bytes!("../../include/uff.h");

/// The number that the header for C defines by this name. A name that it has not does not compile.
const fn defined(name: &str) -> usize {
    const DEFINE: &[u8] = b"#define ";
    let mut at = 0;
    let mut past = DEFINE.len() + name.len();
    while !(stands_at(at, DEFINE) && stands_at(at + DEFINE.len(), name.as_bytes()) && UFF_H[past] == b' ') {
        at += 1;
        past += 1;
    }
    at = past + 1;
    let mut number = 0;
    while UFF_H[at].is_ascii_digit() {
        number = 10 * number + (UFF_H[at] - b'0') as usize;
        at += 1;
    }
    number
}

/// Do these bytes stand there in the header?
const fn stands_at(at: usize, bytes: &[u8]) -> bool {
    let mut n = 0;
    while n < bytes.len() && UFF_H[at + n] == bytes[n] {
        n += 1;
    }
    n == bytes.len()
}

/// The most bytes that a file has, and the most sets.
pub const LONGEST: usize = defined("UFF_LONGEST");
pub const SETS: usize = defined("UFF_SETS");

/// What the lister gives for a set.
pub const ROW_NUMBERS: usize = defined("UFF_ROW_NUMBERS");
pub type Row = [u32; ROW_NUMBERS];

/// The bytes of a stored number, and the most of a value.
pub const NUMBER_BYTES: usize = defined("UFF_NUMBER_BYTES");
pub const VALUE_BYTES: usize = defined("UFF_VALUE_BYTES");

/// The record of the streaming calls: its numbers, and the bytes of its line.
pub const STREAM_NUMBERS: usize = defined("UFF_STREAM_NUMBERS");
pub const STREAM_LINE: usize = defined("UFF_STREAM_LINE");

/// "So far" as a number, which is no refusal's.
pub const SO_FAR: u32 = defined("UFF_SO_FAR") as u32;

/// A call's reply: number * 2^57 + column * 2^32 + place.
#[derive(Clone, Copy, PartialEq, Eq)]
pub struct Word(pub u64);

impl Word {
    /// Accepted, with the answer that the call names.
    pub const fn accepted(answer: u32) -> Word {
        Word(answer as u64)
    }

    pub fn number(self) -> u32 {
        (self.0 >> 57) as u32
    }

    pub fn column(self) -> u32 {
        (self.0 >> 32) as u32 & 0x1FF_FFFF
    }

    pub fn place(self) -> u32 {
        self.0 as u32
    }
}

/// Number, place and column; a column over 33,554,431 is given as 33,554,431.
impl From<Reply> for Word {
    fn from(reply: Reply) -> Word {
        let column = reply.column.min(33_554_431);
        Word((u64::from(reply.number) << 57) + (u64::from(column) << 32) + u64::from(reply.place))
    }
}

impl fmt::Debug for Word {
    fn fmt(&self, f: &mut fmt::Formatter) -> fmt::Result {
        write!(f, "number {}, column {}, place {}", self.number(), self.column(), self.place())
    }
}

/// A slice as it is lent to C. The pointer of an empty one is null every second time.
pub fn lend<T>(slice: &[T]) -> (*const T, usize) {
    (if lends_null(slice.len()) { std::ptr::null() } else { slice.as_ptr() }, slice.len())
}

/// The same for places that may be filled.
pub fn lend_mut<T>(slice: &mut [T]) -> (*mut T, usize) {
    let length = slice.len();
    (if lends_null(length) { std::ptr::null_mut() } else { slice.as_mut_ptr() }, length)
}

fn lends_null(length: usize) -> bool {
    static NULL: AtomicBool = AtomicBool::new(true);
    length == 0 && NULL.fetch_xor(true, Ordering::Relaxed)
}

/// Bits as the doubles that they are, for `values`.
pub fn doubles(bits: &mut [u64]) -> &mut [f64] {
    unsafe { std::slice::from_raw_parts_mut(bits.as_mut_ptr().cast(), bits.len()) }
}

/// Declares the calls of an archive whose names begin with a prefix, and safe functions over them.
macro_rules! calls {
    ($prefix:literal) => {
        use $crate::common::uff::{lend, lend_mut, Word};

        mod declared {
            extern "C" {
                #[link_name = concat!($prefix, "uff_judge")]
                pub fn judge(file: *const u8, file_len: usize) -> u64;
                #[link_name = concat!($prefix, "uff_list")]
                pub fn list(file: *const u8, file_len: usize, rows: *mut u32, rows_len: usize) -> u64;
                #[link_name = concat!($prefix, "uff_number")]
                pub fn number(file: *const u8, file_len: usize, set: u32, index: u32, out: *mut u8, out_len: usize) -> u64;
                #[link_name = concat!($prefix, "uff_value")]
                pub fn value(file: *const u8, file_len: usize, set: u32, index: u32, out: *mut u8, out_len: usize) -> u64;
                #[link_name = concat!($prefix, "uff_values")]
                pub fn values(file: *const u8, file_len: usize, set: u32, out: *mut f64, places: usize) -> u64;
                #[link_name = concat!($prefix, "uff_field")]
                pub fn field(
                    format: *const u8,
                    format_len: usize,
                    line: *const u8,
                    line_len: usize,
                    field: u32,
                    out: *mut u8,
                    out_len: usize,
                ) -> u64;
                #[link_name = concat!($prefix, "uff_rewrite")]
                pub fn rewrite(file: *const u8, file_len: usize, out: *mut u8, out_len: usize) -> u64;
                #[link_name = concat!($prefix, "uff_write")]
                pub fn write(
                    header: *const u8,
                    header_len: usize,
                    coefficients: *const i64,
                    coefficients_len: usize,
                    scales: *const i16,
                    scales_len: usize,
                    out: *mut u8,
                    out_len: usize,
                ) -> u64;
                #[link_name = concat!($prefix, "uff_start")]
                pub fn start(numbers: *mut u64, numbers_len: usize, line: *mut u8, line_len: usize) -> u64;
                #[link_name = concat!($prefix, "uff_burst")]
                pub fn burst(
                    numbers: *mut u64,
                    numbers_len: usize,
                    line: *mut u8,
                    line_len: usize,
                    bytes: *const u8,
                    bytes_len: usize,
                ) -> u64;
                #[link_name = concat!($prefix, "uff_end")]
                pub fn end(numbers: *mut u64, numbers_len: usize, line: *const u8, line_len: usize) -> u64;
            }
        }

        pub fn judge(file: &[u8]) -> Word {
            let (file, file_len) = lend(file);
            Word(unsafe { declared::judge(file, file_len) })
        }

        pub fn list(file: &[u8], rows: &mut [u32]) -> Word {
            let ((file, file_len), (rows, rows_len)) = (lend(file), lend_mut(rows));
            Word(unsafe { declared::list(file, file_len, rows, rows_len) })
        }

        pub fn number(file: &[u8], set: u32, index: u32, out: &mut [u8]) -> Word {
            let ((file, file_len), (out, out_len)) = (lend(file), lend_mut(out));
            Word(unsafe { declared::number(file, file_len, set, index, out, out_len) })
        }

        pub fn value(file: &[u8], set: u32, index: u32, out: &mut [u8]) -> Word {
            let ((file, file_len), (out, out_len)) = (lend(file), lend_mut(out));
            Word(unsafe { declared::value(file, file_len, set, index, out, out_len) })
        }

        pub fn values(file: &[u8], set: u32, out: &mut [f64]) -> Word {
            let ((file, file_len), (out, places)) = (lend(file), lend_mut(out));
            Word(unsafe { declared::values(file, file_len, set, out, places) })
        }

        pub fn field(format: &[u8], line: &[u8], field: u32, out: &mut [u8]) -> Word {
            let ((format, format_len), (line, line_len)) = (lend(format), lend(line));
            let (out, out_len) = lend_mut(out);
            Word(unsafe { declared::field(format, format_len, line, line_len, field, out, out_len) })
        }

        pub fn rewrite(file: &[u8], out: &mut [u8]) -> Word {
            let ((file, file_len), (out, out_len)) = (lend(file), lend_mut(out));
            Word(unsafe { declared::rewrite(file, file_len, out, out_len) })
        }

        pub fn write(header: &[u8], coefficients: &[i64], scales: &[i16], out: &mut [u8]) -> Word {
            let ((header, header_len), (out, out_len)) = (lend(header), lend_mut(out));
            let ((coefficients, coefficients_len), (scales, scales_len)) = (lend(coefficients), lend(scales));
            Word(unsafe {
                declared::write(header, header_len, coefficients, coefficients_len, scales, scales_len, out, out_len)
            })
        }

        pub fn start(numbers: &mut [u64], line: &mut [u8]) -> Word {
            let ((numbers, numbers_len), (line, line_len)) = (lend_mut(numbers), lend_mut(line));
            Word(unsafe { declared::start(numbers, numbers_len, line, line_len) })
        }

        pub fn burst(numbers: &mut [u64], line: &mut [u8], bytes: &[u8]) -> Word {
            let ((numbers, numbers_len), (line, line_len)) = (lend_mut(numbers), lend_mut(line));
            let (bytes, bytes_len) = lend(bytes);
            Word(unsafe { declared::burst(numbers, numbers_len, line, line_len, bytes, bytes_len) })
        }

        pub fn end(numbers: &mut [u64], line: &[u8]) -> Word {
            let ((numbers, numbers_len), (line, line_len)) = (lend_mut(numbers), lend(line));
            Word(unsafe { declared::end(numbers, numbers_len, line, line_len) })
        }
    };
}
#[allow(unused_imports)]
pub(crate) use calls;

mod present {
    calls!("");
}
pub use present::*;
