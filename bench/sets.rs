//! The files that are measured, each built once.

use crate::common::files;
use crate::common::uff::{LONGEST, SETS};

/// Digits and choices from one seed.
struct Digits(u32);

impl Digits {
    fn below(&mut self, n: u32) -> u32 {
        self.0 = self.0.wrapping_mul(1_664_525).wrapping_add(1_013_904_223);
        (self.0 >> 24) % n
    }
}

/// One 58 of a case with numbers that differ from line to line.
pub fn set(case: usize, count: usize) -> Vec<u8> {
    let mut file = files::function(case, count, count);
    // The digits of the data, from line 14 on, are varied; the fields keep their form.
    let data = first_of_data(&file);
    let mut digits = Digits(58);
    let past = file.len() - 7;
    for n in data..past {
        // Only the coefficient's digits: those behind the point, and the one before it.
        let coefficient = file[n].is_ascii_digit() && (file[n + 1] != b'\n') && file[n - 1] != b'-' && file[n - 2] != b'-';
        if coefficient {
            file[n] = b'0' + digits.below(10) as u8;
        }
    }
    file
}

/// The same with signs and exponents from -4 to 4 that vary too; its first number is -0.
pub fn signed(case: usize, count: usize) -> Vec<u8> {
    let mut file = set(case, count);
    let data = first_of_data(&file);
    let mut digits = Digits(13);
    for n in data..file.len() {
        match file[n] {
            // The column of the sign is two before the point.
            b'.' if digits.below(2) == 0 => file[n - 2] = b'-',
            b'E' => {
                file[n + 1] = b"+-"[digits.below(2) as usize];
                file[n + 3] = b'0' + digits.below(5) as u8;
            }
            _ => {}
        }
    }
    file[data..data + 9].copy_from_slice(b" -0.00000");
    file
}

/// The first byte of line 14.
fn first_of_data(file: &[u8]) -> usize {
    file.iter().enumerate().filter(|(_, &b)| b == b'\n').nth(12).map_or(0, |(n, _)| n + 1)
}

/// Sets of 65,536 values and one smaller set, as many as the length allows.
pub fn many(case: usize, length: usize) -> Vec<u8> {
    let one = set(case, 65_536);
    let mut file = Vec::with_capacity(length);
    while file.len() + one.len() <= length {
        file.extend_from_slice(&one);
    }
    // The rest: a value takes at most as many bytes as in the large set, with its line's end and a share of the header.
    let rest = length - file.len();
    let value = one.len().div_ceil(65_536);
    if rest > 1_000 + value {
        file.extend_from_slice(&set(case, (rest - 1_000) / value));
    }
    file
}

/// The same file with this letter in every exponent.
pub fn lettered(mut file: Vec<u8>, letter: u8) -> Vec<u8> {
    for n in 1..file.len() {
        if file[n - 1] == b'E' && b"+-".contains(&file[n]) {
            file[n - 1] = letter;
        }
    }
    file
}

/// The same file with a plus sign before every number of each data line of so many.
pub fn odd(mut file: Vec<u8>, of: usize) -> Vec<u8> {
    let mut line = 0;
    for n in 2..file.len() {
        line += usize::from(file[n] == b'\n');
        if file[n] == b'.' && file[n - 2] == b' ' && line % of == 0 {
            file[n - 2] = b'+';
        }
    }
    file
}

/// The same file with no letter in any exponent, in the same columns: E-01 becomes -001.
pub fn without_letters(mut file: Vec<u8>) -> Vec<u8> {
    for n in 1..file.len() {
        if file[n - 1] == b'E' && b"+-".contains(&file[n]) {
            file[n - 1] = file[n];
            file[n] = b'0';
        }
    }
    file
}

/// Sets of case 1 with this line end, and every line filled to column 80 if so.
pub fn ended(fill: bool, end: &[u8]) -> Vec<u8> {
    let one = set(1, 65_536);
    let one = if fill { files::filled(&one, end) } else { files::joined(&files::lines(&one), end) };
    one.repeat(LONGEST / one.len())
}

/// 4,096 sets 58 of one value.
pub fn tiny() -> Vec<u8> {
    files::function(1, 1, 1).repeat(SETS)
}

/// 4,096 sets 82 of one entry.
pub fn traces() -> Vec<u8> {
    b"    -1\n    82\n         1         1         0\nNONE\n         7\n    -1\n".repeat(SETS)
}
