//! Headers and numbers to lend to the writer, all from one seed. Headers are those of the sets 58
//! that the judge's generator writes, proper, faulty or damaged.

use crate::generate::{self, Random};
use crate::writer::Form;

/// The lines between the first number line of a 58 in a file and its data, so many at most.
fn cut(file: &[u8], most: usize) -> Option<Vec<u8>> {
    let lines: Vec<&[u8]> = file.split_inclusive(|&b| b == b'\n').collect();
    let opens = |pair: &[&[u8]]| {
        let delimiter = pair[0].trim_ascii_end() == b"    -1";
        let digits = pair[1].trim_ascii().iter().skip_while(|b| b"+0".contains(b));
        delimiter && digits.eq(b"58")
    };
    let opening = lines.windows(2).position(opens)?;
    Some(lines[opening + 2..].iter().take(most).copied().collect::<Vec<_>>().concat())
}

/// The first header that the files have.
fn first(mut file: impl FnMut() -> Vec<u8>, most: usize) -> Vec<u8> {
    loop {
        if let Some(header) = cut(&file(), most) {
            return header;
        }
    }
}

/// Eleven good lines in any spelling.
pub fn proper(random: &mut Random) -> Vec<u8> {
    first(|| generate::proper(random).file, 11)
}

/// Wrong fields, lines and counts; now and then a line more or less.
pub fn faulty(random: &mut Random) -> Vec<u8> {
    let most = [9, 10, 11, 11, 11, 11, 11, 11, 12, 13][random.below(10)];
    first(|| generate::faulty(random, 25), most)
}

/// Eleven good lines, changed once, twice or three times.
pub fn damaged(random: &mut Random) -> Vec<u8> {
    let mut header = proper(random);
    generate::damage(random, &mut header);
    while random.one_in(3) {
        generate::damage(random, &mut header);
    }
    header
}

/// Eleven good lines but for line 7, which has a blank real field.
pub fn blanked(random: &mut Random) -> Vec<u8> {
    let mut header = proper(random);
    let line_7: usize = header.split_inclusive(|&b| b == b'\n').take(6).map(<[u8]>::len).sum();
    let first = line_7 + [30, 43, 56][random.below(3)];
    header[first..first + 13].fill(b' ');
    header
}

/// Eleven lines, some of them good, the others of arbitrary bytes.
pub fn arbitrary_lines(random: &mut Random) -> Vec<u8> {
    let mut header = Vec::new();
    for line in proper(random).split_inclusive(|&b| b == b'\n') {
        if random.one_in(8) {
            let bytes = generate::arbitrary(random);
            header.extend(bytes.into_iter().filter(|&b| b != b'\n').take(80));
            header.push(b'\n');
        } else {
            header.extend_from_slice(line);
        }
    }
    header
}

/// Numbers lent together.
pub struct Numbers {
    pub coefficients: Vec<i64>,
    pub scales: Vec<i16>,
}

/// As many numbers as a header asks for, all of which can be written.
pub fn writable(random: &mut Random, form: &Form) -> Numbers {
    let decimals = (0..form.stored).map(|j| form.fields[j % form.fields.len()].decimals);
    let (coefficients, scales) = decimals.map(|decimals| good(random, decimals)).unzip();
    Numbers { coefficients, scales }
}

/// As many numbers as a header of eight or more asks for, all of which can be written, zero or from
/// 10^-300 to 10^300 in size; the first eight are always the same.
pub fn doubles(random: &mut Random, form: &Form) -> Numbers {
    const FIRST: [(i64, i16); 8] =
        [(1, -101), (1, 150), (-1, -101), (-1, 150), (123_456, -305), (-5, 300), (1, 99), (10, 99)];
    let decimals = (0..form.stored).map(|j| form.fields[j % form.fields.len()].decimals);
    let any = decimals.map(|decimals| loop {
        let (coefficient, scale) = good(random, decimals);
        if within_300(coefficient, scale) {
            break (coefficient, scale);
        }
    });
    let mut numbers: Vec<(i64, i16)> = any.collect();
    numbers[..FIRST.len()].copy_from_slice(&FIRST);
    let (coefficients, scales) = numbers.into_iter().unzip();
    Numbers { coefficients, scales }
}

/// Is the number zero, or the exponent of its first digit at most 300 in size?
fn within_300(coefficient: i64, scale: i16) -> bool {
    let more = coefficient.unsigned_abs().checked_ilog10();
    more.is_none_or(|more| (i32::from(scale) + more as i32).abs() <= 300)
}

/// So many numbers of all sorts, for a header that is refused.
pub fn any(random: &mut Random, stored: usize) -> Numbers {
    let number = |random: &mut Random| {
        if random.one_in(2) {
            good(random, 12)
        } else {
            bad(random, 5)
        }
    };
    let (coefficients, scales) = (0..stored).map(|_| number(random)).unzip();
    Numbers { coefficients, scales }
}

/// So many numbers of any bits, large and small.
pub fn arbitrary(random: &mut Random, stored: usize) -> Numbers {
    let coefficients = (0..stored).map(|_| random.next() as i64 >> random.below(64)).collect();
    let scales = (0..stored).map(|_| random.next() as i16 >> random.below(16)).collect();
    Numbers { coefficients, scales }
}

/// Puts one to three numbers that can't be written among the others.
pub fn spoil(random: &mut Random, numbers: &mut Numbers, form: &Form) {
    for _ in 0..1 + random.below(3) {
        let j = random.below(numbers.coefficients.len());
        let decimals = form.fields[j % form.fields.len()].decimals;
        (numbers.coefficients[j], numbers.scales[j]) = bad(random, decimals);
    }
}

/// Makes one of the lengths wrong, or both.
pub fn misfit(random: &mut Random, numbers: &mut Numbers) {
    let (coefficients, scales) = (&mut numbers.coefficients, &mut numbers.scales);
    match random.below(7) {
        0 => coefficients.push(1),
        1 => scales.push(0),
        2 => {
            coefficients.push(i64::MIN);
            scales.push(0);
        }
        3 => coefficients.truncate(coefficients.len() - 1),
        4 => scales.truncate(scales.len() - 1),
        5 => {
            coefficients.truncate(coefficients.len() - 1);
            scales.truncate(scales.len() - 1);
        }
        _ => {
            coefficients.clear();
            scales.clear();
        }
    }
}

/// A scale of any size, often at an end of its range.
fn any_scale(random: &mut Random) -> i16 {
    match random.below(10) {
        0 => i16::MIN,
        1 => i16::MAX,
        2 => -100,
        3 => 100,
        4 => -1_000,
        5 => 1_000,
        6 => 0,
        _ => random.next() as i16,
    }
}

/// An exponent that can be written, often where the letter goes or at an end of the range.
fn any_exponent(random: &mut Random) -> i32 {
    const ENDS: [i32; 8] = [0, 1, 98, 99, 100, 101, 998, 999];
    let size = match random.below(4) {
        0 => ENDS[random.below(ENDS.len())],
        1 => random.below(100) as i32,
        _ => random.below(1_000) as i32,
    };
    if random.one_in(2) { -size } else { size }
}

/// A size of so many digits, none of them a zero at the end.
fn digits(random: &mut Random, count: usize) -> i64 {
    let most = 10i64.pow(count as u32) - 1;
    let least = 10i64.pow(count as u32 - 1);
    match random.below(6) {
        0 => most,
        1 if count > 1 => least + 1,
        _ => {
            let size = least + (random.next() >> 2) as i64 % (most - least + 1);
            size + i64::from(size % 10 == 0)
        }
    }
}

/// A number of so many digits and this exponent, with zeros at its end and a sign at will.
fn number(random: &mut Random, count: usize, exponent: i32) -> (i64, i16) {
    let zeros = if random.one_in(2) { random.below(19 - count) } else { 0 };
    let size = digits(random, count) * 10i64.pow(zeros as u32);
    let coefficient = if random.one_in(3) { -size } else { size };
    (coefficient, (exponent - (count + zeros) as i32 + 1) as i16)
}

/// A number that can be written with so many decimals.
fn good(random: &mut Random, decimals: usize) -> (i64, i16) {
    let exponent = any_exponent(random);
    match random.below(16) {
        0 | 1 => (0, any_scale(random)),
        2 => number(random, decimals + 1, exponent),
        // A power of ten, as far as i64 goes.
        3 => {
            let zeros = random.below(19);
            (10i64.pow(zeros as u32), (exponent - zeros as i32) as i16)
        }
        _ => {
            let count = 1 + random.below(decimals + 1);
            number(random, count, exponent)
        }
    }
}

/// A number that can't be written with so many decimals.
fn bad(random: &mut Random, decimals: usize) -> (i64, i16) {
    let exponent = any_exponent(random);
    let beyond = 1_000 + random.below(2) as i32;
    match random.below(8) {
        0 => number(random, decimals + 2, exponent),
        1 => {
            let count = decimals + 2 + random.below(17 - decimals);
            number(random, count, exponent)
        }
        2 => number(random, 1 + decimals, beyond),
        3 => number(random, 1, -beyond),
        4 => (i64::MIN, any_scale(random)),
        5 => (i64::MAX, any_scale(random)),
        6 => (10i64.pow(random.below(19) as u32), i16::MAX),
        _ => (-(10i64.pow(random.below(19) as u32)), i16::MIN),
    }
}
