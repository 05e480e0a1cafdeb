//! Usual files, damaged ones too, for lister, rewriter and the reader of all values; and numbers that a reader of
//! whole lines may take otherwise, in every field of every case.

use crate::common::uff::ROW_NUMBERS;
use crate::generate::{Random, CASES};
use crate::run::{sound, Run};
use crate::subject::{numbers_of, Subject};
use crate::usual::{self, Last, Share, PLAIN_WRITINGS, WRITINGS};
use std::fmt::Arguments;

/// How often a usual file's plain answers are held against each other.
const SOUND_ONE_IN: usize = 64;

impl Run {
    /// Takes usual files and damaged ones, and usual files with other numbers.
    pub fn take_usual(&mut self, share: &mut Share) {
        usual::files(share, &mut |name: Arguments, file: &[u8], _: usize| self.take_one_usual(&name.to_string(), file));
        self.take_numbers(share);
    }

    /// One file: rows, rewritten text and all values of each 58 in exact room and in one place fewer, or the refusal.
    fn take_one_usual(&mut self, name: &str, file: &[u8]) {
        self.usual += 1;
        let subject = Subject::new(name, file);
        if subject.opened.is_err() {
            return self.take_refused(&subject);
        }
        if self.random.one_in(SOUND_ONE_IN) {
            sound(&subject);
        }
        let rows = subject.accepted().list();
        let fewer = self.random.below(2);
        self.ask_list(&subject, ROW_NUMBERS * rows.len() - fewer);
        let room = subject.accepted().rewrite().len();
        self.ask_rewrite(&subject, room);
        self.ask_rewrite(&subject, room - 1);
        for set in (1..).zip(&rows).filter(|(_, row)| row[1] == 58).map(|(set, _)| set) {
            let places = numbers_of(subject.accepted(), set).len();
            self.ask_values(&subject, set, places);
            let fewer = self.random.below(places);
            self.ask_values(&subject, set, fewer);
            let more = places + self.random.below(20);
            self.ask_values(&subject, set, more);
        }
    }

    /// Each number of `numbers` in each field of the first, a middle, the last full and the last data line of every case; in one writing each of
    /// `odd_numbers` too.
    fn take_numbers(&mut self, share: &mut Share) {
        let random = &mut Random::new(0x5EED_0022_0021_0001);
        for case in 1..=8 {
            for (n, &writing) in WRITINGS[..PLAIN_WRITINGS].iter().enumerate() {
                let last = [Last::Part, Last::Padded, Last::Full][(case + n) % 3];
                let usual = usual::usual_in_path(random, case, 5, last, writing);
                self.take_one_usual(&usual.name, &usual.file);
                for line in [usual.data.start, usual.data.start + 2, usual.data.end - 2, usual.data.end - 1] {
                    self.take_numbers_of_line(&usual, case, line, |width| {
                        numbers(width).into_iter().filter(|_| share.picks_number()).collect()
                    });
                    if n == case % PLAIN_WRITINGS {
                        self.take_numbers_of_line(&usual, case, line, |width| odd_numbers(width, &[-23, -22, 22, 23]));
                    }
                }
            }
            for _ in 0..share.count(4_000, 150) {
                self.take_any_numbers(random, case);
            }
        }
    }

    fn take_numbers_of_line(&mut self, usual: &usual::Usual, case: usize, line: usize, mut put: impl FnMut(usize) -> Vec<String>) {
        let mut at = usual.bytes_of(line).start;
        let shown = usual.file[usual.bytes_of(line)].trim_ascii_end().len();
        for (field, &width) in CASES[case - 1].2.iter().enumerate() {
            if at + width > usual.bytes_of(line).start + shown {
                return;
            }
            for number in put(width) {
                let mut file = usual.file.clone();
                file[at..at + width].copy_from_slice(number.as_bytes());
                self.take_one_usual(&format!("{}: {number:?} in field {field} of line {}", usual.name, line + 1), &file);
            }
            at += width;
        }
    }

    /// A set whose numbers are any of `numbers` and `odd_numbers`, most of them in the exact path.
    fn take_any_numbers(&mut self, random: &mut Random, case: usize) {
        let widths = CASES[case - 1].2;
        let last = [Last::Part, Last::Padded, Last::Full][random.below(3)];
        let (full, writing) = (1 + random.below(30), WRITINGS[random.below(WRITINGS.len())]);
        let usual = usual::usual_in_path(random, case, full, last, writing);
        let mut file = usual.file.clone();
        for line in usual.data.clone() {
            let mut at = usual.bytes_of(line).start;
            let past = at + usual.file[usual.bytes_of(line)].trim_ascii_end().len();
            for &width in widths {
                if at + width <= past && random.one_in(4) {
                    let all = match random.below(60) {
                        0 => numbers(width),
                        1..=20 => odd_numbers(width, &[-22, -7, 0, 22]),
                        _ => exact_numbers(width),
                    };
                    file[at..at + width].copy_from_slice(all[random.below(all.len())].as_bytes());
                }
                at += width;
            }
        }
        self.take_one_usual(&format!("{}, with other numbers", usual.name), &file);
    }
}

/// A number in the usual spelling, of this sign, these digits (cut, or followed by zeros) and this scale.
fn usual_number(width: usize, sign: char, digits: &str, scale: i32, letter: char) -> String {
    let decimals = width - 8;
    let digits: String = digits.chars().chain(std::iter::repeat('0')).take(decimals + 1).collect();
    let exponent = scale + decimals as i32;
    let exponent_sign = if exponent < 0 { '-' } else { '+' };
    format!(" {sign}{}.{}{letter}{exponent_sign}{:02}", &digits[..1], &digits[1..], exponent.abs())
}

const DIGITS: [&str; 7] = ["0", "1", "9999999999999", "0000000000001", "1234567890123", "0999999999999", "4503599627370"];

/// In the usual spelling and in the exact path: zero of both signs, the largest and smallest coefficients, the scales
/// at its ends.
fn exact_numbers(width: usize) -> Vec<String> {
    let mut all = Vec::new();
    for sign in [' ', '-'] {
        for digits in DIGITS {
            for scale in [-22, -21, -1, 0, 1, 21, 22] {
                all.push(usual_number(width, sign, digits, scale, 'E'));
            }
        }
    }
    all
}

/// The same, numbers just outside the exact path and far from it, and numbers that are not in the usual spelling, up to
/// the 8 and 15 digits that E13.5 and E20.12 have room for.
fn numbers(width: usize) -> Vec<String> {
    let mut all = exact_numbers(width);
    for (sign, digits, letter) in [(' ', "0", 'E'), ('-', "0", 'D'), (' ', "1", 'e'), ('-', "9999999999999", 'd')] {
        for scale in [-23, 23, -24, 24, -44, 44] {
            all.push(usual_number(width, sign, digits, scale, letter));
        }
        all.push(usual_number(width, sign, digits, 99 - (width as i32 - 8), letter));
        all.push(usual_number(width, sign, digits, -99 - (width as i32 - 8), letter));
        all.push(usual_number(width, sign, digits, 0, letter));
    }
    let room = width - 5;
    let nines = "9".repeat(room);
    let mut odd = vec![
        format!("{nines}.E+00"),
        format!(".{nines}E+00"),
        format!("-{}.E+22", &nines[1..]),
        format!("+{}.E-22", &nines[1..]),
        format!("+{}.E-23", &nines[1..]),
        format!("{nines}.+022"),
        format!("{nines}.-022"),
        format!("{nines}.-023"),
        format!("9.{}-001", &nines[1..]),
        format!("1.{}E+00", "0".repeat(room - 1)),
        format!("-0.{}D-00", "0".repeat(room - 2)),
        format!(".{}1E+00", "0".repeat(room - 1)),
    ];
    odd.extend([".0E+00", "-.5E+00", "1.E+00", "-0.E-22", "+0.0E+23", "1.0E+000", "-1.0d-022", "1.0+101", "-1.5-005", "7.E+999"].map(String::from));
    all.extend(odd.into_iter().map(|text| format!("{text:>width$}")));
    all
}

const LETTERS: [char; 4] = ['E', 'e', 'D', 'd'];

/// Numbers of these scales in other spellings than the usual one: with no sign, a plus and a minus, the point before, among and after their digits, few or
/// as many as the field has room for, and exponents of two digits and three with each letter, and of three without.
fn odd_numbers(width: usize, scales: &[i32]) -> Vec<String> {
    let mut all = Vec::new();
    for &scale in scales {
        for sign in ["", "+", "-"] {
            for (form, letter) in ["", "E", "E"].iter().enumerate() {
                let room = width - sign.len() - 1 - letter.len() - if form == 1 { 3 } else { 4 };
                for (whole, part) in [(1, 0), (0, 1), (2, 3), (room, 0), (0, room), (room - 3, 3)] {
                    let exponent = scale + part as i32;
                    let exponent_sign = if exponent < 0 { '-' } else { '+' };
                    let letter = letter.replace('E', &LETTERS[all.len() % 4].to_string());
                    let size = if form == 1 { format!("{:02}", exponent.abs()) } else { format!("{:03}", exponent.abs()) };
                    let number = format!("{sign}{}.{}{letter}{exponent_sign}{size}", &"907".repeat(5)[..whole], &"013".repeat(5)[..part]);
                    all.push(format!("{number:>width$}"));
                }
            }
        }
    }
    all
}
