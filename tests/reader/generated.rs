//! Files that are generated, for both sides.

use crate::common::uff::SETS;
use crate::generate::{self, Random};
use crate::judge::Reply;
use crate::reader::{self, Number};
use crate::run::Run;
use crate::subject::numbers_of;

/// Generated files, half of them proper and half of them faulty or damaged.
const FILES: usize = 24_000;

/// Strings of bytes that are no file's, or by chance.
const ARBITRARY: usize = 12_000;

/// Files around the limit of 4,096 sets.
const FILES_OF_MANY_SETS: usize = 12;

/// Generated files, proper, faulty and damaged, arbitrary bytes and files of many sets.
pub fn take_generated(run: &mut Run) {
    let mut random = Random::new(0x5EED_0A11_0058_0021);
    take_files(run, &mut random);
    for _ in 0..ARBITRARY {
        run.take("arbitrary bytes", &generate::arbitrary(&mut random), None, false);
    }
    take_many_sets(run, &mut random);
}

fn take_files(run: &mut Run, random: &mut Random) {
    for n in 0..FILES {
        let mut made = generate::proper(random);
        let good = Some(Reply::accepted(made.lines));
        match n % 4 {
            0 => run.take("proper file", &made.file, good, false),
            1 => {
                near_exact_path(random, &mut made.file);
                run.take("proper file near the exact path", &made.file, good, false);
            }
            2 => {
                let one_in = [30, 60, 120][n / 4 % 3];
                let file = generate::faulty(random, one_in);
                run.take("faulty file", &file, None, false);
            }
            _ => {
                generate::damage(random, &mut made.file);
                while random.one_in(3) {
                    generate::damage(random, &mut made.file);
                }
                run.take("damaged file", &made.file, None, false);
            }
        }
    }
}

fn take_many_sets(run: &mut Run, random: &mut Random) {
    for n in 0..FILES_OF_MANY_SETS {
        let sets = SETS - 1 + n % 4;
        let made = generate::many_sets(random, sets);
        let good = (sets <= SETS).then_some(Reply::accepted(made.lines));
        run.take("many sets", &made.file, good, false);
    }
}

/// Gives the numbers of a proper file's 58s other exponents, so that their scales are in the exact
/// path or at its ends, in half of the files also just past them. The spelling is kept otherwise.
fn near_exact_path(random: &mut Random, file: &mut [u8]) {
    let numbers: Vec<Number> = match reader::accept(file) {
        Ok(accepted) => {
            let sets = 1..=accepted.list().len() as u32;
            sets.flat_map(|set| numbers_of(&accepted, set)).collect()
        }
        Err(_) => return,
    };
    let past = random.one_in(2);
    for number in numbers {
        let scale = match random.below(60) {
            0 if past => -23,
            1 if past => 23,
            2 if past => continue,
            3 => -22,
            4 => 22,
            _ => random.below(45) as i32 - 22,
        };
        rescale(&mut file[number.first as usize..number.past as usize], scale);
    }
}

/// Gives a field another scale by its exponent's sign and digits, whether it has a letter or not.
fn rescale(field: &mut [u8], scale: i32) {
    let point = field.iter().position(|&b| b == b'.');
    let sign = field.iter().rposition(|b| b"+-".contains(b));
    let (Some(point), Some(sign)) = (point, sign) else {
        return;
    };
    let decimals = field[point + 1..].iter().take_while(|b| b.is_ascii_digit()).count();
    let exponent = scale + decimals as i32;
    field[sign] = if exponent < 0 { b'-' } else { b'+' };
    let mut left = exponent.unsigned_abs();
    for digit in field[sign + 1..].iter_mut().rev() {
        *digit = b'0' + (left % 10) as u8;
        left /= 10;
    }
}
