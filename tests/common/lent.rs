//! Buffers lent to a proved call: patterned, with a margin on both sides that no call may touch.

use crate::common::uff::Word;
use crate::judge::Reply;
use std::fmt::Debug;

/// Places before and after the lent ones.
const MARGIN: usize = 24;

/// What is lent. The pattern depends on the place, so that nothing put there by chance stays unseen.
pub trait Place: Copy + PartialEq + Debug {
    fn pattern(n: usize) -> Self;

    fn shown(places: &[Self]) -> String {
        format!("{places:?}")
    }
}

impl Place for u8 {
    fn pattern(n: usize) -> u8 {
        (n * 167 + 90) as u8
    }

    fn shown(places: &[u8]) -> String {
        places.escape_ascii().to_string()
    }
}

impl Place for u32 {
    fn pattern(n: usize) -> u32 {
        (n as u32).wrapping_mul(2_654_435_761) ^ 0xA5A5_5A5A
    }
}

/// Bits of f64: quiet NaNs of both signs, signalling ones, all with payloads, and any other bits.
impl Place for u64 {
    fn pattern(n: usize) -> u64 {
        let mixed = (n as u64).wrapping_mul(0x9E37_79B9_7F4A_7C15) ^ 0xA5A5_5A5A_A5A5_5A5A;
        let payload = mixed >> 13 | 1;
        match n % 5 {
            0 => 0x7FF8 << 48 | payload,
            1 => 0xFFF8 << 48 | payload,
            2 => 0x7FF0 << 48 | payload,
            3 => 0xFFF0 << 48 | payload,
            _ => mixed,
        }
    }
}

/// Patterned places between margins.
#[derive(Clone, PartialEq)]
pub struct Lent<T> {
    all: Vec<T>,
}

impl<T: Place> Lent<T> {
    pub fn new(count: usize) -> Lent<T> {
        Lent { all: (0..count + 2 * MARGIN).map(T::pattern).collect() }
    }

    /// The lent places.
    pub fn places(&mut self) -> &mut [T] {
        let past = self.all.len() - MARGIN;
        &mut self.all[MARGIN..past]
    }

    /// Is nothing outside the lent places touched?
    pub fn margins_stand(&self) -> bool {
        let past = self.all.len() - MARGIN;
        (0..MARGIN).chain(past..self.all.len()).all(|n| self.all[n] == T::pattern(n))
    }

    /// Where they first differ from others, and both from there on; none if they are the same.
    fn difference(&self, due: &Lent<T>) -> Option<String> {
        let at = (0..self.all.len()).find(|&n| self.all[n] != due.all[n])?;
        let past = (at + MARGIN).min(self.all.len());
        let [due, proved] = [due, self].map(|lent| T::shown(&lent.all[at..past]));
        let place = at as i64 - MARGIN as i64;
        Some(format!("from place {place} of the lent ones (from 0)\ndue:    {due}\nproved: {proved}"))
    }
}

/// What a call must give: its answer and what it puts into the lent places, or a refusal.
pub type Due<T> = Result<(u32, Vec<T>), Reply>;

/// Lends so many places to a call and holds its reply and every place against what is due. Says what differs.
pub fn hold<T: Place>(count: usize, due: &Due<T>, call: impl FnOnce(&mut [T]) -> Word) -> Result<(), String> {
    let (mut lent, mut expected) = (Lent::new(count), Lent::new(count));
    let word = call(lent.places());
    let expected_word = match due {
        Ok((answer, put)) => {
            expected.places()[..put.len()].copy_from_slice(put);
            Word::accepted(*answer)
        }
        Err(reply) => Word::from(*reply),
    };
    if word != expected_word {
        return Err(format!("due:    {expected_word:?}\nproved: {word:?}"));
    }
    match lent.difference(&expected) {
        Some(what) => Err(format!("{word:?}; {what}")),
        None => Ok(()),
    }
}
