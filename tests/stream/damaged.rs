//! Usual files, damaged ones too, in bursts that end inside a run of data lines.

use crate::generate::Random;
use crate::usual::{self, Last, Share, Usual, WRITINGS};
use crate::Run;
use std::fmt::Arguments;

/// Lengths of all bursts of a file: those of a line and about, those that a collector sends.
const LENGTHS: [usize; 18] = [1, 7, 64, 77, 78, 79, 80, 81, 82, 83, 84, 158, 160, 162, 164, 400, 512, 4_096];

impl Run {
    /// Takes usual files cut at each byte of their data lines, and damaged ones cut about the damage and anywhere.
    pub fn take_usual(&mut self, share: &mut Share) {
        let mut random = Random::new(0x5EED_0022_0B57_0001);
        self.take_runs(share, &mut random);
        usual::files(share, &mut |name: Arguments, file: &[u8], at: usize| {
            self.usual += 1;
            let name = name.to_string();
            // Long files have more answers on the way than are worth their time.
            if file.len() > 20_000 {
                return self.take(&name, file);
            }
            let first = (at + random.below(4)).saturating_sub(1).min(file.len());
            let second = first + random.below((file.len() - first).min(200) + 1);
            self.take_cut(&name, file, &[first, second]);
            if random.one_in(4) {
                self.take(&name, file);
            }
        });
    }

    /// Files of every case and writing that are not damaged.
    fn take_runs(&mut self, share: &Share, random: &mut Random) {
        for case in 1..=8 {
            for (n, &writing) in WRITINGS.iter().enumerate() {
                if n != case % WRITINGS.len() && share.count(1, 0) == 0 {
                    continue;
                }
                let last = [Last::Part, Last::Padded, Last::Full][(case + n) % 3];
                let one = usual::usual_in_path(random, case, 7, last, writing);
                self.take_each_byte(&one, random);
                let long = usual::usual_in_path(random, case, 130, last, writing);
                for length in LENGTHS {
                    self.take_lengths(&long, length);
                }
            }
        }
    }

    /// One burst ends at each byte from the first data line to the delimiter, alone and with a second end.
    fn take_each_byte(&mut self, one: &Usual, random: &mut Random) {
        let first = one.bytes_of(one.data.start).start;
        let past = one.bytes_of(one.data.end).end;
        for cut in first..=past {
            self.usual += 1;
            self.take_cut(&one.name, &one.file, &[cut]);
            let second = cut + random.below(past - cut + 1);
            self.take_cut(&one.name, &one.file, &[cut, second]);
        }
    }

    /// Bursts of one length, the answers asked for after some of them.
    fn take_lengths(&mut self, one: &Usual, length: usize) {
        self.usual += 1;
        for offset in [0, 1, length / 2] {
            let ends: Vec<usize> = (offset..one.file.len()).step_by(length).collect();
            self.take_cut_seldom(&one.name, &one.file, &ends, ends.len() / 12 + 1);
        }
    }
}
