//! A deterministic generator of test files for the two judges.
//!
//! `proper` writes a random list of sets in random spellings, some with padding; both judges must accept the result.
//! `faulty` does the same but now and then writes a wrong field, a wrong line, a wrong count or padding with holes.
//! `damage` changes the bytes of a finished file: bytes, lines, line ends, columns, exponents, length.
//! `arbitrary` gives strings of bytes that are a file by chance only, `long_line` one line with bad
//! bytes in any column.
//! All choices come from one xorshift generator, so a seed always gives the same files.

/// xorshift64 with a closing product.
pub struct Random(u64);

impl Random {
    /// The seed must not be zero.
    pub fn new(seed: u64) -> Random {
        Random(seed)
    }

    pub fn next(&mut self) -> u64 {
        self.0 ^= self.0 >> 12;
        self.0 ^= self.0 << 25;
        self.0 ^= self.0 >> 27;
        self.0.wrapping_mul(0x2545_F491_4F6C_DD1D)
    }

    /// From 0 up to n, n left out.
    pub fn below(&mut self, n: usize) -> usize {
        ((self.next() >> 32) as usize * n) >> 32
    }

    pub fn one_in(&mut self, n: usize) -> bool {
        self.below(n) == 0
    }

    fn span(&mut self, least: i64, greatest: i64) -> i64 {
        least + self.below((greatest - least + 1) as usize) as i64
    }

    fn pick<T: Copy>(&mut self, list: &[T]) -> T {
        list[self.below(list.len())]
    }
}

/// A generated file, the number of its lines (right for proper files only), of its exponents without a
/// letter and of its sets with padding.
pub struct Made {
    pub file: Vec<u8>,
    pub lines: u32,
    pub without_letter: u32,
    pub padded: u32,
}

/// What a real field has to be.
#[derive(Clone, Copy, PartialEq)]
enum Kind {
    Any,
    Zero,
    Above,
    NotAbove,
}

/// A proper writing of a random list of sets.
pub fn proper(random: &mut Random) -> Made {
    let mut pen = Pen::new(random, 0);
    pen.sets();
    pen.made()
}

/// The same with about one wrong thing in so many fields and lines.
pub fn faulty(random: &mut Random, one_in: usize) -> Vec<u8> {
    let mut pen = Pen::new(random, one_in);
    pen.sets();
    pen.out
}

/// A file of so many sets without lines, in random spellings, some lines blank between them.
pub fn many_sets(random: &mut Random, sets: usize) -> Made {
    let mut pen = Pen::new(random, 0);
    pen.filled = 0;
    for _ in 0..sets {
        if pen.random.one_in(50) {
            pen.blank_line();
        }
        pen.delimiter();
        let number = loop {
            let number = pen.random.span(1, 999_999);
            if !TYPED.contains(&number) {
                break number;
            }
        };
        pen.int(6, number);
        pen.end();
        pen.delimiter();
    }
    pen.made()
}

const TYPED: [i64; 5] = [58, 82, 151, 164, 1815];

const DATA_TYPES: [i64; 16] = [0, 1, 2, 3, 5, 6, 8, 9, 11, 12, 13, 15, 16, 17, 18, 19];

/// Ordinate type, spacing, field widths and numbers in a value of the eight cases.
pub const CASES: [(i64, i64, &[usize], usize); 8] = [
    (2, 1, &[13, 13, 13, 13, 13, 13], 1),
    (2, 0, &[13, 13, 13, 13, 13, 13], 2),
    (5, 1, &[13, 13, 13, 13, 13, 13], 2),
    (5, 0, &[13, 13, 13, 13, 13, 13], 3),
    (4, 1, &[20, 20, 20, 20], 1),
    (4, 0, &[13, 20, 13, 20], 2),
    (6, 1, &[20, 20, 20, 20], 2),
    (6, 0, &[13, 20, 20], 3),
];

/// Lays out one file, line by line.
struct Pen<'a> {
    random: &'a mut Random,
    out: Vec<u8>,
    line: Vec<u8>,
    lines: u32,
    without_letter: u32,
    padded: u32,
    /// Line ends: 0 for LF, 1 for CR LF, 2 for both in turn.
    ends: usize,
    /// Blanks at line ends: 0 for none, 1 for filled to column 80, 2 for anything.
    filled: usize,
    /// One wrong thing in so many; 0 for none.
    faults: usize,
}

impl<'a> Pen<'a> {
    fn new(random: &'a mut Random, faults: usize) -> Pen<'a> {
        let ends = random.below(3);
        let filled = random.pick(&[0, 0, 1, 2, 2]);
        Pen {
            random,
            out: Vec::with_capacity(4096),
            line: Vec::with_capacity(128),
            lines: 0,
            without_letter: 0,
            padded: 0,
            ends,
            filled,
            faults,
        }
    }

    fn made(self) -> Made {
        Made { file: self.out, lines: self.lines, without_letter: self.without_letter, padded: self.padded }
    }

    /// Is the next thing to be wrong?
    fn wrong(&mut self) -> bool {
        self.faults > 0 && self.random.one_in(self.faults)
    }

    // Lines

    /// Ends the line at hand, with or without blanks at its end.
    fn end(&mut self) {
        if self.wrong() {
            // Something past the fields, inside the 80 columns.
            let room = 80usize.saturating_sub(self.line.len());
            if room > 0 {
                let blanks = self.random.below(room);
                self.blanks(blanks);
                let byte = self.printable();
                self.line.push(byte);
            }
        }
        while self.line.last() == Some(&b' ') {
            self.line.pop();
        }
        let room = 80usize.saturating_sub(self.line.len());
        let blanks = match self.filled {
            0 => 0,
            1 => room,
            _ if self.random.one_in(2) => 0,
            _ => self.random.below(room + 1),
        };
        self.blanks(blanks);
        if self.ends == 1 || (self.ends == 2 && self.random.one_in(2)) {
            self.line.push(b'\r');
        }
        self.line.push(b'\n');
        self.out.extend_from_slice(&self.line);
        self.line.clear();
        self.lines += 1;
        if self.wrong() && self.random.one_in(4) {
            // An extra line: a delimiter, a blank one or a text.
            match self.random.below(3) {
                0 => self.out.extend_from_slice(b"    -1\n"),
                1 => self.out.extend_from_slice(b"\n"),
                _ => self.out.extend_from_slice(b"  extra\n"),
            }
        }
    }

    fn blanks(&mut self, n: usize) {
        self.line.resize(self.line.len() + n, b' ');
    }

    fn blank_line(&mut self) {
        if self.random.one_in(3) {
            let blanks = self.random.below(81);
            self.blanks(blanks);
        }
        self.end();
    }

    fn blank_lines(&mut self) {
        if self.random.one_in(4) {
            for _ in 0..1 + self.random.below(3) {
                self.blank_line();
            }
        }
    }

    fn delimiter(&mut self) {
        if self.wrong() {
            let near: &[u8] = self.random.pick(&[
                b"   -1".as_slice(),
                b"     -1",
                b"    -1x",
                b"    - 1",
                b"   -01",
                b"    +1",
                b"    -1     x",
                b"-1",
                b"",
            ]);
            self.line.extend_from_slice(near);
        } else {
            self.line.extend_from_slice(b"    -1");
        }
        self.end();
    }

    fn number_line(&mut self, number: i64) {
        if self.wrong() {
            let wrong: &[u8] = self.random.pick(&[
                b"".as_slice(),
                b"     0",
                b"    -0",
                b"    -1",
                b"   -58",
                b"58",
                b"    58b",
                b"     58",
                b"   5 8",
                b"     x",
                b"     +",
                b"    58                                                       1",
            ]);
            self.line.extend_from_slice(wrong);
        } else {
            self.int(6, number);
        }
        self.end();
    }

    // Texts

    fn printable(&mut self) -> u8 {
        33 + self.random.below(94) as u8
    }

    /// Puts a text of so many columns: blank, a word or any bytes.
    fn text(&mut self, width: usize) {
        let from = self.line.len();
        match self.random.below(6) {
            0 => {}
            1 => {
                for _ in 0..width {
                    let byte = 32 + self.random.below(95) as u8;
                    self.line.push(byte);
                }
            }
            2 => {
                let blanks = self.random.below(width);
                self.blanks(blanks);
                let byte = self.printable();
                self.line.push(byte);
            }
            _ => {
                let word: &[u8] = self.random.pick(&[
                    b"NONE".as_slice(),
                    b"Time",
                    b"s",
                    b"m/s2",
                    b"Drive end bearing",
                    b"12-MAR-99 08:30:00",
                    b"  1.0E+00",
                    b" -1",
                    b"   -1",
                    b"     -1",
                    b"-1",
                ]);
                self.line.extend_from_slice(&word[..word.len().min(width)]);
            }
        }
        let have = self.line.len() - from;
        self.blanks(width - have);
    }

    /// A whole line of text; never a delimiter, and not blank if it may not be.
    fn text_line(&mut self, may_be_blank: bool) {
        if self.wrong() {
            if self.random.one_in(2) {
                self.line.extend_from_slice(b"    -1");
            }
            self.end();
            return;
        }
        loop {
            let width = if self.random.one_in(6) { 80 } else { 1 + self.random.below(30) };
            self.text(width);
            let blank = self.line.iter().all(|&b| b == b' ');
            let delimiter =
                self.line.starts_with(b"    -1") && self.line[6..].iter().all(|&b| b == b' ');
            if !delimiter && (may_be_blank || !blank) {
                break;
            }
            self.line.clear();
        }
        self.end();
    }

    // Numbers

    /// Puts an integer in its columns, in any spelling.
    fn int(&mut self, width: usize, value: i64) {
        if self.wrong() {
            self.wrong_int(width);
            return;
        }
        let mut digits = [0u8; 20];
        let mut at = 20;
        let mut left = value.unsigned_abs();
        loop {
            at -= 1;
            digits[at] = b'0' + (left % 10) as u8;
            left /= 10;
            if left == 0 {
                break;
            }
        }
        let digits = &digits[at..];
        let mut room = width - digits.len();
        let mut sign = None;
        if value < 0 {
            sign = Some(b'-');
        } else if room > 0 && self.random.one_in(8) {
            let minus = value == 0 && self.random.one_in(2);
            sign = Some(if minus { b'-' } else { b'+' });
        }
        room -= usize::from(sign.is_some());
        let zeros = if self.random.one_in(8) { self.random.below(room + 1) } else { 0 };
        self.blanks(room - zeros);
        self.line.extend(sign);
        self.line.resize(self.line.len() + zeros, b'0');
        self.line.extend_from_slice(digits);
    }

    /// An integer field that is malformed, too large or off its list.
    fn wrong_int(&mut self, width: usize) {
        let mut field = vec![b' '; width];
        let last = width - 1;
        let digit = b'0' + self.random.below(10) as u8;
        match self.random.below(9) {
            0 => {}
            1 => field[self.random.below(last)] = digit,
            2 => field[last] = self.random.pick(b"+-"),
            3 => field[last] = self.printable(),
            4 => {
                field[last] = digit;
                field[0] = self.random.pick(b"+-1x");
            }
            5 => {
                for b in &mut field {
                    *b = b'0' + self.random.below(10) as u8;
                }
            }
            6 => {
                // Around the ends of the range, or off most lists.
                let near: &[u8] = self.random.pick(&[
                    b"2147483648".as_slice(),
                    b"-2147483649",
                    b"-2147483648",
                    b"002147483648",
                ]);
                if near.len() <= width {
                    field[width - near.len()..].copy_from_slice(near);
                } else {
                    field[last] = b'9';
                }
            }
            7 => {
                field[last - 1] = b'-';
                field[last] = digit;
            }
            _ => {
                field[last - 1] = b'1' + self.random.below(9) as u8;
                field[last] = digit;
            }
        }
        self.line.extend_from_slice(&field);
    }

    /// Any integer that fits its columns in some spelling.
    fn any_int(&mut self, width: usize) {
        if width >= 10 && self.random.one_in(16) {
            let mut edge = self.random.pick(&[2_147_483_647, -2_147_483_648, -2_147_483_647]);
            if width < 11 && edge < 0 {
                edge = 2_147_483_647;
            }
            self.int(width, edge);
            return;
        }
        let negative = self.random.one_in(5);
        let most = if self.random.one_in(3) { 9 } else { 3 };
        let digits = 1 + self.random.below(most);
        let digits = digits.min(if negative { width - 1 } else { width });
        let size = self.random.below(10usize.pow(digits as u32)) as i64;
        self.int(width, if negative { -size } else { size });
    }

    /// Puts a real in its columns, in any spelling.
    fn real(&mut self, width: usize, kind: Kind) {
        if self.wrong() {
            self.wrong_real(width);
            return;
        }
        let kind = match kind {
            Kind::NotAbove if self.random.one_in(2) => Kind::Zero,
            _ => kind,
        };
        let sign: &[u8] = match kind {
            Kind::NotAbove => b"-",
            Kind::Above => self.random.pick(&[b"".as_slice(), b"", b"", b"+"]),
            _ => self.random.pick(&[b"".as_slice(), b"", b"", b"-", b"-", b"+"]),
        };
        let exponent = self.exponent();
        // The point is one column more.
        let room = width - sign.len() - 1 - exponent.len();
        let most = room.min(18);
        let count = match self.random.below(8) {
            0 => 1 + self.random.below(most),
            1 => most,
            2 => 1,
            _ => most.min(width - 7),
        };
        self.blanks(room - count);
        self.line.extend_from_slice(sign);
        self.digits(count, kind);
        self.line.extend_from_slice(&exponent);
    }

    /// So many digits and a point.
    fn digits(&mut self, count: usize, kind: Kind) {
        let point = match self.random.below(8) {
            0 => 0,
            1 => count,
            2 => self.random.below(count + 1),
            _ => 1,
        };
        let mut bits = self.random.next();
        for n in 0..count {
            if n == point {
                self.line.push(b'.');
            }
            let digit = match kind {
                Kind::Zero => 0,
                Kind::Above | Kind::NotAbove if n + 1 == count => 1 + bits % 9,
                _ => bits % 10,
            };
            bits = (bits >> 3) ^ (bits << 61);
            self.line.push(b'0' + digit as u8);
        }
        if point == count {
            self.line.push(b'.');
        }
    }

    /// An exponent: a letter, a sign and two or three digits, or a sign and three digits.
    fn exponent(&mut self) -> Vec<u8> {
        let mut exponent = Vec::with_capacity(5);
        let (letter, digits) = self.random.pick(&[(true, 2), (true, 2), (true, 2), (true, 3), (false, 3)]);
        if letter {
            exponent.push(self.random.pick(b"EEEEEDed"));
        } else {
            self.without_letter += 1;
        }
        exponent.push(self.random.pick(b"+-"));
        // Any digits; now and then all the same, or zeros before the last.
        let same = self.random.pick(b"09");
        let way = self.random.below(12);
        for n in 0..digits {
            let any = b'0' + self.random.below(10) as u8;
            exponent.push(match way {
                0 => same,
                1 if n + 1 < digits => b'0',
                _ => any,
            });
        }
        exponent
    }

    /// A real field that is blank or malformed.
    fn wrong_real(&mut self, width: usize) {
        let wrong: &[u8] = self.random.pick(&[
            b"".as_slice(),
            b"1.0",
            b"10E+00",
            b"1.0E00",
            b"1.0E+0",
            b"1.0E+0000",
            b"1.0+00",
            b"1.0-10",
            b"1.0-1010",
            b"1-101",
            b".-101",
            b"-.+000",
            b"1.0 -101",
            b"1.0- 101",
            b"1.0--101",
            b"1.0-101 ",
            b"1.0E101",
            b"1.0E-1010",
            b".E+00",
            b"-.E+00",
            b"1..0E+00",
            b"1.0.E+00",
            b"1.0F+00",
            b"1.0 E+00",
            b"1.0E +00",
            b"1.0E+ 0",
            b"1 .0E+00",
            b"- 1.0E+00",
            b"--1.0E+00",
            b"+-1.0E+00",
            b"1.0E+00 ",
            b"1.0E++00",
            b"1.0EE+00",
            b"x1.0E+00",
            b"1,0E+00",
            b"NaN",
            b"1",
            b"0",
            b"1.0E+0x",
            b"1.0E+x0",
            b"1.234567890123456789E+00",
            b"1.234567890123456789-101",
            b"0000000000000000000.E+00",
            b"0000000000000000000.-000",
            b"1.23456789012345678E+00",
        ]);
        let wrong = &wrong[wrong.len().saturating_sub(width)..];
        self.blanks(width - wrong.len());
        self.line.extend_from_slice(wrong);
    }

    /// Columns that belong to no field.
    fn skip(&mut self) {
        let byte = if self.wrong() { self.printable() } else { b' ' };
        self.line.push(byte);
    }

    /// A count to be written in place of the right one.
    fn count(&mut self, right: usize) -> i64 {
        if self.wrong() {
            let edge = self.random.pick(&[0, 250, 251, 256, 257, 65_536, 65_537]);
            let off = self.random.pick(&[-6, -5, -3, -1, 1, 2, 4, 8]);
            if self.random.one_in(3) {
                edge
            } else {
                right as i64 + off
            }
        } else {
            right as i64
        }
    }

    // Sets

    fn sets(&mut self) {
        for _ in 0..1 + self.random.below(3) {
            self.blank_lines();
            let dataset = self.random.below(8);
            self.delimiter();
            match dataset {
                0..=2 => self.set_58(),
                3 => self.set_82(),
                4 => self.set_151(),
                5 => self.set_164(),
                6 => self.set_1815(),
                _ => self.set_plain(),
            }
            self.delimiter();
        }
        self.blank_lines();
    }

    fn set_plain(&mut self) {
        let number = loop {
            let number = match self.random.below(4) {
                0 => self.random.pick(&[1, 15, 55, 57, 59, 83, 152, 1814, 999_999]),
                _ => self.random.span(1, 999_999),
            };
            if !TYPED.contains(&number) {
                break number;
            }
        };
        self.number_line(number);
        for _ in 0..self.random.below(6) {
            self.text_line(true);
        }
    }

    fn set_58(&mut self) {
        self.number_line(58);
        for _ in 0..5 {
            self.text_line(false);
        }
        self.coded(5, 0, 28);
        self.any_int(10);
        self.any_int(5);
        self.any_int(10);
        for _ in 0..2 {
            self.skip();
            self.text(10);
            self.any_int(10);
            self.coded(4, -6, 6);
        }
        self.end();
        let (ordinate, spacing, widths, numbers) = self.random.pick(&CASES);
        let most = if self.random.one_in(3) { 30 } else { 8 };
        let count = 1 + self.random.below(most);
        self.int(10, ordinate);
        let shown = self.count(count);
        self.int(10, shown);
        self.int(10, spacing);
        for field in 0..3 {
            let kind = if spacing == 0 && field < 2 { Kind::Zero } else { Kind::Any };
            let kind = if self.faults > 0 && self.random.one_in(25) { Kind::Any } else { kind };
            self.real(13, kind);
        }
        self.end();
        for _ in 0..4 {
            let data_type = self.random.pick(&DATA_TYPES);
            self.int(10, data_type);
            for _ in 0..3 {
                self.any_int(5);
            }
            for _ in 0..2 {
                self.skip();
                self.text(20);
            }
            self.end();
        }
        self.data(widths, count * numbers);
    }

    /// The data lines of a 58: stored numbers, and in the last line padding now and then (request C-13).
    fn data(&mut self, widths: &[usize], stored: usize) {
        for n in 0..stored {
            self.real(widths[n % widths.len()], Kind::Any);
            if n + 1 == stored && self.random.one_in(3) {
                self.padding(&widths[n % widths.len() + 1..]);
            }
            if (n + 1) % widths.len() == 0 || n + 1 == stored {
                self.end();
            }
        }
    }

    /// Numbers in all the fields of a remainder, or, as a fault, in some of them.
    fn padding(&mut self, remainder: &[usize]) {
        self.padded += u32::from(!remainder.is_empty());
        let holes = self.wrong() || self.wrong();
        for &width in remainder {
            if holes && self.random.one_in(2) {
                self.blanks(width);
            } else {
                self.real(width, Kind::Any);
            }
        }
    }

    /// Lines of reals, the last holding what is left.
    fn reals(&mut self, widths: &[usize], numbers: usize) {
        for n in 0..numbers {
            self.real(widths[n % widths.len()], Kind::Any);
            if (n + 1) % widths.len() == 0 || n + 1 == numbers {
                self.end();
            }
        }
    }

    fn set_82(&mut self) {
        self.number_line(82);
        let number = self.random.span(1, 9_999);
        self.int(10, number);
        let most = self.random.pick(&[8, 16, 30, 30]);
        let entries = 1 + self.random.below(most);
        let shown = self.count(entries);
        self.int(10, shown);
        let colour = self.random.span(0, 15);
        self.int(10, colour);
        self.end();
        self.text_line(false);
        for n in 0..entries {
            let node = if self.random.one_in(4) { 0 } else { self.random.span(0, 2_147_483_647) };
            self.int(10, node);
            if (n + 1) % 8 == 0 || n + 1 == entries {
                self.end();
            }
        }
    }

    fn set_151(&mut self) {
        self.number_line(151);
        for n in 1..=7 {
            match n {
                4 | 5 | 7 => {
                    let from = self.line.len();
                    self.text(10);
                    if self.line[from..].starts_with(b"    -1") {
                        self.line[from] = b'x';
                    }
                    self.text(10);
                    if n == 4 && self.random.one_in(2) {
                        self.any_int(10);
                        self.any_int(10);
                        self.coded(10, 0, 2);
                    }
                    self.end();
                }
                _ => self.text_line(true),
            }
        }
    }

    fn set_164(&mut self) {
        self.number_line(164);
        self.coded(10, 1, 9);
        self.text(20);
        if self.random.one_in(2) {
            self.coded(10, 1, 2);
        }
        self.end();
        for _ in 0..3 {
            let not_above = self.faults > 0 && self.random.one_in(25);
            let kind = if not_above { Kind::NotAbove } else { Kind::Above };
            self.real(25, kind);
        }
        self.end();
        self.real(25, Kind::Any);
        self.end();
    }

    /// An integer from a list of codes.
    fn coded(&mut self, width: usize, least: i64, greatest: i64) {
        let code = if self.wrong() {
            // Just off the list.
            self.random.pick(&[least - 1, greatest + 1])
        } else {
            self.random.span(least, greatest)
        };
        self.int(width, code);
    }

    fn set_1815(&mut self) {
        const TWO: &[usize] = &[15, 15];
        self.number_line(1815);
        // 1
        self.any_int(12);
        self.text(20);
        self.end();
        // 2
        self.reals(TWO, 2);
        // 3
        self.any_int(2);
        self.coded(6, 0, 3);
        self.any_int(2);
        self.coded(6, 1, 2);
        self.any_int(12);
        self.end();
        // 4 and 5
        self.reals(TWO, 2);
        self.reals(TWO, 2);
        // 6
        for _ in 0..3 {
            self.real(15, Kind::Any);
        }
        self.any_int(12);
        self.any_int(2);
        self.end();
        // 7
        self.real(15, Kind::Any);
        self.any_int(2);
        self.any_int(12);
        self.coded(6, 0, 3);
        self.end();
        // 8
        self.any_int(12);
        self.end();
        // 9
        self.coded(6, -1, 1);
        self.real(15, Kind::Any);
        self.end();
        // 10
        self.any_int(2);
        self.coded(6, 1, 3);
        self.any_int(12);
        self.real(15, Kind::Any);
        self.real(15, Kind::Any);
        self.end();
        // 11
        self.any_int(2);
        self.coded(6, 1, 2);
        for _ in 0..3 {
            self.real(15, Kind::Any);
        }
        self.end();
        // 12
        let results = self.random.pick(&[2, 3, 5, 6, 7, 8, 9, 10, 11, 12, 13, 14]);
        self.int(6, results);
        self.coded(6, 0, 2);
        self.coded(6, 0, 3);
        for _ in 0..8 {
            self.any_int(2);
        }
        self.end();
        // 13: the columns past 20 must be blank, so the text is laid into its own
        self.text(20);
        if self.line.starts_with(b"    -1") {
            self.line[0] = b'x';
        }
        self.end();
        // 14
        self.text_line(true);
        // 15
        self.any_int(12);
        self.coded(6, 1, 2);
        self.coded(6, 0, 3);
        self.coded(6, 0, 9);
        self.any_int(2);
        self.end();
        // 16
        self.any_int(6);
        self.real(15, Kind::Any);
        self.real(15, Kind::Any);
        self.end();
        // 17
        self.any_int(2);
        self.any_int(12);
        self.real(15, Kind::Any);
        self.end();
        // 18
        self.any_int(2);
        self.end();
        // 19
        self.any_int(2);
        self.any_int(2);
        self.any_int(12);
        self.end();
        // 20 to 23
        for _ in 0..4 {
            self.text_line(true);
        }
        // 24 and the lists
        let orders = self.random.below(13);
        let display = self.random.below(13);
        for right in [orders, display] {
            let shown = self.count(right);
            self.int(12, shown);
        }
        self.end();
        for count in [orders, display] {
            self.reals(&[15; 5], count);
        }
    }
}

// Arbitrary bytes ------------------------------------------------------------------------------

/// Lines and fields of files, and their parts.
const PIECES: [&[u8]; 22] = [
    b"    -1\n", b"    -1\n", b"    -1  \r\n", b"\n", b"\r\n", b"NONE\n", b"    58\n", b"    82\n",
    b"   151\n", b"   164\n", b"  1815\n", b"     7\n", b"         1", b"         0",
    b"  1.00000E+00", b"  1.000000000000E+00", b"  1.00000-101", b"-1.0000000000000-101", b"    ", b"-1", b"x", b"\x7f",
];

/// Any bytes, bytes that files hold, pieces of files in any order, or any text as a plain set's lines.
pub fn arbitrary(random: &mut Random) -> Vec<u8> {
    let most = random.pick(&[4, 60, 600]);
    let length = random.below(most);
    match random.below(4) {
        0 => (0..length).map(|_| random.below(256) as u8).collect(),
        1 => (0..length).map(|_| random.pick(b"    0123456789+-.EeDd\r\n\n")).collect(),
        2 => (0..length / 2).flat_map(|_| random.pick(&PIECES).to_vec()).collect(),
        _ => {
            let mut file = b"    -1\n     7\n".to_vec();
            for _ in 0..length {
                file.push(if random.one_in(20) { b'\n' } else { 32 + random.below(95) as u8 });
            }
            file.extend_from_slice(b"\n    -1\n");
            file
        }
    }
}

/// One line, often about as long as a line may be, with up to four bad bytes or CRs in any column, and any
/// end or none; now and then a blank line before it and another after it.
pub fn long_line(random: &mut Random) -> Vec<u8> {
    let length = match random.below(4) {
        0 => random.below(80),
        1 | 2 => 76 + random.below(14),
        _ => random.below(400),
    };
    let mut line = vec![random.pick(b" x"); length];
    for _ in 0..random.below(5) {
        if length > 0 {
            line[random.below(length)] = random.pick(b"\t\r\r\0\x1f\x7f\x80\xff");
        }
    }
    let end: &[u8] = random.pick(&[b"\n".as_slice(), b"\r\n", b"\r\r\n", b"\r", b""]);
    let before: &[u8] = if random.one_in(4) { b" \n" } else { b"" };
    let after: &[u8] = if random.one_in(4) { b"\r\n\t" } else { b"" };
    [before, &line, end, after].concat()
}

// Damage ---------------------------------------------------------------------------------------

/// Where the lines start; the file's end is the last entry.
fn starts(file: &[u8]) -> Vec<usize> {
    let mut starts = vec![0];
    for (n, &b) in file.iter().enumerate() {
        if b == b'\n' && n + 1 < file.len() {
            starts.push(n + 1);
        }
    }
    starts.push(file.len());
    starts
}

/// Changes the first exponent from a place on, in its columns or by a column: its letter, its sign or one
/// of its digits becomes something near, comes or goes.
fn respell(random: &mut Random, file: &mut Vec<u8>, from: usize) {
    let exponent = |n: &usize| {
        let three = &file[n - 1..n + 2];
        b".0123456789EeDd".contains(&three[0]) && b"+-".contains(&three[1]) && three[2].is_ascii_digit()
    };
    let Some(sign) = (from.max(1)..file.len() - 1).find(exponent) else {
        return;
    };
    match random.below(7) {
        // The letter becomes a digit, or the digit in its place a letter.
        0 | 1 => file[sign - 1] = if file[sign - 1].is_ascii_alphabetic() { b'0' } else { b'E' },
        // One digit more stands behind the sign.
        2 => {
            file[sign - 1] = file[sign];
            file[sign] = b'0';
        }
        3 => file[sign] = random.pick(b"+-E0 "),
        4 => file[sign + 1] = random.pick(b"0123456789+-E "),
        5 => {
            file.remove(sign - random.below(2));
        }
        _ => {
            let byte = random.pick(b"0E-+ ");
            file.insert(sign + random.below(3), byte);
        }
    }
}

/// Changes a file in one random way.
pub fn damage(random: &mut Random, file: &mut Vec<u8>) {
    if file.is_empty() {
        return;
    }
    let starts = starts(file);
    let n = random.below(starts.len() - 1);
    let (from, past) = (starts[n], starts[n + 1]);
    let line = file[from..past].to_vec();
    // The line without its end.
    let mut bare = past;
    if bare > from && file[bare - 1] == b'\n' {
        bare -= 1;
        if bare > from && file[bare - 1] == b'\r' {
            bare -= 1;
        }
    }
    let at = random.below(file.len());
    match random.below(25) {
        // a byte becomes any byte
        0 => file[at] = random.below(256) as u8,
        // a byte becomes one that files hold
        1 => file[at] = random.pick(b" 0123456789+-.EeDdXx\r\n"),
        // a digit becomes another, or something near
        2 | 3 => {
            let digit = (0..file.len()).map(|n| (at + n) % file.len());
            let found = digit.into_iter().find(|&n| file[n].is_ascii_digit());
            if let Some(n) = found {
                file[n] = random.pick(b"01234567899 -");
            }
        }
        // a line is cut, its end kept or lost
        4 if bare > from => {
            let cut = from + random.below(bare - from);
            file.drain(cut..bare);
        }
        5 => {
            let cut = from + random.below(past - from);
            file.drain(cut..past);
        }
        // a line is doubled
        6 => {
            file.splice(from..from, line);
        }
        // two lines are swapped
        7 if n + 2 < starts.len() => file[from..starts[n + 2]].rotate_left(past - from),
        // a line is dropped
        8 | 9 => {
            file.drain(from..past);
        }
        // a line end is lost
        10 => {
            file.drain(bare..past);
        }
        // a CR is added
        11 => file.insert(at, b'\r'),
        12 => file.insert(bare, b'\r'),
        // a line becomes 81 columns long, or longer, or just 80
        13 => {
            let long = random.pick(&[80, 81, 81, 82, 100]);
            if bare - from < long {
                let fill = random.pick(b"  0x");
                let more = long - (bare - from);
                file.splice(bare..bare, std::iter::repeat_n(fill, more));
            }
        }
        // a delimiter in an odd place
        14 => {
            file.splice(from..from, *b"    -1\n");
        }
        15 => {
            file.splice(from..bare, *b"    -1");
        }
        // columns are blanked
        16 | 17 if bare > from => {
            let a = from + random.below(bare - from);
            let b = (a + 1 + random.below(20)).min(bare);
            file[a..b].fill(b' ');
        }
        // a whole line is blanked
        18 => file[from..bare].fill(b' '),
        // the file is cut anywhere, or after a line
        19 => file.truncate(at),
        20 => file.truncate(past),
        // bytes are appended
        21 => {
            let more: &[u8] = random.pick(&[
                b" ".as_slice(),
                b"\r",
                b"\r\n",
                b"x",
                b"x\n",
                b"\x1a",
                b"\0",
                b"    -1",
                b"    -1\n",
                b"    -1\n    58\n",
                b"  \n \r\n",
            ]);
            file.extend_from_slice(more);
        }
        // a column is lost or added
        22 => {
            file.remove(at);
        }
        23 => file.insert(at, random.pick(b" 019.-E")),
        // an exponent is spelled otherwise
        24 => respell(random, file, at),
        // the choice does not suit this line: a bit changes
        _ => file[at] ^= 1 << random.below(8),
    }
}
