//! Document 01's example, plain files built to measure, and a file's lines.

/// Document 01's example: 22 lines.
pub const EXAMPLE: &str = include_str!("../../samples/bearing.uff");

/// A 58 of a case (1 to 8) that declares one count and holds numbers for another. Its ID lines are
/// lines 3 to 7, lines 6 and 7 of the set are lines 8 and 9, the data begin at line 14.
pub fn function(case: usize, declared: usize, held: usize) -> Vec<u8> {
    const SINGLE: &str = "  1.00000E-01";
    const DOUBLE: &str = "  1.000000000000E-01";
    // ordinate type, spacing, fields of a full line, numbers in a value
    let (ordinate, spacing, fields, numbers): (u32, u32, &[&str], usize) = match case {
        1 => (2, 1, &[SINGLE; 6], 1),
        2 => (2, 0, &[SINGLE; 6], 2),
        3 => (5, 1, &[SINGLE; 6], 2),
        4 => (5, 0, &[SINGLE; 6], 3),
        5 => (4, 1, &[DOUBLE; 4], 1),
        6 => (4, 0, &[SINGLE, DOUBLE, SINGLE, DOUBLE], 2),
        7 => (6, 1, &[DOUBLE; 4], 2),
        _ => (6, 0, &[SINGLE, DOUBLE, DOUBLE], 3),
    };
    let increment = if spacing == 0 { "0.00000E+00" } else { "1.00000E-03" };
    let mut file = String::from(
        "    -1
    58
Drive end bearing
NONE
NONE
NONE
NONE
    1         1    0         0 NONE               7   3 NONE               0   0
",
    );
    file += &format!("{ordinate:10}{declared:10}{spacing:10}  0.00000E+00  {increment}  0.00000E+00\n");
    file += "        17    0    0    0 Time                 s
        12    0    0    0 Acceleration         m/s2
         0    0    0    0 NONE                 NONE
         0    0    0    0 NONE                 NONE
";
    file += &data_lines(fields, held * numbers);
    file += "    -1\n";
    file.into_bytes()
}

/// So many numbers in lines of these fields.
fn data_lines(fields: &[&str], total: usize) -> String {
    let mut lines = String::new();
    for n in 0..total {
        lines += fields[n % fields.len()];
        if (n + 1) % fields.len() == 0 || n + 1 == total {
            lines.push('\n');
        }
    }
    lines
}

/// So many sets without lines, three lines each.
pub fn empty_sets(sets: usize) -> Vec<u8> {
    b"    -1\n     1\n    -1\n".repeat(sets)
}

/// The file's lines, without their ends (all are LF here).
pub fn lines(file: &[u8]) -> Vec<Vec<u8>> {
    let mut lines: Vec<Vec<u8>> = file.split(|&b| b == b'\n').map(<[u8]>::to_vec).collect();
    lines.pop();
    lines
}

/// Lines made a file again, each with this end.
pub fn joined(lines: &[Vec<u8>], end: &[u8]) -> Vec<u8> {
    lines.iter().flat_map(|line| [line.as_slice(), end].concat()).collect()
}

/// Every line filled with blanks to column 80.
pub fn filled(file: &[u8], end: &[u8]) -> Vec<u8> {
    let mut lines = lines(file);
    for line in &mut lines {
        line.resize(80, b' ');
    }
    joined(&lines, end)
}

/// The lines that have ended in some bytes.
pub fn ends(bytes: &[u8]) -> usize {
    bytes.iter().filter(|&&b| b == b'\n').count()
}

/// Prints the first lines of some bytes, each with its number, so that every byte can be seen.
pub fn print_lines(bytes: &[u8], most: usize) {
    for (n, line) in bytes.split_inclusive(|&b| b == b'\n').take(most).enumerate() {
        println!("{:5} |{}|", n + 1, line[..line.len().min(200)].escape_ascii());
    }
}
