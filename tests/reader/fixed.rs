//! Fixed files with the answers that the papers give them, typed by hand. Byte places are typed too,
//! or counted here from the literal text by line and column, never through the reader.

use crate::common::files::EXAMPLE;
use crate::common::uff::Row;
use crate::reader::Number;

/// What a question about a value is answered: kind and f64, or the refusal's number.
type Value = Result<(u32, Vec<f64>), u32>;

/// What a question about all values of a set is answered.
type AllValues = Result<Vec<f64>, u32>;

pub struct Fixed {
    pub name: &'static str,
    pub file: String,
    pub rows: Vec<Row>,
    /// Set, index and the stored number there, or the refusal's number.
    pub numbers: Vec<(u32, u32, Result<Number, u32>)>,
    pub values: Vec<(u32, u32, Value)>,
    /// Set and all its values.
    pub all_values: Vec<(u32, AllValues)>,
    pub rewritten: String,
}

/// All fixed files.
pub fn fixed() -> Vec<Fixed> {
    vec![
        example(),
        example_untidy(),
        real_uneven(),
        complex_even(),
        complex_uneven(),
        double_touching(),
        double_uneven(),
        double_complex_even(),
        double_complex_even_exact(),
        double_complex_uneven(),
        double_complex_uneven_exact(),
        exact_path(),
        every_scale(),
        single_run(),
        double_run(),
        run_outside("a run, 21 in the first field", 1, 0, "  1.00000E+28"),
        run_outside("a run, 21 in a middle line", 3, 3, " -1.00000E-18"),
        run_outside("a run, 21 in the last full line", 4, 5, "  0.00000E+28"),
        run_outside("a run, 21 in the last line", 5, 1, " -0.00000E-18"),
        single_without_letter(),
        double_without_letter(),
        exact_without_letter(),
        exact_path_without_letter(),
        untidy_without_letter(),
        padded_single(),
        padded_double(),
        plain_sets(),
        messy(),
    ]
}

/// Coefficient and scale (negative or not) and what document 01's exact path makes of them.
pub fn exact() -> Vec<((bool, u64, i16), Option<f64>)> {
    vec![
        ((false, 100_000, -6), Some(0.1)),
        ((true, 5, -1), Some(-0.5)),
        ((false, 1, 0), Some(1.0)),
        ((false, 0, 0), Some(0.0)),
        ((true, 0, 0), Some(-0.0)),
        ((true, 0, 22), Some(-0.0)),
        ((true, 0, -22), Some(-0.0)),
        ((false, 0, 23), None),
        ((false, 0, -23), None),
        ((false, 1, 22), Some(1e22)),
        ((false, 1, 23), None),
        ((true, 1, -22), Some(-1e-22)),
        ((true, 1, -23), None),
        ((false, 9_007_199_254_740_992, 0), Some(9_007_199_254_740_992.0)),
        ((false, 9_007_199_254_740_993, 0), None),
        ((true, 9_007_199_254_740_992, 22), Some(-9_007_199_254_740_992e22)),
        ((false, 9_007_199_254_740_991, -22), Some(9_007_199_254_740_991e-22)),
        ((false, 123_456_789_012_345, -22), Some(1.234_567_890_123_45e-8)),
        ((false, u64::MAX, 0), None),
        ((false, 1, i16::MAX), None),
        ((false, 1, i16::MIN), None),
    ]
}

/// The byte at which a line (from 1) begins; one line past the last gives the length.
fn begins(text: &str, line: usize) -> u32 {
    text.split_inclusive('\n').take(line - 1).map(str::len).sum::<usize>() as u32
}

/// A stored number on a line in its columns (both from 1, the last column included).
fn number(
    text: &str,
    (line, from, to): (usize, u32, u32),
    negative: bool,
    coefficient: u64,
    scale: i16,
) -> Result<Number, u32> {
    let line = begins(text, line);
    Ok(Number { first: line + from - 1, past: line + to, negative, coefficient, scale })
}

fn real(y: f64) -> Value {
    Ok((1, vec![y]))
}

fn pair(y: f64, z: f64) -> Value {
    Ok((2, vec![y, z]))
}

fn point(x: f64, y: f64) -> Value {
    Ok((3, vec![x, y]))
}

fn point_pair(x: f64, y: f64, z: f64) -> Value {
    Ok((4, vec![x, y, z]))
}

/// Document 01's example, its byte places typed.
fn example() -> Fixed {
    let typed = |first, past, negative, coefficient| {
        Ok(Number { first, past, negative, coefficient, scale: -6 })
    };
    Fixed {
        name: "example",
        file: EXAMPLE.to_string(),
        rows: vec![[1, 164, 0, 0, 164, 0, 0], [7, 58, 7, 164, 672, 572, 0]],
        numbers: vec![
            (2, 0, typed(572, 585, false, 100_000)),
            (2, 1, typed(585, 598, true, 200_000)),
            (2, 2, typed(598, 611, false, 300_000)),
            (2, 5, typed(637, 650, true, 600_000)),
            (2, 6, typed(651, 664, false, 700_000)),
            (2, 7, Err(18)),
            (2, u32::MAX, Err(18)),
            (1, 0, Err(18)),
            (0, 0, Err(18)),
            (3, 0, Err(18)),
            (u32::MAX, 0, Err(18)),
        ],
        values: vec![
            (2, 0, real(0.1)),
            (2, 1, real(-0.2)),
            (2, 2, real(0.3)),
            (2, 3, real(-0.4)),
            (2, 4, real(0.5)),
            (2, 5, real(-0.6)),
            (2, 6, real(0.7)),
            (2, 7, Err(18)),
            (2, u32::MAX, Err(18)),
            (1, 0, Err(18)),
            (0, 0, Err(18)),
            (3, 0, Err(18)),
            (u32::MAX, 0, Err(18)),
        ],
        all_values: vec![
            (2, Ok(vec![0.1, -0.2, 0.3, -0.4, 0.5, -0.6, 0.7])),
            (1, Err(18)),
            (0, Err(18)),
            (3, Err(18)),
            (u32::MAX, Err(18)),
        ],
        rewritten: EXAMPLE.to_string(),
    }
}

/// The example with CR LF on every second line, every third filled to column 80, and blank lines.
fn example_untidy() -> Fixed {
    let mut file = String::from("\r\n   \n");
    for (n, line) in EXAMPLE.lines().enumerate() {
        let width = if n % 3 == 0 { 80 } else { line.len() };
        let end = if n % 2 == 0 { "\r\n" } else { "\n" };
        file += &format!("{line:width$}{end}");
    }
    file += "\n \r\n";
    // Two lines more than in the example stand before each line.
    let at = |line| begins(&file, line);
    let rows = vec![[3, 164, 0, at(3), at(9), 0, 0], [9, 58, 7, at(9), at(25), at(22), 0]];
    let numbers = vec![
        (2, 0, number(&file, (22, 1, 13), false, 100_000, -6)),
        (2, 1, number(&file, (22, 14, 26), true, 200_000, -6)),
        (2, 5, number(&file, (22, 66, 78), true, 600_000, -6)),
        (2, 6, number(&file, (23, 1, 13), false, 700_000, -6)),
        (2, 7, Err(18)),
        (1, 0, Err(18)),
    ];
    let values = vec![(2, 0, real(0.1)), (2, 6, real(0.7)), (2, 7, Err(18)), (3, 0, Err(18))];
    let all_values = vec![(2, Ok(vec![0.1, -0.2, 0.3, -0.4, 0.5, -0.6, 0.7])), (1, Err(18))];
    let rewritten = EXAMPLE.to_string();
    Fixed { name: "example, untidy", file, rows, numbers, values, all_values, rewritten }
}

/// A 58 of its own: its data begin at line 14.
fn function(ordinate: u32, count: u32, spacing: u32, data: &[&str]) -> String {
    format!(
        "    -1
    58
Drive end bearing
NONE
NONE
NONE
NONE
    1         1    0         0 NONE               7   3 NONE               0   0
{ordinate:10}{count:10}{spacing:10}  0.00000E+00  0.00000E+00  0.00000E+00
        17    0    0    0 Time                 s
        12    0    0    0 Acceleration         m/s2
         0    0    0    0 NONE                 NONE
         0    0    0    0 NONE                 NONE
{}
    -1
",
        data.join("\n")
    )
}

/// A file of one 58 in plain form: the rewriter changes nothing.
fn alone(
    name: &'static str,
    file: String,
    count: u32,
    numbers: Vec<(u32, Result<Number, u32>)>,
    values: Vec<(u32, Value)>,
    all_values: AllValues,
) -> Fixed {
    Fixed {
        name,
        rows: vec![[1, 58, count, 0, file.len() as u32, begins(&file, 14), 0]],
        numbers: numbers.into_iter().map(|(index, number)| (1, index, number)).collect(),
        values: values.into_iter().map(|(index, value)| (1, index, value)).collect(),
        all_values: vec![(1, all_values), (0, Err(18)), (2, Err(18))],
        rewritten: file.clone(),
        file,
    }
}

/// Case 2: three values a line, four values, a minus zero.
fn real_uneven() -> Fixed {
    let file = function(2, 4, 0, &[
        "  1.00000E+00 -2.50000E-01  2.00000E+00  5.00000E-01  3.00000E+00 -0.00000E+00",
        "  4.00000E+00      -.5E+00",
    ]);
    let numbers = vec![
        (0, number(&file, (14, 1, 13), false, 100_000, -5)),
        (1, number(&file, (14, 14, 26), true, 250_000, -6)),
        (5, number(&file, (14, 66, 78), true, 0, -5)),
        (6, number(&file, (15, 1, 13), false, 400_000, -5)),
        (7, number(&file, (15, 14, 26), true, 5, -1)),
        (8, Err(18)),
    ];
    let values = vec![
        (0, point(1.0, -0.25)),
        (1, point(2.0, 0.5)),
        (2, point(3.0, -0.0)),
        (3, point(4.0, -0.5)),
        (4, Err(18)),
        // Twice this index wraps to 0 in 32 bits.
        (0x8000_0000, Err(18)),
    ];
    let all_values = vec![1.0, -0.25, 2.0, 0.5, 3.0, -0.0, 4.0, -0.5];
    alone("case 2", file, 4, numbers, values, Ok(all_values))
}

/// Case 3: count 3 stores six numbers.
fn complex_even() -> Fixed {
    let file = function(5, 3, 1, &[
        "  3.00000E+00  4.00000E+00 -1.50000E+02  2.00000E-03  0.00000E+00       1.E+00",
    ]);
    let numbers = vec![
        (0, number(&file, (14, 1, 13), false, 300_000, -5)),
        (2, number(&file, (14, 27, 39), true, 150_000, -3)),
        (3, number(&file, (14, 40, 52), false, 200_000, -8)),
        (4, number(&file, (14, 53, 65), false, 0, -5)),
        (5, number(&file, (14, 66, 78), false, 1, 0)),
        (6, Err(18)),
    ];
    let values = vec![
        (0, pair(3.0, 4.0)),
        (1, pair(-150.0, 0.002)),
        (2, pair(0.0, 1.0)),
        (3, Err(18)),
        (5, Err(18)),
        (0x8000_0001, Err(18)),
    ];
    let all_values = vec![3.0, 4.0, -150.0, 0.002, 0.0, 1.0];
    alone("case 3", file, 3, numbers, values, Ok(all_values))
}

/// Case 4: two values a line, three values.
fn complex_uneven() -> Fixed {
    let file = function(5, 3, 0, &[
        "  1.00000E-03  1.00000E+00 -1.00000E+00  2.00000E-03  2.00000E+00 -2.00000E+00",
        "  3.00000E-03     3.2D+000 -3.00000E+00",
    ]);
    let numbers = vec![
        (0, number(&file, (14, 1, 13), false, 100_000, -8)),
        (3, number(&file, (14, 40, 52), false, 200_000, -8)),
        (5, number(&file, (14, 66, 78), true, 200_000, -5)),
        (7, number(&file, (15, 14, 26), false, 32, -1)),
        (8, number(&file, (15, 27, 39), true, 300_000, -5)),
        (9, Err(18)),
    ];
    let values = vec![
        (0, point_pair(0.001, 1.0, -1.0)),
        (1, point_pair(0.002, 2.0, -2.0)),
        (2, point_pair(0.003, 3.2, -3.0)),
        (3, Err(18)),
        // Three times this index wraps to 2 in 32 bits.
        (0x5555_5556, Err(18)),
    ];
    let all_values = vec![0.001, 1.0, -1.0, 0.002, 2.0, -2.0, 0.003, 3.2, -3.0];
    alone("case 4", file, 3, numbers, values, Ok(all_values))
}

/// Case 5: fields that touch, 15 digits, a minus zero.
fn double_touching() -> Fixed {
    let file = function(4, 5, 1, &[
        "-1.2345678901234E+00-9.8765432109876E-01123456789012345.E+00.000000000000001E-07",
        "            -0.0E-21",
    ]);
    let numbers = vec![
        (0, number(&file, (14, 1, 20), true, 12_345_678_901_234, -13)),
        (1, number(&file, (14, 21, 40), true, 98_765_432_109_876, -14)),
        (2, number(&file, (14, 41, 60), false, 123_456_789_012_345, 0)),
        (3, number(&file, (14, 61, 80), false, 1, -22)),
        (4, number(&file, (15, 1, 20), true, 0, -22)),
        (5, Err(18)),
    ];
    let values = vec![
        (0, real(-1.234_567_890_123_4)),
        (1, real(-0.987_654_321_098_76)),
        (2, real(123_456_789_012_345.0)),
        (3, real(1e-22)),
        (4, real(-0.0)),
        (5, Err(18)),
    ];
    let all_values =
        vec![-1.234_567_890_123_4, -0.987_654_321_098_76, 123_456_789_012_345.0, 1e-22, -0.0];
    alone("case 5", file, 5, numbers, values, Ok(all_values))
}

/// Case 6: fields of 13 and 20 columns in turn, the second pair touching.
fn double_uneven() -> Fixed {
    let file = function(4, 3, 0, &[
        "  1.00000E+00  1.234567890123E+00-1.000000E+00-1.2345678901234E-05",
        "  3.00000E+00  0.000000000000E+00",
    ]);
    let numbers = vec![
        (0, number(&file, (14, 1, 13), false, 100_000, -5)),
        (1, number(&file, (14, 14, 33), false, 1_234_567_890_123, -12)),
        (2, number(&file, (14, 34, 46), true, 1_000_000, -6)),
        (3, number(&file, (14, 47, 66), true, 12_345_678_901_234, -18)),
        (4, number(&file, (15, 1, 13), false, 300_000, -5)),
        (5, number(&file, (15, 14, 33), false, 0, -12)),
        (6, Err(18)),
    ];
    let values = vec![
        (0, point(1.0, 1.234_567_890_123)),
        (1, point(-1.0, -1.234_567_890_123_4e-5)),
        (2, point(3.0, 0.0)),
        (3, Err(18)),
    ];
    let all_values = vec![1.0, 1.234_567_890_123, -1.0, -1.234_567_890_123_4e-5, 3.0, 0.0];
    alone("case 6", file, 3, numbers, values, Ok(all_values))
}

/// Case 7: an imaginary part outside the exact path takes its real part with it.
fn double_complex_even() -> Fixed {
    let file = function(6, 3, 1, &[
        "  1.000000000000E+00 -2.000000000000E+00-3.3000000000000E+01+4.4000000000000E+01",
        "  5.000000000000E+00  6.000000000000E+40",
    ]);
    let numbers = vec![
        (0, number(&file, (14, 1, 20), false, 1_000_000_000_000, -12)),
        (1, number(&file, (14, 21, 40), true, 2_000_000_000_000, -12)),
        (2, number(&file, (14, 41, 60), true, 33_000_000_000_000, -12)),
        (3, number(&file, (14, 61, 80), false, 44_000_000_000_000, -12)),
        (4, number(&file, (15, 1, 20), false, 5_000_000_000_000, -12)),
        (5, number(&file, (15, 21, 40), false, 6_000_000_000_000, 28)),
        (6, Err(18)),
    ];
    let values =
        vec![(0, pair(1.0, -2.0)), (1, pair(-33.0, 44.0)), (2, Err(21)), (3, Err(18))];
    alone("case 7", file, 3, numbers, values, Err(21))
}

/// Case 7 with every number in the exact path; the last line holds one value.
fn double_complex_even_exact() -> Fixed {
    let file = function(6, 3, 1, &[
        "  1.000000000000E+00 -2.000000000000E+00-3.3000000000000E+01+4.4000000000000E+01",
        " -0.000000000000E+00  6.000000000000E+34",
    ]);
    let numbers = vec![
        (4, number(&file, (15, 1, 20), true, 0, -12)),
        (5, number(&file, (15, 21, 40), false, 6_000_000_000_000, 22)),
        (6, Err(18)),
    ];
    let values = vec![(0, pair(1.0, -2.0)), (1, pair(-33.0, 44.0)), (2, pair(-0.0, 6e34))];
    let all_values = vec![1.0, -2.0, -33.0, 44.0, -0.0, 6e34];
    alone("case 7, all exact", file, 3, numbers, values, Ok(all_values))
}

/// Case 8: one value a line; an abscissa outside the exact path takes its ordinate with it.
fn double_complex_uneven() -> Fixed {
    let file = function(6, 2, 0, &[
        "  5.00000E-01  1.500000000000E+00 -2.500000000000E+00",
        "  1.00000E+30  3.500000000000E+00 -4.500000000000E+00",
    ]);
    let numbers = vec![
        (0, number(&file, (14, 1, 13), false, 500_000, -6)),
        (1, number(&file, (14, 14, 33), false, 1_500_000_000_000, -12)),
        (2, number(&file, (14, 34, 53), true, 2_500_000_000_000, -12)),
        (3, number(&file, (15, 1, 13), false, 100_000, 25)),
        (5, number(&file, (15, 34, 53), true, 4_500_000_000_000, -12)),
        (6, Err(18)),
    ];
    let values = vec![(0, point_pair(0.5, 1.5, -2.5)), (1, Err(21)), (2, Err(18))];
    alone("case 8", file, 2, numbers, values, Err(21))
}

/// Case 8 with every number in the exact path.
fn double_complex_uneven_exact() -> Fixed {
    let file = function(6, 3, 0, &[
        "  5.00000E-01  1.500000000000E+00 -2.500000000000E+00",
        "-1.000000E-16-9.9999999999999E-09+0.000000000000d+000",
        "       2.E+22            -.25E-20  1.000000000000E-10",
    ]);
    let numbers = vec![
        (3, number(&file, (15, 1, 13), true, 1_000_000, -22)),
        (4, number(&file, (15, 14, 33), true, 99_999_999_999_999, -22)),
        (5, number(&file, (15, 34, 53), false, 0, -12)),
        (7, number(&file, (16, 14, 33), true, 25, -22)),
        (9, Err(18)),
    ];
    let values = vec![(0, point_pair(0.5, 1.5, -2.5)), (2, point_pair(2e22, -2.5e-21, 1e-10))];
    let all_values = vec![
        0.5, 1.5, -2.5, -1e-16, -9.999_999_999_999_9e-9, 0.0, 2e22, -2.5e-21, 1e-10,
    ];
    alone("case 8, all exact", file, 3, numbers, values, Ok(all_values))
}

/// The ends of the exact path, for zero too.
fn exact_path() -> Fixed {
    let file = function(4, 8, 1, &[
        "              1.E+22              1.E+23              1.E-22              1.E-23",
        "             0.0E+99           -0.0E+023            0.0E-022  123.4567890123E+12",
    ]);
    let numbers = vec![
        (0, number(&file, (14, 1, 20), false, 1, 22)),
        (1, number(&file, (14, 21, 40), false, 1, 23)),
        (3, number(&file, (14, 61, 80), false, 1, -23)),
        (4, number(&file, (15, 1, 20), false, 0, 98)),
        (5, number(&file, (15, 21, 40), true, 0, 22)),
        (6, number(&file, (15, 41, 60), false, 0, -23)),
        (7, number(&file, (15, 61, 80), false, 1_234_567_890_123, 2)),
    ];
    let values = vec![
        (0, real(1e22)),
        (1, Err(21)),
        (2, real(1e-22)),
        (3, Err(21)),
        (4, Err(21)),
        (5, real(-0.0)),
        (6, Err(21)),
        (7, real(123_456_789_012_300.0)),
        (8, Err(18)),
    ];
    alone("exact path", file, 8, numbers, values, Err(21))
}

/// Every scale of the exact path with coefficients of 0, 1 and 15 digits; the values are by Rust's own powers of ten.
fn every_scale() -> Fixed {
    const TENS: [f64; 23] = [
        1e0, 1e1, 1e2, 1e3, 1e4, 1e5, 1e6, 1e7, 1e8, 1e9, 1e10, 1e11, 1e12, 1e13, 1e14, 1e15, 1e16, 1e17, 1e18, 1e19, 1e20,
        1e21, 1e22,
    ];
    let mut data = Vec::new();
    let mut all_values = Vec::new();
    for scale in -22_i32..=22 {
        let ten = TENS[scale.unsigned_abs() as usize];
        let coefficients = [0_u64, 1, 123_456_789_012_345, 999_999_999_999_999];
        data.push(coefficients.map(|c| format!("{c:>15}.E{scale:+03}")).concat());
        all_values.extend(coefficients.map(|c| if scale < 0 { c as f64 / ten } else { c as f64 * ten }));
    }
    let lines: Vec<&str> = data.iter().map(String::as_str).collect();
    let file = function(4, 180, 1, &lines);
    let values = (0..180).map(|i| (i, real(all_values[i as usize]))).collect();
    alone("every scale of the exact path", file, 180, Vec::new(), values, Ok(all_values))
}

/// Full lines in the usual spelling of E13.5 and a last one in part: both zeros, the scales -22 and 22.
const SINGLE_RUN: [&str; 5] = [
    "  1.00000E-01 -2.00000E-01  3.14159E+00  0.00000E+00 -0.00000E+00  9.99999E+27",
    "  1.00000E-17 -1.00000E-17  0.00000E+27 -0.00000E-17  1.00000E+27 -9.99999E-17",
    "  0.00001E+27 -0.00001E-17  1.00000E+05 -1.00000E+06  1.00000E+04  5.00000E-05",
    "  9.99999E+05 -9.99999E+04  1.23456E+00 -6.54321E+10  0.10000E+01 -0.99999E-10",
    "  1.23456E+05 -0.00001E+00",
];

fn single_run() -> Fixed {
    let file = function(2, 26, 1, &SINGLE_RUN);
    let numbers = vec![
        (4, number(&file, (14, 53, 65), true, 0, -5)),
        (5, number(&file, (14, 66, 78), false, 999_999, 22)),
        (11, number(&file, (15, 66, 78), true, 999_999, -22)),
        (12, number(&file, (16, 1, 13), false, 1, 22)),
        (23, number(&file, (17, 66, 78), true, 99_999, -15)),
        (24, number(&file, (18, 1, 13), false, 123_456, 0)),
        (25, number(&file, (18, 14, 26), true, 1, -5)),
        (26, Err(18)),
    ];
    #[rustfmt::skip]
    let all_values = vec![
        0.1, -0.2, 3.14159, 0.0, -0.0, 9.99999e27,
        1e-17, -1e-17, 0.0, -0.0, 1e27, -9.99999e-17,
        1e22, -1e-22, 1e5, -1e6, 1e4, 5e-5,
        999_999.0, -99_999.9, 1.23456, -65_432_100_000.0, 1.0, -9.9999e-11,
        123_456.0, -1e-5,
    ];
    let values = (0..26).map(|i| (i, real(all_values[i as usize]))).collect();
    alone("a run of E13.5", file, 26, numbers, values, Ok(all_values))
}

/// The same with a number outside the exact path in a field (from 0) of a line (from 1): all values are 21.
fn run_outside(name: &'static str, line: usize, field: usize, text: &str) -> Fixed {
    let mut lines = SINGLE_RUN.map(String::from);
    lines[line - 1].replace_range(13 * field..13 * field + 13, text);
    let file = function(2, 26, 1, &lines.each_ref().map(String::as_str));
    let index = (6 * (line - 1) + field) as u32;
    alone(name, file, 26, Vec::new(), vec![(index, Err(21))], Err(21))
}

/// Full lines in the usual spelling of E20.12, with D, and a last one in part.
fn double_run() -> Fixed {
    let file = function(4, 13, 1, &[
        "  1.000000000000D-01 -2.000000000000D-01  3.141592653590D+00 -0.000000000000D+00",
        "  9.999999999999D+34 -9.999999999999D-10  1.000000000000D+12 -1.000000000000D+34",
        "  0.000000000001D+34 -0.000000000001D-10  1.234567890123D+12 -0.000000000000D-10",
        " -7.000000000000D+00",
    ]);
    let numbers = vec![
        (4, number(&file, (15, 1, 20), false, 9_999_999_999_999, 22)),
        (5, number(&file, (15, 21, 40), true, 9_999_999_999_999, -22)),
        (12, number(&file, (17, 1, 20), true, 7_000_000_000_000, -12)),
        (13, Err(18)),
    ];
    #[rustfmt::skip]
    let all_values = vec![
        0.1, -0.2, 3.14159265359, -0.0,
        9.999999999999e34, -9.999999999999e-10, 1e12, -1e34,
        1e22, -1e-22, 1_234_567_890_123.0, -0.0,
        -7.0,
    ];
    let values = (0..13).map(|i| (i, real(all_values[i as usize]))).collect();
    alone("a run of E20.12", file, 13, numbers, values, Ok(all_values))
}

/// Exponents without a letter in E13.5; with the letter `1.0E+005` is the same number as `1.0+005`.
fn single_without_letter() -> Fixed {
    let file = function(2, 9, 1, &[
        "      1.0+005     1.0E+005       1.-101       .5-999      -.5+000     +0.0-000",
        "     -0.0+999-1.234567-10112345678.+000",
    ]);
    let numbers = vec![
        (0, number(&file, (14, 1, 13), false, 10, 4)),
        (1, number(&file, (14, 14, 26), false, 10, 4)),
        (2, number(&file, (14, 27, 39), false, 1, -101)),
        (3, number(&file, (14, 40, 52), false, 5, -1000)),
        (4, number(&file, (14, 53, 65), true, 5, -1)),
        (5, number(&file, (14, 66, 78), false, 0, -1)),
        (6, number(&file, (15, 1, 13), true, 0, 998)),
        (7, number(&file, (15, 14, 26), true, 1_234_567, -107)),
        (8, number(&file, (15, 27, 39), false, 12_345_678, 0)),
        (9, Err(18)),
    ];
    let values = vec![
        (0, real(100_000.0)),
        (1, real(100_000.0)),
        (2, Err(21)),
        (3, Err(21)),
        (4, real(-0.5)),
        (5, real(0.0)),
        (6, Err(21)),
        (7, Err(21)),
        (8, real(12_345_678.0)),
        (9, Err(18)),
    ];
    alone("E13.5 without a letter", file, 9, numbers, values, Err(21))
}

/// The same in E20.12, fields that touch among them.
fn double_without_letter() -> Fixed {
    let file = function(4, 6, 1, &[
        " -1.234567890123-101-1.0000000000000-101-1.0000000000000-1011.23456789012345-101",
        "             1.0+005-.12345678901234+014",
    ]);
    let numbers = vec![
        (0, number(&file, (14, 1, 20), true, 1_234_567_890_123, -113)),
        (1, number(&file, (14, 21, 40), true, 10_000_000_000_000, -114)),
        (2, number(&file, (14, 41, 60), true, 10_000_000_000_000, -114)),
        (3, number(&file, (14, 61, 80), false, 123_456_789_012_345, -115)),
        (4, number(&file, (15, 1, 20), false, 10, 4)),
        (5, number(&file, (15, 21, 40), true, 12_345_678_901_234, 0)),
        (6, Err(18)),
    ];
    let values = vec![
        (0, Err(21)),
        (1, Err(21)),
        (2, Err(21)),
        (3, Err(21)),
        (4, real(100_000.0)),
        (5, real(-12_345_678_901_234.0)),
        (6, Err(18)),
    ];
    alone("E20.12 without a letter", file, 6, numbers, values, Err(21))
}

/// Case 8 without any letter, every number in the exact path.
fn exact_without_letter() -> Fixed {
    let file = function(6, 2, 0, &[
        "  1.00000+027  1.000000000000-010 -0.000000000000+034",
        "-1.000000+005-2.5000000000000+000 +0.000000000000-000",
    ]);
    let numbers = vec![
        (0, number(&file, (14, 1, 13), false, 100_000, 22)),
        (1, number(&file, (14, 14, 33), false, 1_000_000_000_000, -22)),
        (2, number(&file, (14, 34, 53), true, 0, 22)),
        (3, number(&file, (15, 1, 13), true, 1_000_000, -1)),
        (4, number(&file, (15, 14, 33), true, 25_000_000_000_000, -13)),
        (5, number(&file, (15, 34, 53), false, 0, -12)),
        (6, Err(18)),
    ];
    let values =
        vec![(0, point_pair(1e27, 1e-10, -0.0)), (1, point_pair(-1e5, -2.5, 0.0)), (2, Err(18))];
    let all_values = vec![1e27, 1e-10, -0.0, -1e5, -2.5, 0.0];
    alone("case 8 without a letter", file, 2, numbers, values, Ok(all_values))
}

/// The ends of the exact path without a letter.
fn exact_path_without_letter() -> Fixed {
    let file = function(2, 6, 1, &[
        "       1.+022       1.+023       1.-022       1.-023       0.+022      -0.+023",
    ]);
    let numbers = vec![
        (0, number(&file, (14, 1, 13), false, 1, 22)),
        (1, number(&file, (14, 14, 26), false, 1, 23)),
        (2, number(&file, (14, 27, 39), false, 1, -22)),
        (3, number(&file, (14, 40, 52), false, 1, -23)),
        (4, number(&file, (14, 53, 65), false, 0, 22)),
        (5, number(&file, (14, 66, 78), true, 0, 23)),
    ];
    let values = vec![
        (0, real(1e22)),
        (1, Err(21)),
        (2, real(1e-22)),
        (3, Err(21)),
        (4, real(0.0)),
        (5, Err(21)),
        (6, Err(18)),
    ];
    alone("exact path without a letter", file, 6, numbers, values, Err(21))
}

/// A 164 and a 58 of case 8 without any letter, line 7 too.
const WITHOUT_LETTER: &str = "    -1
   164
         1SI: Meter (newton)           2
  1.00000000000000000-101  0.00000000000000001-999 +123456789012345678.+999
 -.123456789012345678+000
    -1
    -1
    58
Drive end bearing
NONE
NONE
NONE
NONE
    1         1    0         0 NONE               7   3 NONE               0   0
         6         1         0  0.00000-101     -0.0+999 -1.00000-101
        17    0    0    0 Time                 s
        12    0    0    0 Acceleration         m/s2
         0    0    0    0 NONE                 NONE
         0    0    0    0 NONE                 NONE
-1.000000-101-1.0000000000000-101+0.0000000000000+005
    -1
";

/// The same with CR LF and filled to column 80: the rewriter keeps the spelling of every number.
fn untidy_without_letter() -> Fixed {
    let file: String = WITHOUT_LETTER.lines().map(|line| format!("{line:80}\r\n")).collect();
    let at = |line| begins(&file, line);
    let numbers = vec![
        (2, 0, number(&file, (20, 1, 13), true, 1_000_000, -107)),
        (2, 1, number(&file, (20, 14, 33), true, 10_000_000_000_000, -114)),
        (2, 2, number(&file, (20, 34, 53), false, 0, -8)),
        (2, 3, Err(18)),
        (1, 0, Err(18)),
    ];
    Fixed {
        name: "untidy, without a letter",
        rows: vec![[1, 164, 0, 0, at(7), 0, 0], [7, 58, 1, at(7), at(22), at(20), 0]],
        numbers,
        values: vec![(2, 0, Err(21)), (2, 1, Err(18)), (1, 0, Err(18))],
        all_values: vec![(1, Err(18)), (2, Err(21)), (3, Err(18))],
        rewritten: WITHOUT_LETTER.to_string(),
        file,
    }
}

/// Document 01's example with its last line full, after a copy of itself: the padding is in no answer but the seventh.
fn padded_single() -> Fixed {
    let padding = " -1.00000E-01      -.5E+00     1.0E+999  1.00000-101 -0.00000E+00";
    let last = "  7.00000E-01\n";
    let full = EXAMPLE.replace(last, &format!("  7.00000E-01{padding}\n"));
    let file = format!("{EXAMPLE}{full}");
    let numbers = vec![
        (4, 0, Ok(Number { first: 1244, past: 1257, negative: false, coefficient: 100_000, scale: -6 })),
        (4, 6, Ok(Number { first: 1323, past: 1336, negative: false, coefficient: 700_000, scale: -6 })),
        (4, 7, Err(18)),
        (4, 11, Err(18)),
        (2, 7, Err(18)),
    ];
    Fixed {
        name: "example, and with padding",
        // The padding takes 65 bytes; the first copy ends at byte 672.
        rows: vec![
            [1, 164, 0, 0, 164, 0, 0],
            [7, 58, 7, 164, 672, 572, 0],
            [23, 164, 0, 672, 836, 0, 0],
            [29, 58, 7, 836, 1409, 1244, 5],
        ],
        numbers,
        values: vec![(4, 0, real(0.1)), (4, 6, real(0.7)), (4, 7, Err(18)), (4, 11, Err(18))],
        all_values: vec![
            (2, Ok(vec![0.1, -0.2, 0.3, -0.4, 0.5, -0.6, 0.7])),
            (4, Ok(vec![0.1, -0.2, 0.3, -0.4, 0.5, -0.6, 0.7])),
        ],
        rewritten: EXAMPLE.repeat(2),
        file,
    }
}

/// Case 6, CR LF and filled to column 80: one value of two counts in the last line, and the fields touch.
fn padded_double() -> Fixed {
    let bare = function(4, 3, 0, &[
        "  1.00000E+00  2.000000000000E+00  3.00000E+00 -4.000000000000E+00",
        "  5.00000E+00-6.0000000000000E+00",
    ]);
    let touching = "-6.0000000000000E+00";
    let full = bare.replace(touching, &format!("{touching}-7.000000E+99-8.0000000000000-300"));
    let file: String = full.lines().map(|line| format!("{line:80}\r\n")).collect();
    let at = |line| begins(&file, line);
    let numbers = vec![
        (1, 3, number(&file, (14, 47, 66), true, 4_000_000_000_000, -12)),
        (1, 4, number(&file, (15, 1, 13), false, 500_000, -5)),
        (1, 5, number(&file, (15, 14, 33), true, 60_000_000_000_000, -13)),
        (1, 6, Err(18)),
    ];
    Fixed {
        name: "case 6 with padding, untidy",
        rows: vec![[1, 58, 3, 0, at(17), at(14), 2]],
        numbers,
        values: vec![(1, 1, point(3.0, -4.0)), (1, 2, point(5.0, -6.0)), (1, 3, Err(18))],
        all_values: vec![(1, Ok(vec![1.0, 2.0, 3.0, -4.0, 5.0, -6.0])), (2, Err(18))],
        rewritten: bare,
        file,
    }
}

/// Blank lines outside sets, an empty plain set, blank lines inside a plain one; places typed.
fn plain_sets() -> Fixed {
    let file = concat!(
        "\n",
        "   \r\n",
        "    -1\n",
        "     1\n",
        "    -1\n",
        "\n",
        "    -1   \r\n",
        "+00015  \n",
        "    -1x\n",
        "\n",
        "   \n",
        "    -1\n",
        " \n",
    );
    let rewritten = concat!(
        "    -1\n",
        "     1\n",
        "    -1\n",
        "    -1\n",
        "    15\n",
        "    -1x\n",
        "\n",
        "\n",
        "    -1\n",
    );
    Fixed {
        name: "plain sets",
        file: file.to_string(),
        rows: vec![[3, 1, 0, 6, 27, 0, 0], [7, 15, 0, 28, 68, 0, 0]],
        numbers: vec![(0, 0, Err(18)), (1, 0, Err(18)), (2, 0, Err(18)), (3, 0, Err(18))],
        values: vec![(0, 0, Err(18)), (1, 0, Err(18)), (2, 0, Err(18)), (3, 0, Err(18))],
        all_values: vec![(0, Err(18)), (1, Err(18)), (2, Err(18)), (3, Err(18))],
        rewritten: rewritten.to_string(),
    }
}

/// Odd spellings, ends and blanks everywhere, and what the rewriter makes of them.
fn messy() -> Fixed {
    let file = concat!(
        "\r\n",
        "          \n",
        "    -1          \r\n",
        "000151\r\n",
        "  model file   \r\n",
        "\r\n",
        "   \n",
        "prog      ver               +1      -002         0     \n",
        "12-MAR-99 08:30:00  \r\n",
        "I-DEAS\n",
        "                    \n",
        "    -1 \n",
        "\n",
        "    -1\r\n",
        "   +58   \r\n",
        " leading blank kept   \r\n",
        "NONE \n",
        "x\n",
        "   -1 \n",
        "~!last  ID\r\n",
        "   +1        -000000        +0                   07  +3 NONE               0  -6\r\n",
        "        +5         2         0       .0E+99     -0.D-000  1.00000e+00   \n",
        "        17    0  -00   +1 Time                 s     \r\n",
        "         0    0    0    0                                      \n",
        "         0    0    0    0                      m/s2\n",
        "         0    0    0    0 NONE\n",
        "  1.00000E-03       2.E+00     -3.0d+0012345678.E+00.12345678E+00-1.000000E-99  \r\n",
        "    -1                                                                          \n",
        "    -1\n",
        "    82  \n",
        "         1        +9        00   \r\n",
        "  trace \n",
        "         1         2         3         4         0         6         70000000008\n",
        "        +9 \r\n",
        "    -1  \r\n",
        "    -1\n",
        "999999\n",
        "\r\n",
        "   kept   so   \r\n",
        " \n",
        "    -1\n",
        "                                                                                \r\n",
    );
    let rewritten = concat!(
        "    -1\n",
        "   151\n",
        "  model file\n",
        "\n",
        "\n",
        "prog      ver               +1      -002         0\n",
        "12-MAR-99 08:30:00\n",
        "I-DEAS\n",
        "\n",
        "    -1\n",
        "    -1\n",
        "    58\n",
        " leading blank kept\n",
        "NONE\n",
        "x\n",
        "   -1\n",
        "~!last  ID\n",
        "   +1        -000000        +0                   07  +3 NONE               0  -6\n",
        "        +5         2         0       .0E+99     -0.D-000  1.00000e+00\n",
        "        17    0  -00   +1 Time                 s\n",
        "         0    0    0    0\n",
        "         0    0    0    0                      m/s2\n",
        "         0    0    0    0 NONE\n",
        "  1.00000E-03       2.E+00     -3.0d+0012345678.E+00.12345678E+00-1.000000E-99\n",
        "    -1\n",
        "    -1\n",
        "    82\n",
        "         1        +9        00\n",
        "  trace\n",
        "         1         2         3         4         0         6         70000000008\n",
        "        +9\n",
        "    -1\n",
        "    -1\n",
        "999999\n",
        "\n",
        "   kept   so\n",
        "\n",
        "    -1\n",
    );
    let at = |line| begins(file, line);
    let numbers = vec![
        (2, 0, number(file, (27, 1, 13), false, 100_000, -8)),
        (2, 1, number(file, (27, 14, 26), false, 2, 0)),
        (2, 2, number(file, (27, 27, 39), true, 30, -1)),
        (2, 3, number(file, (27, 40, 52), false, 12_345_678, 0)),
        (2, 4, number(file, (27, 53, 65), false, 12_345_678, -8)),
        (2, 5, number(file, (27, 66, 78), true, 1_000_000, -105)),
        (2, 6, Err(18)),
        (1, 0, Err(18)),
        (3, 0, Err(18)),
        (4, 0, Err(18)),
        (5, 0, Err(18)),
    ];
    Fixed {
        name: "messy",
        file: file.to_string(),
        rows: vec![
            [3, 151, 0, at(3), at(13), 0, 0],
            [14, 58, 2, at(14), at(29), at(27), 0],
            [29, 82, 0, at(29), at(36), 0, 0],
            [36, 999_999, 0, at(36), at(42), 0, 0],
        ],
        numbers,
        values: vec![
            (2, 0, point_pair(0.001, 2.0, -3.0)),
            (2, 1, Err(21)),
            (2, 2, Err(18)),
            (3, 0, Err(18)),
            (5, 0, Err(18)),
        ],
        all_values: vec![(1, Err(18)), (2, Err(21)), (3, Err(18)), (4, Err(18)), (5, Err(18))],
        rewritten: rewritten.to_string(),
    }
}
