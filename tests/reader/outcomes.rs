//! How often each outcome came, so that the files are known to be of use.

use crate::run::{Call, Run, Tally};

/// Each outcome must come at least so often.
const LEAST: [(usize, u32); 22] = [
    (0, 10_000),
    (1, 1),
    (2, 100),
    (3, 100),
    (4, 100),
    (5, 100),
    (6, 100),
    (7, 100),
    (8, 100),
    (9, 100),
    (10, 100),
    (11, 100),
    (12, 100),
    (13, 100),
    (14, 100),
    (15, 2),
    (16, 2),
    (18, 10_000),
    (20, 5_000),
    (21, 10_000),
    (24, 100),
    (25, 100),
];
const LEAST_OF_17: u32 = 10_000;
const LEAST_OF_A_KIND: u32 = 1_000;
/// All values of a set are there only where every number is in the exact path.
const LEAST_OF_ALL_VALUES: u32 = 5_000;
const LEAST_AT_ONCE: u32 = 1_000;
/// So many sets must be asked alone, and so many numbers and values of them shown.
const LEAST_ALONE: u32 = 10_000;
/// So many sets must have padding, beside the 4,096 of one file.
const LEAST_PADDED: usize = 4_096 + 2_000;
/// So many numbers and values that are answered must have an exponent without a letter.
const LEAST_WITHOUT_LETTER: u32 = 1_000;

const CALLS: [Call; 5] = [Call::List, Call::Number, Call::Value, Call::Values, Call::Rewrite];

/// Prints how often each outcome came.
pub fn print_tallies(run: &Run) {
    let tallies = CALLS.map(|call| run.tally(call));
    println!("refusal    lists  numbers   values  all values  rewritten");
    for number in 0..26 {
        let [a, b, c, d, e] = tallies.map(|tally| tally.came[number]);
        if a + b + c + d + e > 0 {
            println!("{number:7} {a:8} {b:8} {c:8} {d:11} {e:10}");
        }
    }
}

/// Prints how often each outcome came and ends the program if one came too seldom.
pub fn check_outcomes(run: &Run) {
    print_tallies(run);
    println!("values of the four kinds: {:?}", &run.kinds[1..]);
    println!("numbers and values without a letter: {:?}", run.without_letter);
    println!("sets with padding: {}", run.padded);
    let mut seldom = refusals_seldom(CALLS.map(|call| run.tally(call)));
    seldom |= run.padded < LEAST_PADDED;
    seldom |= run.without_letter.iter().any(|&came| came < LEAST_WITHOUT_LETTER);
    seldom |= run.kinds[1..].iter().any(|&came| came < LEAST_OF_A_KIND);
    if !run.alone {
        let [same, refused] = run.at_once;
        println!("all values as one by one: {same} sets; 21 as one of them: {refused} sets");
        seldom |= same.min(refused) < LEAST_AT_ONCE;
        let [sets, shown] = run.sets_alone;
        println!("sets alone: {sets}, with {shown} numbers and values shown");
        seldom |= sets.min(shown) < LEAST_ALONE;
    }
    if seldom {
        println!("some outcome came too seldom");
        std::process::exit(1);
    }
}

/// Did a number, or 0 for an answer, come too seldom from a call that gives it?
fn refusals_seldom(tallies: [&Tally; 5]) -> bool {
    let [lists, numbers, values, all_values, rewritten] = tallies;
    let mut seldom = lists.came[17] < LEAST_OF_17;
    for (number, least) in LEAST {
        // 18 and 21 are the reader's, 20 is not the lister's, all others every call's.
        let asked = match number {
            18 => &tallies[1..4],
            20 => &tallies[1..5],
            21 => &tallies[2..4],
            0 => &[lists, numbers, values, rewritten],
            _ => &tallies[..],
        };
        seldom |= asked.iter().any(|tally| tally.came[number] < least);
    }
    seldom | (all_values.came[0] < LEAST_OF_ALL_VALUES)
}
