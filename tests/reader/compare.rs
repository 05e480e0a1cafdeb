//! Holds the proved lister, reader and rewriter against the plain ones, file by file.
//!
//! `compare` takes the fixed files, every edge file of the judge, some tens of thousands of generated
//! files and arbitrary strings of bytes, asks both sides the same questions and stops at the first
//! difference (exit 1). All values of a set are also held against its values one by one, both of the
//! proved side, in the fixed files and where they are few. `compare --self` asks the plain side alone:
//! against the answers typed by hand, and against what must hold of its answers whatever the file is.
//! Each call has a file of its own. `compare --million` takes usual files alone, damaged with every byte value, and
//! `compare --million N` one in N of them.

mod alone;
#[path = "../common/mod.rs"]
mod common;
mod damaged;
#[path = "../judge/edges.rs"]
mod edges;
mod fixed;
#[allow(dead_code)]
#[path = "../judge/generate.rs"]
mod generate;
mod generated;
#[path = "../judge/judge.rs"]
mod judge;
mod list;
mod number;
mod outcomes;
mod padded;
mod reader;
mod rewrite;
mod run;
mod subject;
#[path = "../judge/usual.rs"]
mod usual;
mod value;
mod values;

use run::{Call, Run};
use subject::Subject;
use usual::Share;

/// Holds the plain side against the answers typed by hand; says how many there are.
fn check_fixed() -> usize {
    let mut answers = value::check_exact();
    for fixed in fixed::fixed() {
        let subject = Subject::new(fixed.name, fixed.file.as_bytes());
        for check in [list::check_fixed, number::check_fixed, value::check_fixed, values::check_fixed, rewrite::check_fixed] {
            answers += check(&subject, &fixed);
        }
    }
    answers + padded::check_padded()
}

/// So many usual files, most of them damaged, must be among those of the gate.
const LEAST_USUAL: u32 = 20_000;

/// Usual files alone, damaged with every byte value in every column.
fn million(share: &mut Share) {
    let mut run = Run::new(false);
    run.take_usual(share);
    outcomes::print_tallies(&run);
    println!("compared {} usual files", run.usual);
}

fn main() {
    if let Some(mut share) = Share::by_hand() {
        return million(&mut share);
    }
    let alone = std::env::args().any(|argument| argument == "--self");
    println!("{} answers as the papers say", check_fixed());
    let mut run = Run::new(alone);
    for fixed in fixed::fixed() {
        run.take_fixed(&fixed);
    }
    for edge in edges::edges() {
        run.take(&edge.name, &edge.file, Some(edge.reply), false);
    }
    padded::take_most_sets(&mut run);
    generated::take_generated(&mut run);
    outcomes::check_outcomes(&run);
    if alone {
        println!("the plain side alone, {} files", run.files);
        return;
    }
    alone::check_one_pass();
    run.take_usual(&mut Share::of_gate(40, false));
    println!("{} usual files, damaged ones too", run.usual);
    assert!(run.usual >= LEAST_USUAL, "too few usual files");
    let compared = |call: Call| run.tally(call).compared;
    println!(
        "compared {} files, {} lists, {} numbers, {} values, {} rewritten, {} all values, {} sets alone",
        run.files,
        compared(Call::List),
        compared(Call::Number),
        compared(Call::Value),
        compared(Call::Rewrite),
        compared(Call::Values),
        run.sets_alone[0]
    );
}
