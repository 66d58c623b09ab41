//! Rounds of two contenders, their medians and the ratio.

use crate::work::SHARES;
use std::time::Instant;

/// An odd number of rounds, so that the median is one of them; many, since a round of frame calls is some 13 ms and the
/// machine is shared.
const ROUNDS: usize = 31;

/// The seconds that a piece of work takes, and what it gives.
pub fn timed<T>(work: impl FnOnce() -> T) -> (f64, T) {
    let start = Instant::now();
    let given = work();
    (start.elapsed().as_secs_f64(), given)
}

pub fn median(mut values: Vec<f64>) -> f64 {
    values.sort_by(f64::total_cmp);
    values[values.len() / 2]
}

/// A round of each; the first goes first or second.
pub fn in_turn<T>(
    goes_first: bool,
    first: impl FnOnce() -> T,
    second: impl FnOnce() -> T,
) -> (T, T) {
    if goes_first {
        let a = first();
        (a, second())
    } else {
        let b = second();
        (first(), b)
    }
}

/// What is measured, and what is cleared between rounds.
pub fn print_heading() {
    println!(
        "Medians of {ROUNDS} rounds, both in each round and the first in turn, after one round that isn't counted.\n\
         Frame calls: answers are summed and must be equal. Credits and last times are those of a fresh load before each\n\
         round; tables, frames and calls are not cleared, and no call changes them. Where accounts are full, a credit is\n\
         put back before each call, and both times include that.\n\
         {SHARES}\n\
         Loading: the four runs are cleared before each round and must be equal after it; within a round they are not.\n\
         Replay: outputs are compared once before the rounds, which write to /dev/null. The log is not cleared from the\n\
         system's cache.\n"
    );
    println!("| work | proved | Rust | ratio | unit |");
    println!("|---|---:|---:|---:|---|");
}

/// Times two contenders in turn, the first goes first in every other round, and prints a line; `scale` is what a second is in
/// the unit. Each answers its seconds and what it came to, which must be equal.
pub fn compare<T: PartialEq>(
    work: &str,
    unit: &str,
    scale: f64,
    mut proved: impl FnMut() -> (f64, T),
    mut rust: impl FnMut() -> (f64, T),
) {
    let (mut ours, mut theirs) = (vec![], vec![]);
    proved();
    rust();
    for round in 0..ROUNDS {
        let (a, b) = in_turn(round % 2 == 0, &mut proved, &mut rust);
        assert!(a.1 == b.1, "{work}: the two give other answers");
        ours.push(a.0);
        theirs.push(b.0);
    }
    let (a, b) = (median(ours), median(theirs));
    println!(
        "| {work} | {:.1} | {:.1} | {:.2} | {unit} |",
        a * scale,
        b * scale,
        a / b
    );
}
