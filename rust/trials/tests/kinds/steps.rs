//! Policing steps: lists on one fresh account, and single calls on any values at all.

use ffi::{StepAnswer, Terms};
use policer::Account;
use trials::plan::AccountRow;
use trials::random::Random;
use trials::traffic::{self, LONG_SIZES, SIZE_EDGES};
use trials::{damage, sound};

use super::{agree, guarded, same, sides, Mismatch, Tally, What};

/// An account on both sides.
struct Pair {
    terms: Terms,
    credit: u32,
    last: u64,
    rust: Account,
}

impl Pair {
    fn new(a: &AccountRow, credit: u32, last: u64) -> Self {
        let (smax, k, jitter, mode) = (a.smax, a.k, a.jitter, a.mode);
        Pair {
            terms: Terms {
                smax,
                k,
                jitter,
                mode,
            },
            credit,
            last,
            rust: Account {
                smax,
                k,
                jitter,
                mode,
                credit,
                last,
            },
        }
    }

    fn same_state(&self, after: &str) -> Result<(), Mismatch> {
        let ours = (self.terms, self.credit, self.last);
        let a = &self.rust;
        let terms = Terms {
            smax: a.smax,
            k: a.k,
            jitter: a.jitter,
            mode: a.mode,
        };
        same(after, &ours, &(terms, a.credit, a.last))
    }

    /// The step by value and in place, each from the same account.
    fn police(&mut self, octets: usize, time: u64) -> Result<StepAnswer, Mismatch> {
        let (mut credit, mut last) = (self.credit, self.last);
        let in_place = ffi::police_in_place(&self.terms, &mut credit, &mut last, octets, time);
        let ours = ffi::police(&self.terms, &mut self.credit, &mut self.last, octets, time);
        let theirs = sides::step(self.rust.police(octets, time));
        same("the step's answer", &ours, &theirs)?;
        self.same_state("the account after the step")?;
        let left = (in_place, credit, last);
        let rust = (theirs, self.rust.credit, self.rust.last);
        same("the step in place, credit and last time", &left, &rust)?;
        let by_value = (ours, self.credit, self.last);
        agree("the step", ("in place", &left), ("by value", &by_value))?;
        Ok(ours)
    }

    fn top_up(&mut self, time: u64) -> Result<(), Mismatch> {
        ffi::top_up(&self.terms, &mut self.credit, &mut self.last, time);
        self.rust.top_up(time);
        self.same_state("the account after the top-up")
    }

    fn figures(&self, octets: usize) -> Result<(), Mismatch> {
        let capacity = ffi::capacity(&self.terms, self.credit);
        same("the capacity", &capacity, &self.rust.capacity())?;
        let cost = ffi::cost(&self.terms, self.credit, octets);
        same("the cost", &cost, &self.rust.cost(octets))
    }
}

fn any_size(r: &mut Random, smax: u16) -> usize {
    let smax = usize::from(smax);
    match r.below(20) {
        0..=1 => r.pick(&SIZE_EDGES),
        2 if r.once_in(2) => r.pick(&LONG_SIZES),
        2 => r.pick(&[usize::MAX, (1 << 32) + 64, 1 << 63]),
        3..=4 => r.count(0, 1_600),
        5..=7 => smax + 1 - r.count(0, 2).min(smax),
        8..=12 => smax,
        _ => r.count(64, smax.max(64)),
    }
}

/// The next step of a list; no step but a late one is before the start.
fn any_step(r: &mut Random, row: &AccountRow, pair: &Pair, start: u64) -> (usize, u64) {
    let octets = any_size(r, row.smax);
    let time = if r.once_in(100) {
        traffic::wild_time(r)
    } else {
        traffic::time(r, row, pair.credit, pair.last, octets)
    };
    if time < pair.last {
        (octets, time)
    } else {
        (octets, time.max(start))
    }
}

/// All codes by the rule of demand 3.
fn judge(row: &AccountRow, steps: &[(usize, u64)], codes: &Vec<u8>) -> Result<(), Mismatch> {
    let terms = judge::Terms {
        smax: row.smax,
        k: row.k,
        jitter: row.jitter,
        mode: row.mode,
    };
    let judged = judge::step_codes(&terms, steps);
    agree("the codes", ("Rattle", codes), ("judge", &judged))
}

/// Counts a step's answer; the account is as it was before.
fn count(
    tally: &mut Tally,
    row: &AccountRow,
    mut before: Account,
    (octets, time): (usize, u64),
    answer: &StepAnswer,
) {
    tally.count(What::Step, answer.code);
    tally.count(What::StepInPlace, answer.code);
    tally.count_frame(What::Step, row, octets, (answer.code, answer.credit));
    tally.count_long(octets, || sides::step(before.police(64, time)).code);
}

/// Steps on one account from an accepted image, fresh.
fn list(r: &mut Random, tally: &mut Tally) -> Result<(), Mismatch> {
    let row = sound::account(r);
    let full = row.capacity().expect("sound") as u32;
    let mut pair = Pair::new(&row, full, 0);
    let start = if r.once_in(2) {
        0
    } else {
        traffic::wild_time(r)
    };
    let (mut steps, mut codes) = (vec![], vec![]);
    let with_inputs = |m: Mismatch, steps: &[(usize, u64)]| {
        m.input("account", row).input("steps (octets, time)", steps)
    };
    for _ in 0..r.below(80) {
        let (octets, time) = any_step(r, &row, &pair, start);
        steps.push((octets, time));
        let before = pair.rust;
        let answer = guarded(|| pair.police(octets, time)).map_err(|m| with_inputs(m, &steps))?;
        count(tally, &row, before, (octets, time), &answer);
        codes.push(answer.code);
    }
    guarded(|| judge(&row, &steps, &codes)).map_err(|m| with_inputs(m, &steps))
}

/// An account of any values: sound, just unsound, or made up.
fn any_account(r: &mut Random) -> AccountRow {
    let mut row = sound::account(r);
    match r.below(8) {
        0 => damage::account(r, &mut row),
        1 => {
            let n = r.next();
            row = AccountRow {
                smax: n as u16 >> r.below(16),
                k: (n >> 16) as u8 >> r.below(8),
                jitter: (n >> 24) as u16 >> r.below(16),
                mode: (n >> 40) as u8 >> r.below(8),
            };
        }
        _ => {}
    }
    row
}

/// A credit below, at or above the capacity, or on the way to the cost of a frame.
pub fn any_credit(r: &mut Random, a: &AccountRow, octets: usize) -> u32 {
    let capacity = a.capacity().unwrap_or(1_000_000) as u32;
    match r.below(24) {
        0..=2 => 0,
        3..=8 => capacity,
        9 => capacity.saturating_sub(1),
        10 => capacity.saturating_add(1),
        11 => r.pick(&[u32::MAX, capacity.wrapping_mul(2), 1 << 31]),
        12..=15 => near_cost(r, a, octets),
        _ => r.below(u64::from(capacity) + 1) as u32,
    }
}

/// A credit that some microseconds, often none or one, bring to the cost of a frame or to one unit under it.
fn near_cost(r: &mut Random, a: &AccountRow, octets: usize) -> u32 {
    let cost = a.cost(octets).unwrap_or(1_000_000);
    let wait = r.near(&[0, 0, 1], 0, cost / a.rate().max(1));
    cost.saturating_sub(wait * a.rate() + r.below(2)) as u32
}

/// The figures, the top-up and the step of one account.
fn single(r: &mut Random, tally: &mut Tally) -> Result<(), Mismatch> {
    let row = any_account(r);
    let octets = any_size(r, row.smax);
    let credit = any_credit(r, &row, octets);
    let last = if r.once_in(2) {
        1_000_000
    } else {
        traffic::wild_time(r)
    };
    let time = if r.once_in(5) {
        traffic::wild_time(r)
    } else {
        traffic::time(r, &row, credit, last, octets)
    };
    let pair = || Pair::new(&row, credit, last);
    let compared = guarded(|| {
        pair().figures(octets)?;
        pair().top_up(time)?;
        pair().police(octets, time)
    });
    let answer = compared.map_err(|m| {
        m.input("account", row)
            .input("credit", credit)
            .input("last time", last)
            .input("octets", octets)
            .input("time", time)
    })?;
    count(tally, &row, pair().rust, (octets, time), &answer);
    Ok(())
}

pub fn run(r: &mut Random, tally: &mut Tally) -> Result<(), Mismatch> {
    list(r, tally)?;
    for _ in 0..20 {
        single(r, tally)?;
    }
    Ok(())
}
