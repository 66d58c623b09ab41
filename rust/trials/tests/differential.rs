//! Runs the proved library beside the plain Rust version and, where demand 3 or Q-1 speaks, the judge. Every case comes
//! from the seed, its kind and its number alone.
//!
//! `cargo test --release --offline -p trials --test differential -- [TIMES | 1/PARTS] [--seed N] [--checked]
//! [--only KIND [CASE]]`
//!
//! TIMES runs all cases so many times over, 1/PARTS one part of so many. `--checked` refuses a build that doesn't check its
//! sums; without `--release` the build is a debug build, which does.

mod kinds;

use std::fmt;
use std::hint::black_box;
use std::panic;
use std::process::ExitCode;
use std::time::{Duration, Instant};

use kinds::{guarded, Kind, Mismatch, Rig, Tally, What, KINDS, PORT_MAX};
use trials::random::Random;

const SEED: u64 = 664;
const USAGE: &str =
    "arguments: [TIMES | 1/PARTS] [--seed N] [--checked] [--only KIND [CASE]], TIMES and PARTS at least 1";

/// What a full run compares at least.
const LEAST: [(What, u64, &str); 3] = [
    (What::FrameCall, 1_000_000, "frame calls"),
    (What::Image, 100_000, "images"),
    (What::Receive, 1_000_000, "receive calls"),
];

/// How much of a full run: all cases so many times over, or one part of so many.
#[derive(Clone, Copy)]
enum Share {
    Times(u64),
    Part(u64),
}

impl Share {
    fn read(word: &str) -> Result<Self, String> {
        let share = match word.strip_prefix("1/") {
            Some(parts) => Share::Part(number(Some(parts.into()))?),
            None => Share::Times(number(Some(word.into()))?),
        };
        match share {
            Share::Times(0) | Share::Part(0) => Err(format!("'{word}' would compare nothing")),
            _ => Ok(share),
        }
    }

    fn of(self, n: u64) -> u64 {
        match self {
            Share::Times(times) => n.saturating_mul(times),
            Share::Part(parts) => n / parts,
        }
    }

    /// The cases of a kind.
    fn cases(self, kind: &Kind) -> u64 {
        self.of(kind.cases).max(kind.fewest)
    }
}

impl fmt::Display for Share {
    fn fmt(&self, f: &mut fmt::Formatter) -> fmt::Result {
        match self {
            Share::Times(1) => write!(f, "all cases"),
            Share::Times(times) => write!(f, "all cases {times} times over"),
            Share::Part(parts) => write!(f, "1/{parts} of the cases"),
        }
    }
}

struct Options {
    share: Share,
    seed: u64,
    /// Refuse a build that doesn't check its sums.
    checked: bool,
    /// One kind, and one case of it or all.
    only: Option<(&'static Kind, Option<u64>)>,
}

fn number(word: Option<String>) -> Result<u64, String> {
    let word = word.ok_or("a number is missing")?;
    word.parse().map_err(|_| format!("'{word}' is no number"))
}

fn kind(word: Option<String>) -> Result<&'static Kind, String> {
    let word = word.ok_or("a kind is missing")?;
    let found = KINDS.iter().find(|kind| kind.name == word);
    found.ok_or_else(|| {
        let names: Vec<&str> = KINDS.iter().map(|kind| kind.name).collect();
        format!("no kind '{word}'; there are {}", names.join(", "))
    })
}

fn options(words: impl Iterator<Item = String>) -> Result<Options, String> {
    let mut words = words.peekable();
    let mut options = Options {
        share: Share::Times(1),
        seed: SEED,
        checked: false,
        only: None,
    };
    while let Some(word) = words.next() {
        match word.as_str() {
            "--seed" => options.seed = number(words.next())?,
            "--checked" => options.checked = true,
            "--only" => {
                let kind = kind(words.next())?;
                let case = words.next_if(|word| !word.starts_with('-'));
                let case = case.map(|case| number(Some(case))).transpose()?;
                options.only = Some((kind, case));
            }
            _ => options.share = Share::read(&word)?,
        }
    }
    if options.checked && !sums_are_checked() {
        return Err("this build doesn't check its sums, as a debug build does".into());
    }
    Ok(options)
}

/// Whether a sum that is too large for its type panics in this build.
fn sums_are_checked() -> bool {
    let hook = panic::take_hook();
    panic::set_hook(Box::new(|_| {}));
    let sum = panic::catch_unwind(|| black_box(u8::MAX) + black_box(1));
    panic::set_hook(hook);
    sum.is_err()
}

fn report(kind: &Kind, seed: u64, case: u64, mismatch: Mismatch) {
    println!("\nMISMATCH  kind {}, seed {seed}, case {case}", kind.name);
    println!("{}", mismatch.what);
    for (name, value) in &mismatch.inputs {
        println!("  {name}: {value}");
    }
    println!("once more, in rust/:");
    let build = if sums_are_checked() { "" } else { "--release " };
    println!(
        "  cargo test {build}--offline -p trials --test differential -- --seed {seed} --only {} {case}",
        kind.name
    );
    for rig in &mismatch.rigs {
        report_rig(rig, &format!("{}-{seed}-{case}", kind.name));
    }
}

/// Keeps a rig and says how to replay it.
fn report_rig(rig: &Rig, name: &str) {
    let folder = match rig.keep(name) {
        Ok(folder) => folder,
        Err(error) => return println!("the rig could not be kept: {error}"),
    };
    println!("rig kept: {} ({})", folder.display(), rig.about);
    println!("  ./replay {}", folder.display());
    println!(
        "  (cd rust && cargo run --release --offline -p policer --bin policer-replay -- {})",
        folder.display()
    );
    if !rig.other_ports.is_empty() {
        println!(
            "  a record's port is {PORT_MAX} at most, and stands for the larger one of frames {:?}",
            rig.other_ports
        );
    }
}

/// Runs all cases of a kind; none where one of them failed, which is reported.
fn run_kind(kind: &Kind, options: &Options) -> Option<(Tally, Duration)> {
    let start = Instant::now();
    let mut tally = Tally::default();
    let cases = match options.only {
        Some((_, Some(case))) => case..case.saturating_add(1),
        _ => 0..options.share.cases(kind),
    };
    for case in cases {
        tally.cases += 1;
        let mut r = Random::new(options.seed ^ kind.salt(), case);
        // A panic that a kind doesn't catch itself has no inputs to report.
        if let Err(mismatch) = guarded(|| (kind.run)(&mut r, &mut tally)) {
            report(kind, options.seed, case, mismatch);
            return None;
        }
    }
    Some((tally, start.elapsed()))
}

/// Runs the kinds; false where a case failed or a full run left something out.
fn run(options: &Options) -> bool {
    let sums = if sums_are_checked() {
        "checked"
    } else {
        "not checked"
    };
    println!("seed {}, {}, sums {sums}", options.seed, options.share);
    let (mut total, mut elapsed) = (Tally::default(), Duration::ZERO);
    let (mut codes, mut missing) = (vec![], vec![]);
    for kind in &KINDS {
        if options.only.is_some_and(|(only, _)| only.name != kind.name) {
            continue;
        }
        let Some((tally, took)) = run_kind(kind, options) else {
            return false;
        };
        let named = |line: &String| format!("{:<10} {line}", kind.name);
        let counts = format!("{}, {:.1} s", tally.counts(), took.as_secs_f64());
        println!("{}", named(&counts));
        codes.extend(tally.codes().iter().map(named));
        codes.extend(tally.modes().iter().map(named));
        let share = |least| options.share.of(least);
        missing.extend(tally.missing(kind.covers, share).iter().map(named));
        missing.extend(tally.missing_modes(kind.modes).iter().map(named));
        elapsed += took;
        total.add(&tally);
    }
    println!(
        "{:<10} {}, {:.1} s, all the same",
        "total",
        total.counts(),
        elapsed.as_secs_f64()
    );
    println!("\nanswers by code");
    codes.iter().for_each(|line| println!("{line}"));
    options.only.is_some() || covered(options.share, &total, missing)
}

/// Says what a run should have compared and didn't.
fn covered(share: Share, total: &Tally, mut missing: Vec<String>) -> bool {
    for (what, least, name) in LEAST {
        let least = share.of(least);
        if total.sum(what) < least {
            missing.push(format!("fewer than {least} {name}"));
        }
    }
    if !missing.is_empty() {
        println!("\nNOT COVERED, though nothing differs");
        missing.iter().for_each(|line| println!("{line}"));
    }
    missing.is_empty()
}

fn main() -> ExitCode {
    match options(std::env::args().skip(1)) {
        Ok(options) if run(&options) => ExitCode::SUCCESS,
        Ok(_) => ExitCode::FAILURE,
        Err(said) => {
            eprintln!("{said}\n{USAGE}");
            ExitCode::from(2)
        }
    }
}
