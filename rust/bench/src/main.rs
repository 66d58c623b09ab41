//! Times the proved box against the plain Rust version in one run, frame calls, loading and replay, or against another
//! build of itself. Prints a table of medians.
//!
//!     bench                                 the whole table
//!     bench frames|standings|images|replays a part of it
//!     bench count BOX LINKS OCTETS STANDING one round of frame calls of one box (proved, rust) and nothing else, for a
//!                                           profiler; STANDING is busy, full, idle or drained
//!     bench replay FOLDER                   the Rust version's replay, as `bench replays` runs it
//!     bench against PROGRAM                 this build's static library against that of another build's `bench`
//!     bench serve LINKS OCTETS STANDING     a round of the static library for each line of the input, as `bench against`
//!                                           asks for them
//!     bench assurance                       the figures of docs/ASSURANCE.md
//!     bench once CALL INPUT                 one exported call with one of the inputs of these figures, for a profiler

mod assurance;
mod builds;
mod frames;
mod images;
mod replays;
mod rounds;
mod work;

use std::env;
use std::process::ExitCode;
use work::{Standing, Work};

const USAGE: &str = "usage: bench [frames | standings | images | replays | count proved|rust LINKS OCTETS STANDING | \
                     replay FOLDER | against PROGRAM | serve LINKS OCTETS STANDING | assurance | once CALL INPUT]";

fn print(parts: &[fn()]) {
    rounds::print_heading();
    parts.iter().for_each(|part| part());
}

/// The work of these words, if they are links, octets and a standing.
fn work_of(links: &str, octets: &str, standing: &str) -> Option<Work> {
    let links: usize = links.parse().ok()?;
    let octets = octets.parse().ok()?;
    Some(Work::new(
        links.clamp(1, 256),
        octets,
        Standing::named(standing)?,
    ))
}

/// Does what the words say; false where they say nothing known.
fn run(words: &[&str]) -> bool {
    match *words {
        [] => print(&[
            frames::table,
            frames::standings,
            images::table,
            replays::table,
        ]),
        ["frames"] => print(&[frames::table]),
        ["standings"] => print(&[frames::standings]),
        ["images"] => print(&[images::table]),
        ["replays"] => print(&[replays::table]),
        ["replay", folder] => replays::rust(folder),
        ["against", program] => builds::against(program),
        ["count", chosen, links, octets, standing] => {
            return work_of(links, octets, standing).is_some_and(|w| frames::count(chosen, &w));
        }
        ["serve", links, octets, standing] => match work_of(links, octets, standing) {
            Some(w) => builds::serve(&w),
            None => return false,
        },
        ["assurance"] => return assurance::table(),
        ["once", call, input] => return assurance::once(call, input),
        _ => return false,
    }
    true
}

fn main() -> ExitCode {
    let words: Vec<String> = env::args().skip(1).collect();
    let words: Vec<&str> = words.iter().map(String::as_str).collect();
    if run(&words) {
        return ExitCode::SUCCESS;
    }
    eprintln!("{USAGE}");
    ExitCode::from(2)
}
