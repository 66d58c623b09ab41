//! `policer-replay FOLDER`: replays the rig in a folder to standard output.
//!
//! Exit status: 0 replayed to the log's end; 2 wrong use; 3 the image was
//! refused; 4 the log ends with `cut`; 5 a file couldn't be opened; 6 a read
//! failed; 7 a write failed. The greatest that applies counts.
#![forbid(unsafe_code)]

use std::fs::File;
use std::io;
use std::os::fd::AsFd;
use std::path::Path;
use std::process::ExitCode;

use policer::Fault;

fn main() -> ExitCode {
    let mut arguments = std::env::args_os().skip(1);
    let (Some(folder), None) = (arguments.next(), arguments.next()) else {
        eprintln!("usage: policer-replay FOLDER");
        return ExitCode::from(2);
    };
    // The standard library's own output writes what a failed write left once
    // more, so the answers go past it.
    let faults = match io::stdout().as_fd().try_clone_to_owned() {
        Ok(out) => policer::replay(Path::new(&folder), &mut File::from(out)),
        Err(error) => vec![Fault::Unwritten(error)],
    };
    for message in faults.iter().filter_map(Fault::message) {
        eprintln!("policer-replay: {message}");
    }
    ExitCode::from(faults.iter().map(Fault::status).max().unwrap_or(0))
}
