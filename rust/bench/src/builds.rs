//! The static library of this build against another build's, in one run. Each is called by a process of its own, this
//! program and the other build's `bench`, that does a round whenever it is asked for one; the two are asked in turn.

use crate::frames::{SCALE, STANDINGS, UNIT};
use crate::rounds::{in_turn, median};
use crate::work::{Standing, Work, SHARES, SMAX};
use std::ffi::OsStr;
use std::io::{self, BufRead, BufReader, Write};
use std::process::{Child, ChildStdin, ChildStdout, Command, Stdio};

/// How often both processes are started anew, since where a process lies in memory changes its times.
const STARTS: usize = 9;
/// The rounds of such a pair, after one that isn't counted.
const TURNS: usize = 25;

/// A round of the static library for each line of the input: its seconds and the sum of its answers.
pub fn serve(work: &Work) {
    for _ in io::stdin().lock().lines() {
        let (seconds, sum) = work.proved();
        println!("{seconds} {sum}");
    }
}

/// A process that serves rounds.
struct Server {
    child: Child,
    ask: ChildStdin,
    answers: BufReader<ChildStdout>,
}

impl Server {
    fn start(program: &OsStr, links: usize, standing: Standing) -> Self {
        let mut child = Command::new(program)
            .arg("serve")
            .arg(links.to_string())
            .arg(SMAX.to_string())
            .arg(standing.name())
            .stdin(Stdio::piped())
            .stdout(Stdio::piped())
            .spawn()
            .expect("a program that starts");
        let ask = child.stdin.take().expect("a pipe");
        let answers = BufReader::new(child.stdout.take().expect("a pipe"));
        Server {
            child,
            ask,
            answers,
        }
    }

    fn round(&mut self) -> (f64, u64) {
        writeln!(self.ask, "round").expect("a program that listens");
        let mut line = String::new();
        self.answers.read_line(&mut line).expect("text");
        let (seconds, sum) = line.trim().split_once(' ').expect("seconds and a sum");
        let seconds = seconds.parse().expect("a number of seconds");
        (seconds, sum.parse().expect("a sum"))
    }

    fn stop(mut self) {
        drop(self.ask);
        assert!(self.child.wait().expect("an end").success());
    }
}

/// The seconds of the rounds of both, in pairs.
fn pairs(this: &OsStr, other: &OsStr, links: usize, standing: Standing) -> Vec<(f64, f64)> {
    let mut pairs = vec![];
    for start in 0..STARTS {
        let mut ours = Server::start(this, links, standing);
        let mut theirs = Server::start(other, links, standing);
        for turn in 0..=TURNS {
            let goes_first = (start + turn) % 2 == 0;
            let ((a, sum), (b, same)) = in_turn(goes_first, || ours.round(), || theirs.round());
            assert_eq!(sum, same, "the two give other answers");
            if turn > 0 {
                pairs.push((a, b));
            }
        }
        ours.stop();
        theirs.stop();
    }
    pairs
}

/// Prints the table of this build against the other one.
pub fn against(other: &str) {
    let this = std::env::current_exe().expect("a path");
    println!(
        "Medians of {} rounds of each build, in turn; the ratio is the median of those of two rounds that followed one another.\n\
         {SHARES}\n",
        STARTS * TURNS
    );
    println!("| work | this build | the other | ratio | unit |");
    println!("|---|---:|---:|---:|---|");
    for (links, standing) in STANDINGS {
        let work = Work::new(links, usize::from(SMAX), standing).describe();
        let pairs = pairs(this.as_os_str(), OsStr::new(other), links, standing);
        println!(
            "| {work} | {:.1} | {:.1} | {:.2} | {UNIT} |",
            SCALE * median(pairs.iter().map(|p| p.0).collect()),
            SCALE * median(pairs.iter().map(|p| p.1).collect()),
            median(pairs.iter().map(|p| p.0 / p.1).collect())
        );
    }
}
