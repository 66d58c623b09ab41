//! The kinds of cases, and what they have in common.

mod arrivals;
mod far;
mod frames;
mod histories;
mod images;
mod large;
mod lent;
mod made;
mod receptions;
mod records;
mod replays;
mod rigs;
mod runs;
mod sides;
mod steps;
mod tables;
mod tally;
mod writer;

use std::fmt::Debug;
use std::panic::{catch_unwind, AssertUnwindSafe};

use ffi::Tables;
use lent::Lent;
pub use rigs::{Rig, PORT_MAX};
pub use tally::{ByMode, Cover, Tally, What};
use trials::random::Random;
use trials::traffic::Call;

pub struct Kind {
    pub name: &'static str,
    /// How many cases a full run has, and how many any run has at least.
    pub cases: u64,
    pub fewest: u64,
    /// What a run compares.
    pub covers: &'static [Cover],
    /// What it compares by mode.
    pub modes: &'static [ByMode],
    pub run: fn(&mut Random, &mut Tally) -> Result<(), Mismatch>,
}

impl Kind {
    /// Sets the cases of one kind apart from those of another.
    pub fn salt(&self) -> u64 {
        let name = self.name.bytes();
        name.fold(0, |salt: u64, o| {
            salt.wrapping_mul(0x0100_0000_01b3) ^ (u64::from(o) << 32)
        })
    }
}

pub const KINDS: [Kind; 11] = [
    Kind {
        name: "images",
        cases: 300_000,
        fewest: 1,
        covers: &[
            (What::Image, &[], 1_000),
            (What::ReaderLoad, &[], 1_000),
            (What::ReaderPlace, &[], 1_000),
        ],
        modes: &[(What::Image, &[0, 23], &[23])],
        run: images::run,
    },
    Kind {
        name: "large",
        cases: 400,
        fewest: 60,
        covers: &[
            (What::Image, &[0, 20, 21, 22, 26], 20),
            (What::ReaderLoad, &[0, 20, 21, 22, 26], 20),
            (What::LargeImage, &[], 40),
        ],
        modes: &[],
        run: large::run,
    },
    Kind {
        name: "writer",
        cases: 150_000,
        fewest: 1,
        covers: &[(What::Write, &[], 1_000)],
        modes: &[(What::Write, &[0, 23], &[23])],
        run: writer::run,
    },
    Kind {
        name: "tables",
        cases: 200_000,
        fewest: 1,
        covers: &[
            (What::FrameCall, &[], 1_000),
            (What::Long65600, &[], 20),
            (What::Long131136, &[], 20),
        ],
        modes: &[
            (What::FrameCall, &[0, 8, 9, 10], &[10]),
            (What::Edge, &[0, 9], &[]),
        ],
        run: tables::run,
    },
    Kind {
        name: "far",
        cases: 40,
        fewest: 10,
        covers: &[(What::FarRow, &[], 10)],
        modes: &[],
        run: far::run,
    },
    Kind {
        name: "histories",
        cases: 15_000,
        fewest: 1,
        covers: &[
            (What::FrameCall, &[10], 1_000),
            (What::Isolated, &[], 1_000),
        ],
        modes: &[
            (What::FrameCall, &[0, 8, 9], &[]),
            (What::Isolated, &[0, 8, 9], &[]),
        ],
        run: histories::run,
    },
    Kind {
        name: "steps",
        cases: 40_000,
        fewest: 1,
        covers: &[
            (What::Step, &[], 1_000),
            (What::StepInPlace, &[], 1_000),
            (What::Long65600, &[], 1_000),
            (What::Long131136, &[], 1_000),
        ],
        modes: &[
            (What::Step, &[0, 8, 9, 10], &[10]),
            (What::Edge, &[0, 9], &[]),
        ],
        run: steps::run,
    },
    Kind {
        name: "frames",
        cases: 150_000,
        fewest: 1,
        covers: &[
            (What::Frame, &[], 1_000),
            (What::Long65600, &[8, 9, 10], 100),
            (What::Long131136, &[8, 9, 10], 100),
        ],
        modes: &[],
        run: frames::run,
    },
    Kind {
        name: "replays",
        cases: 600,
        fewest: 300,
        covers: &[(What::FrameCall, &[10], 100), (What::Image, &[26], 1)],
        modes: &[(What::Image, &[0], &[])],
        run: replays::run,
    },
    Kind {
        name: "arrivals",
        cases: 50_000,
        fewest: 1,
        covers: &[(What::Receive, &[], 1_000)],
        modes: &[],
        run: arrivals::run,
    },
    Kind {
        name: "receptions",
        cases: 6_000,
        fewest: 1,
        covers: &[
            (What::Receive, &[], 1_000),
            (What::ReceiveAlone, &[], 1_000),
        ],
        modes: &[],
        run: receptions::run,
    },
];

/// Two answers that should be the same, and what they were answers to.
#[derive(Default)]
pub struct Mismatch {
    pub what: String,
    pub inputs: Vec<(String, String)>,
    pub rigs: Vec<Rig>,
}

impl Mismatch {
    pub fn new(what: impl Into<String>) -> Self {
        Mismatch {
            what: what.into(),
            ..Mismatch::default()
        }
    }

    pub fn input(mut self, name: &str, value: impl Debug) -> Self {
        self.inputs.push((name.into(), format!("{value:?}")));
        self
    }

    pub fn octets(mut self, name: &str, octets: &[u8]) -> Self {
        self.inputs.push((name.into(), hex(octets)));
        self
    }

    pub fn call(self, call: &Call) -> Self {
        self.octets("frame", &call.frame)
            .input("port", call.port)
            .input("time", call.time)
    }

    pub fn tables(self, tables: &Tables) -> Self {
        self.octets("constant", &tables.constant.to_be_bytes())
            .octets("account rows", tables.accounts)
            .input("count of accounts", tables.account_count)
            .octets("link rows", tables.links)
            .input("count of links", tables.link_count)
    }

    pub fn rig(mut self, rig: Rig) -> Self {
        self.rigs.push(rig);
        self
    }
}

/// Compares; a panic is a mismatch too, so that its inputs are reported.
pub fn guarded<T>(compare: impl FnOnce() -> Result<T, Mismatch>) -> Result<T, Mismatch> {
    catch_unwind(AssertUnwindSafe(compare)).unwrap_or_else(|panic| {
        let text = panic.downcast_ref::<String>().map(String::as_str);
        let text = text.or(panic.downcast_ref::<&str>().copied());
        let text = text.unwrap_or("no text");
        Err(Mismatch::new(format!("a panic: {text}")))
    })
}

/// Octets of a run that a mismatch shows: more than the longest image has.
const SHOWN: usize = 5_000;

fn hex(octets: &[u8]) -> String {
    let shown: String = octets
        .iter()
        .take(SHOWN)
        .map(|o| format!("{o:02x}"))
        .collect();
    let more = if octets.len() > SHOWN { ".." } else { "" };
    format!("{} octets {shown}{more}", octets.len())
}

/// Rattle's answer and Rust's.
pub fn same<T: PartialEq + Debug>(what: &str, rattle: &T, rust: &T) -> Result<(), Mismatch> {
    agree(what, ("Rattle", rattle), ("Rust", rust))
}

/// Two answers, each with the name of who gave it.
pub fn agree<T: PartialEq + Debug>(
    what: &str,
    one: (&str, &T),
    other: (&str, &T),
) -> Result<(), Mismatch> {
    if one.1 == other.1 {
        return Ok(());
    }
    Err(Mismatch::new(format!(
        "{what}: not the same\n  {}: {:?}\n  {}: {:?}",
        one.0, one.1, other.0, other.1
    )))
}

/// Rattle's octets and Rust's, with what lies around them.
pub fn same_octets(what: &str, rattle: &Lent<u8>, rust: &Lent<u8>) -> Result<(), Mismatch> {
    agree_octets(what, ("Rattle", rattle.all()), ("Rust", rust.all()))
}

/// Two octet runs, shown in hex.
pub fn agree_octets(what: &str, one: (&str, &[u8]), other: (&str, &[u8])) -> Result<(), Mismatch> {
    if one.1 == other.1 {
        return Ok(());
    }
    let first = one.1.iter().zip(other.1).position(|(a, b)| a != b);
    let first = first.unwrap_or(one.1.len().min(other.1.len()));
    Err(Mismatch::new(format!(
        "{what}: not the same, first at {first}\n  {}: {}\n  {}: {}",
        one.0,
        hex(one.1),
        other.0,
        hex(other.1)
    )))
}
