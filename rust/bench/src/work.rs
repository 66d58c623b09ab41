//! A million frame calls: the tables, the frames and their times, and both boxes on them.

use crate::rounds::timed;
use std::hint::black_box;
use trials::plan::{AccountRow, LinkRow, Plan};
use trials::random::Random;

/// What the brackets after a line's work say.
pub const SHARES: &str =
    "In brackets, of a thousand frames: forwarded, short, and those that find the credit stored \
                          at capacity.";
pub const CALLS: usize = 1_000_000;
pub const SMAX: u16 = 1_518;

/// How the accounts stand when a frame comes to them. The BAG is 1,000 microseconds.
#[derive(Clone, Copy, PartialEq, Eq)]
pub enum Standing {
    /// A frame a little less often than the BAG allows: most are forwarded, some are short.
    Busy,
    /// Credit at capacity: what loading left is put back before every call.
    Full,
    /// A frame so seldom that the time since the last one has nearly always filled the account again.
    Idle,
    /// Frames so often that most are short.
    Drained,
}

impl Standing {
    pub fn named(word: &str) -> Option<Self> {
        match word {
            "busy" => Some(Standing::Busy),
            "full" => Some(Standing::Full),
            "idle" => Some(Standing::Idle),
            "drained" => Some(Standing::Drained),
            _ => None,
        }
    }

    pub fn name(self) -> &'static str {
        match self {
            Standing::Busy => "busy",
            Standing::Full => "full",
            Standing::Idle => "idle",
            Standing::Drained => "drained",
        }
    }

    /// Between two frames of one account, on average, in microseconds.
    fn gap(self) -> u64 {
        match self {
            Standing::Busy | Standing::Full => 1_100,
            Standing::Idle => 100_000,
            Standing::Drained => 64,
        }
    }
}

/// The tables that loading wrote, and what it answered.
struct Tables {
    accounts: Vec<u8>,
    credits: Vec<u32>,
    lasts: Vec<u64>,
    links: Vec<u8>,
    constant: u32,
}

/// Links that share their accounts in turn, every other account in frame mode.
pub fn plan(links: usize) -> Plan {
    let accounts = links.min(64);
    Plan {
        constant: 0x0300_0000,
        accounts: (0..accounts)
            .map(|i| AccountRow {
                smax: SMAX,
                k: 0,
                jitter: 500,
                mode: (i % 2) as u8,
            })
            .collect(),
        links: (0..links)
            .map(|j| LinkRow {
                number: 100 + 3 * j as u16,
                port: (j % 32) as u8,
                mask: 1 << ((j + 1) % 32),
                smallest: 64,
                largest: SMAX,
                account: (j % accounts) as u16,
            })
            .collect(),
    }
}

fn loaded(plan: &Plan) -> Tables {
    let mut t = Tables {
        accounts: vec![0; 6 * plan.accounts.len()],
        credits: vec![0; plan.accounts.len()],
        lasts: vec![0; plan.accounts.len()],
        links: vec![0; 13 * plan.links.len()],
        constant: 0,
    };
    let said = policer::load(
        &plan.image(),
        &mut t.accounts,
        &mut t.credits,
        &mut t.lasts,
        &mut t.links,
    );
    assert_eq!(said.code, 0);
    t.constant = said.constant;
    t
}

/// A frame on one of the links.
pub struct Call {
    pub link: usize,
    pub time: u64,
}

/// The links in no order, times rising.
pub fn calls(links: usize, standing: Standing) -> Vec<Call> {
    let mut random = Random::new(1, links as u64);
    let gap = standing.gap() / links.min(64) as u64;
    let mut time = 0;
    (0..CALLS)
        .map(|_| {
            time += random.within(0, 2 * gap);
            Call {
                link: random.below(links as u64) as usize,
                time,
            }
        })
        .collect()
}

type FrameCall = fn(&[u8], u32, u64, &policer::Config, &mut [u32], &mut [u64]) -> policer::Verdict;

/// How many of a thousand frames are forwarded, are short, and find the credit stored at capacity.
struct Shares {
    forwarded: usize,
    short: usize,
    at_capacity: usize,
}

pub struct Work {
    plan: Plan,
    tables: Tables,
    frames: Vec<Vec<u8>>,
    calls: Vec<Call>,
    standing: Standing,
}

fn sum(so_far: u64, code: u8, mask: u32, credit: u32) -> u64 {
    so_far
        .wrapping_mul(31)
        .wrapping_add(u64::from(code) + u64::from(mask) + u64::from(credit))
}

impl Work {
    pub fn new(links: usize, octets: usize, standing: Standing) -> Self {
        let plan = plan(links);
        let tables = loaded(&plan);
        let frames = plan
            .links
            .iter()
            .map(|l| plan.frame(l.number, octets, &[0x55]))
            .collect();
        Work {
            plan,
            tables,
            frames,
            calls: calls(links, standing),
            standing,
        }
    }

    fn config(&self) -> policer::Config<'_> {
        policer::Config {
            constant: self.tables.constant,
            accounts: &self.tables.accounts,
            account_count: self.plan.accounts.len(),
            links: &self.tables.links,
            link_count: self.plan.links.len(),
        }
    }

    /// Credits and last times as loading left them.
    fn fresh(&self) -> (Vec<u32>, Vec<u64>) {
        (self.tables.credits.clone(), self.tables.lasts.clone())
    }

    fn account(&self, c: &Call) -> usize {
        usize::from(self.plan.links[c.link].account)
    }

    /// What stands before a call.
    fn settle(&self, c: &Call, credits: &mut [u32]) {
        if self.standing == Standing::Full {
            let a = self.account(c);
            credits[a] = self.tables.credits[a];
        }
    }

    /// The frame calls of the static library, from fresh credits and last times.
    pub fn proved(&self) -> (f64, u64) {
        let (mut credits, mut lasts) = self.fresh();
        let tables = ffi::Tables {
            constant: self.tables.constant,
            accounts: &self.tables.accounts,
            account_count: self.plan.accounts.len(),
            links: &self.tables.links,
            link_count: self.plan.links.len(),
        };
        timed(|| {
            self.calls.iter().fold(0, |so_far, c| {
                self.settle(c, &mut credits);
                let (frame, port) = (&self.frames[c.link], self.plan.links[c.link].port);
                let said = ffi::frame_call(
                    frame,
                    u32::from(port),
                    c.time,
                    &tables,
                    &mut credits,
                    &mut lasts,
                );
                sum(so_far, said.code, said.mask, said.credit)
            })
        })
    }

    /// Those of the Rust version.
    pub fn rust(&self) -> (f64, u64) {
        let (mut credits, mut lasts) = self.fresh();
        let config = self.config();
        // A call through a place that the compiler can't see into stays a call, as the static library's is.
        let call = black_box(policer::frame_call as FrameCall);
        timed(|| {
            self.calls.iter().fold(0, |so_far, c| {
                self.settle(c, &mut credits);
                let (frame, port) = (&self.frames[c.link], self.plan.links[c.link].port);
                let said = call(
                    frame,
                    u32::from(port),
                    c.time,
                    &config,
                    &mut credits,
                    &mut lasts,
                );
                sum(
                    so_far,
                    said.code(),
                    said.mask().unwrap_or(0),
                    said.credit().unwrap_or(0),
                )
            })
        })
    }

    fn shares(&self) -> Shares {
        let (mut credits, mut lasts) = self.fresh();
        let config = self.config();
        let (mut forwarded, mut short, mut at_capacity) = (0, 0, 0);
        for c in &self.calls {
            self.settle(c, &mut credits);
            let a = self.account(c);
            at_capacity += usize::from(credits[a] == self.tables.credits[a]);
            let port = u32::from(self.plan.links[c.link].port);
            let frame = &self.frames[c.link];
            match policer::frame_call(frame, port, c.time, &config, &mut credits, &mut lasts).code()
            {
                0 => forwarded += 1,
                9 => short += 1,
                _ => {}
            }
        }
        Shares {
            forwarded: forwarded * 1000 / CALLS,
            short: short * 1000 / CALLS,
            at_capacity: at_capacity * 1000 / CALLS,
        }
    }

    /// A line's words: links, octets, standing; in brackets the shares.
    pub fn describe(&self) -> String {
        let links = self.plan.links.len();
        let s = if links == 1 { "" } else { "s" };
        let octets = self.frames[0].len();
        let Shares {
            forwarded,
            short,
            at_capacity,
        } = self.shares();
        format!(
            "frame call, {links} link{s}, {octets} octets, {} ({forwarded}, {short}, {at_capacity})",
            self.standing.name()
        )
    }
}
