//! Frame calls on a plan, aimed at the edges of its rules and at the moment when an account's credit just suffices.

use crate::damage::any_index;
use crate::plan::{AccountRow, LinkRow, Plan};
use crate::random::Random;

#[derive(Debug, Clone, PartialEq, Eq)]
pub struct Call {
    pub frame: Vec<u8>,
    pub port: u32,
    pub time: u64,
}

/// Sizes at the edges of rules that hold for every frame.
pub const SIZE_EDGES: [usize; 12] = [0, 1, 5, 6, 7, 63, 64, 65, 1_517, 1_518, 1_519, 1_600];

/// Sizes that are those of a frame of 64 octets where a length is cut to 16 bits.
pub const LONG_SIZES: [usize; 2] = [65_600, 131_136];

/// The first time, not before the last, at which the credit suffices for a frame; none where it never does.
fn first_allowed(a: &AccountRow, credit: u32, last: u64, octets: usize) -> Option<u64> {
    let cost = a.cost(octets)?;
    if a.rate() == 0 || cost > a.capacity()? {
        return None;
    }
    let missing = cost.saturating_sub(credit.into());
    last.checked_add(missing.div_ceil(a.rate()))
}

/// A gap after which an amount earned, or a gap cut short, comes to little where it wraps (document 01, case 10).
fn long_gap(r: &mut Random, rate: u64) -> u64 {
    let rate = rate.max(1);
    let power = 1 << r.within(32, 63);
    let gap = r.pick(&[1 << 32, 1 << 63, power, (1 << 32) / rate, u64::MAX / rate]);
    gap.saturating_add(r.below(3))
}

/// A time around an account's last one: allowed just now, one microsecond early, at once, late, or a while later.
pub fn time(r: &mut Random, a: &AccountRow, credit: u32, last: u64, octets: usize) -> u64 {
    let allowed = first_allowed(a, credit, last, octets).unwrap_or(last);
    let bag = a.bag().unwrap_or(1_000);
    if r.once_in(60) {
        return last.checked_add(long_gap(r, a.rate())).unwrap_or(allowed);
    }
    match r.below(20) {
        0..=6 => allowed,
        7..=11 => allowed.saturating_sub(1).max(last),
        12..=14 => last,
        15 => last.saturating_sub(1),
        16 => last.saturating_sub(r.within(1, 100_000)),
        17 => last.saturating_add(r.below(2 * bag)),
        18 => last.saturating_add(bag + u64::from(a.jitter) - r.below(2)),
        _ => allowed.saturating_add(r.pick(&[1, 2, bag, 1_000_000])),
    }
}

/// A time at the ends of the range, or any at all.
pub fn wild_time(r: &mut Random) -> u64 {
    match r.below(3) {
        0 => r.below(3),
        1 => u64::MAX - r.below(3),
        _ => r.next() >> r.below(64),
    }
}

/// A frame size for a link: within its sizes mostly, else at an edge.
pub fn size(r: &mut Random, l: &LinkRow) -> usize {
    let (smallest, largest) = (usize::from(l.smallest), usize::from(l.largest));
    let (least, most) = (smallest.clamp(64, 1_518), largest.clamp(64, 1_518));
    match r.below(40) {
        0 => r.pick(&SIZE_EDGES),
        1 => r.near(&[0, 5, 6, 62, 63], 0, 63) as usize,
        2 => r.pick(&[1_519, 1_520, 1_600]),
        3 => smallest.saturating_sub(1),
        4 => r.count(64, least),
        5 => (largest + 1).min(1_600),
        6 => r.count(most, 1_518),
        7..=13 => least,
        14..=20 => most,
        _ => r.count(least.min(most), most),
    }
}

/// The link's port mostly, else another, such as one whose low bits or low octet are the link's.
pub fn port(r: &mut Random, right: u8) -> u32 {
    let right = u32::from(right);
    if r.percent(94) {
        return right;
    }
    match r.below(8) {
        0 => right + 256,
        1 => right + 65_536,
        2 => r.pick(&[32, 33, 255, 256, u32::MAX]),
        3 => right ^ 1,
        4..=5 => right + r.pick(&[32, 64, 128]),
        _ => r.below(34) as u32,
    }
}

/// A frame of so many octets; one of its two addresses may be a little off.
pub fn frame(r: &mut Random, plan: &Plan, number: u16, octets: usize) -> Vec<u8> {
    let mut rest = [0; 4];
    rest.copy_from_slice(&(r.next() as u32).to_be_bytes());
    let mut frame = plan.frame(number, octets, &rest);
    if octets >= 6 {
        match r.below(40) {
            0 => frame[r.below(4) as usize] ^= 1 << r.below(8),
            1 => frame[4..6].copy_from_slice(&rest[..2]),
            2 => frame[4 + r.below(2) as usize] ^= 1 << r.below(8),
            _ => {}
        }
    }
    frame
}

/// A stream of calls on a loaded plan.
pub struct Traffic<'a> {
    plan: &'a Plan,
    /// No call but a late one is before it.
    start: u64,
    /// The link of the call before.
    link: usize,
}

impl<'a> Traffic<'a> {
    pub fn new(r: &mut Random, plan: &'a Plan) -> Self {
        let start = match r.below(6) {
            0 => u64::MAX - r.below(10),
            1 => u64::MAX - r.below(2_000_000),
            2 => wild_time(r),
            _ => r.near(&[0, 1], 0, 1_000_000),
        };
        Traffic {
            plan,
            start,
            link: 0,
        }
    }

    /// The next call, aimed by the accounts' credits and last times as they are now.
    pub fn call(&mut self, r: &mut Random, credits: &[u32], lasts: &[u64]) -> Call {
        if r.percent(50) {
            self.link = any_index(r, self.plan.links.len()).unwrap_or(0);
        }
        let link = &self.plan.links[self.link];
        let account = usize::from(link.account);
        let octets = size(r, link);
        let last = lasts[account];
        let time = match r.below(200) {
            0 => wild_time(r),
            1..=4 => self.start,
            _ => time(
                r,
                &self.plan.accounts[account],
                credits[account],
                last,
                octets,
            ),
        };
        // The first frames go to the start; late ones stay late.
        let time = if last < self.start && time >= last {
            time.max(self.start)
        } else {
            time
        };
        Call {
            frame: frame(r, self.plan, link.number, octets),
            port: port(r, link.port),
            time,
        }
    }
}
