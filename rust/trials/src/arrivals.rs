//! Frames of links that come over two networks, aimed at a link's record as it stands: both networks in step mostly, a
//! SkewMax apart, with losses, repeats, jumps, resets and late stamps.

use crate::damage::any_index;
use crate::random::Random;
use crate::traffic::wild_time;

/// Octets of a row and words of a record.
pub const ROW: usize = 6;
pub const RECORD: usize = 1_027;

pub type Record = [u64; RECORD];
static EMPTY: Record = [0; RECORD];

#[derive(Debug, Clone, Copy, PartialEq, Eq)]
pub struct ReceiveRow {
    pub number: u16,
    pub skew_max: u32,
}

impl ReceiveRow {
    pub fn octets(&self) -> [u8; ROW] {
        let (n, s) = (self.number.to_be_bytes(), self.skew_max.to_be_bytes());
        [n[0], n[1], s[0], s[1], s[2], s[3]]
    }
}

#[derive(Debug, Clone, Copy, PartialEq, Eq)]
pub struct Arrival {
    pub link: u16,
    /// 0 is A, any other number B.
    pub network: u8,
    pub number: u8,
    pub stamp: u64,
}

fn skew_max(r: &mut Random) -> u32 {
    match r.below(8) {
        0 => 0,
        1 => r.within(1, 9) as u32,
        2..=4 => r.within(100, 10_000) as u32,
        5 => r.pick(&[255, 256, 65_535, 65_536, 65_537, 1 << 24, 1 << 31]),
        6 => r.next() as u32 >> r.below(32),
        _ => u32::MAX - r.below(2) as u32,
    }
}

/// So many rows, whose numbers repeat now and then.
pub fn rows(r: &mut Random, n: usize) -> Vec<ReceiveRow> {
    let any = r.next() as u16;
    let pool = [0, 1, 256, u16::MAX, any, any.swap_bytes()];
    let row = |_| ReceiveRow {
        number: if r.once_in(2) {
            r.pick(&pool)
        } else {
            r.next() as u16
        },
        skew_max: skew_max(r),
    };
    (0..n).map(row).collect()
}

/// A link number that no row has, mostly; close to one that is there.
pub fn stray(r: &mut Random, rows: &[ReceiveRow]) -> u16 {
    let near = any_index(r, rows.len()).map_or(0, |i| rows[i].number);
    match r.below(3) {
        0 => near ^ (1 << r.below(16)),
        1 => near.swap_bytes(),
        _ => r.next() as u16,
    }
}

/// How a sender and its networks behave: how many frames of a hundred go on in each way that `number` knows.
pub type Manner = [u64; 8];

const MANNERS: [Manner; 6] = [
    [86, 5, 1, 1, 2, 1, 3, 1],       // calm
    [50, 30, 8, 2, 3, 2, 3, 2],      // with losses
    [40, 10, 4, 4, 25, 4, 9, 4],     // with jumps
    [35, 5, 2, 4, 4, 42, 4, 4],      // with resets
    [34, 4, 2, 48, 4, 3, 3, 2],      // stuck
    [20, 15, 10, 10, 15, 5, 10, 15], // wild
];

/// Any manner, a calm one most often.
pub fn manner(r: &mut Random) -> Manner {
    MANNERS[r.pick(&[0, 0, 0, 1, 1, 2, 3, 4, 5])]
}

/// One step on; 255 is followed by 1.
fn next(number: u8) -> u8 {
    if number == 255 {
        1
    } else {
        number + 1
    }
}

/// A number for a network, by the last one there and on the other; what a forged word stands for is cut short.
fn number(r: &mut Random, manner: &Manner, here: u64, there: u64) -> u8 {
    let (last, other) = (here.wrapping_sub(1) as u8, there.wrapping_sub(1) as u8);
    if here == 0 {
        return match there {
            0 => r.near(&[0, 1, 250, 252, 253, 254, 255], 0, 255) as u8,
            _ if r.percent(80) => other,
            _ => r.next() as u8,
        };
    }
    let mut at = r.below(100);
    let way = manner.iter().position(|&share| {
        let chosen = at < share;
        at = at.saturating_sub(share);
        chosen
    });
    match way {
        Some(0) => next(last),
        Some(1) => next(next(last)),
        Some(2) => next(next(next(last))),
        Some(3) => last,
        Some(4) => last.wrapping_sub(r.within(1, 4) as u8),
        Some(5) => 0,
        Some(6) => other,
        _ => r.next() as u8,
    }
}

/// The network with fewer frames so far, mostly; 0 or 1.
fn network(r: &mut Random, record: &Record) -> usize {
    let ahead = record[1].wrapping_sub(record[2]) as i8;
    if ahead == 0 || r.once_in(4) {
        r.below(2) as usize
    } else {
        usize::from(ahead > 0)
    }
}

/// A stamp at the edge of SkewMax after the other network's delivery, or around the link's last stamp.
fn stamp(r: &mut Random, skew_max: u32, last: u64, delivered: u64) -> u64 {
    let skew = u64::from(skew_max);
    let edge = delivered.wrapping_add(skew);
    let gap = r.pick(&[1, 2, skew / 8 + 2, skew / 8 + 2, skew + 2, 2_000]);
    let aimed = match r.below(20) {
        0..=3 => edge,
        4..=6 => edge.wrapping_add(1),
        7 => edge.wrapping_sub(1),
        8 => delivered,
        9 => delivered.wrapping_sub(r.within(1, 2)),
        10..=12 => last,
        13..=17 => last.saturating_add(r.below(gap)),
        18 => last.saturating_add(r.pick(&[1, skew, skew + 1, 1_000_000, 1 << 32])),
        _ => return last.saturating_sub(r.pick(&[1, 1, 2, gap, u64::MAX])),
    };
    if r.once_in(60) {
        aimed
    } else {
        aimed.max(last)
    }
}

/// A frame of a row's link, aimed by its record.
pub fn arrival(r: &mut Random, manner: &Manner, row: &ReceiveRow, record: &Record) -> Arrival {
    let here = network(r, record);
    let there = 1 - here;
    let number = number(r, manner, record[1 + here], record[1 + there]);
    let delivered = record[4 + 512 * there + 2 * usize::from(number)];
    Arrival {
        link: row.number,
        network: match here {
            0 => 0,
            _ if r.percent(90) => 1,
            _ => r.near(&[2, 3, 128, 254, 255], 1, 255) as u8,
        },
        number,
        stamp: stamp(r, row.skew_max, record[0], delivered),
    }
}

/// A stream of frames on rows whose records were empty at first.
pub struct Senders<'a> {
    rows: &'a [ReceiveRow],
    manner: Manner,
    /// No frame but a late one is before it.
    start: u64,
    /// The row of the frame before.
    row: usize,
}

impl<'a> Senders<'a> {
    pub fn new(r: &mut Random, rows: &'a [ReceiveRow]) -> Self {
        let start = match r.below(8) {
            0 => u64::MAX - r.below(10),
            1 => u64::MAX - r.below(1 << 34),
            2 => wild_time(r),
            3 => 0,
            _ => r.below(1_000_000),
        };
        Senders {
            rows,
            manner: manner(r),
            start,
            row: 0,
        }
    }

    /// The next frame, aimed by the records as they are now.
    pub fn arrival(&mut self, r: &mut Random, records: &[u64]) -> Arrival {
        if r.percent(50) {
            self.row = any_index(r, self.rows.len()).unwrap_or(0);
        }
        if self.rows.is_empty() || r.percent(2) {
            return self.stranger(r);
        }
        // The first row with the number counts.
        let number = self.rows[self.row].number;
        let first = self.rows.iter().position(|row| row.number == number);
        let first = first.unwrap_or(self.row);
        let record = records.as_chunks().0.get(first).unwrap_or(&EMPTY);
        let mut arrival = arrival(r, &self.manner, &self.rows[first], record);
        if r.once_in(300) {
            arrival.stamp = wild_time(r);
        }
        // The first frames go to the start; late ones stay late.
        if record[0] < self.start && arrival.stamp >= record[0] {
            arrival.stamp = arrival.stamp.max(self.start);
        }
        arrival
    }

    /// Any frame, of an unknown link mostly.
    pub fn stranger(&self, r: &mut Random) -> Arrival {
        Arrival {
            link: stray(r, self.rows),
            network: r.below(2) as u8,
            number: r.next() as u8,
            stamp: wild_time(r),
        }
    }
}
