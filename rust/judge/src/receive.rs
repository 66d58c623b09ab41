//! A second opinion on receptions, request Q-1: each answer from the frames
//! before it and what they were answered.
//!
//! No record is kept: whatever the rule asks for is looked up in the past,
//! backwards. That takes quadratic time in the frames.

/// One of the two networks.
#[derive(Debug, Clone, Copy, PartialEq, Eq)]
pub enum Network {
    /// The first.
    A,
    /// The second.
    B,
}

/// One frame of a history.
#[derive(Debug, Clone, Copy, PartialEq, Eq)]
pub struct Arrival {
    /// The number of its link.
    pub link: u16,
    /// The network it came over.
    pub network: Network,
    /// Its sequence number.
    pub number: u8,
    /// Its stamp in microseconds.
    pub stamp: u64,
}

const DELIVERED: u8 = 0;
const UNKNOWN: u8 = 4;
const LATE: u8 = 8;
const COPY: u8 = 30;
const OUT_OF_SEQUENCE: u8 = 31;

/// An earlier frame and its answer.
type Answered = (Arrival, u8);

/// The SkewMax of the first of the first so many whole rows with this number.
fn skew_max(rows: &[u8], in_use: usize, link: u16) -> Option<u64> {
    let mut whole = rows.chunks_exact(6).take(in_use);
    let row = whole.find(|row| row[..2] == link.to_be_bytes())?;
    Some(row[2..].iter().fold(0, |sum, &o| sum * 256 + u64::from(o)))
}

/// The frames of a link that counted for it, the latest first.
fn back(past: &[Answered], link: u16) -> impl Iterator<Item = &Answered> {
    let counts = move |(frame, answer): &&Answered| frame.link == link && *answer != LATE;
    past.iter().rev().filter(counts)
}

/// One step on: 0 to 1, 1 to 2 and so on, 255 to 1.
fn step(number: u8) -> u8 {
    number % 255 + 1
}

/// Does it pass integrity? Looks at the last frame received on its network.
fn passes(past: &[Answered], frame: &Arrival) -> bool {
    let received = back(past, frame.link).find(|(earlier, _)| earlier.network == frame.network);
    match received {
        None => true,
        Some((last, _)) => {
            let steps = [step(last.number), step(step(last.number))];
            frame.number == 0 || steps.contains(&frame.number)
        }
    }
}

/// The stamp of the other network's latest delivery of this number, unless a
/// copy has met it since.
fn unmet(past: &[Answered], frame: &Arrival) -> Option<u64> {
    let of_number = back(past, frame.link).filter(|(earlier, _)| earlier.number == frame.number);
    for (earlier, answer) in of_number {
        match (earlier.network == frame.network, *answer) {
            (false, DELIVERED) => return Some(earlier.stamp),
            // It met the latest before it; older ones don't count.
            (true, COPY) => return None,
            _ => {}
        }
    }
    None
}

/// The answer to a frame after such a past.
fn answer(rows: &[u8], in_use: usize, past: &[Answered], frame: &Arrival) -> u8 {
    let Some(skew) = skew_max(rows, in_use, frame.link) else {
        return UNKNOWN;
    };
    let last = back(past, frame.link).next();
    if last.is_some_and(|(last, _)| frame.stamp < last.stamp) {
        return LATE;
    }
    if !passes(past, frame) {
        return OUT_OF_SEQUENCE;
    }
    // The stamps that counted never fall, so no delivery is after the frame.
    match unmet(past, frame) {
        Some(stamp) if frame.stamp - stamp <= skew => COPY,
        _ => DELIVERED,
    }
}

/// The answer to each frame of a history that starts with nothing received.
/// Rows are 6 octets, the link's number and its SkewMax; only the first
/// `in_use` whole ones count.
pub fn answers(rows: &[u8], in_use: usize, frames: &[Arrival]) -> Vec<u8> {
    let mut past: Vec<Answered> = Vec::with_capacity(frames.len());
    for frame in frames {
        let answer = answer(rows, in_use, &past, frame);
        past.push((*frame, answer));
    }
    past.into_iter().map(|(_, answer)| answer).collect()
}
