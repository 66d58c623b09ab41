//! The receiving end of request Q-1: frames of a link come over two networks,
//! and of a frame and its copy the first is delivered.

use crate::rules::{COPY, DELIVERED, LATE, NO_LINK, OUT_OF_SEQUENCE};

/// Octets of a row: link number (2), SkewMax in microseconds (4).
pub const RECEIVE_ROW: usize = 6;
/// Words of the record beside a row; an empty one is all zero.
pub const RECORD_WORDS: usize = 1_027;

/// The word with the link's last stamp.
const LAST_STAMP: usize = 0;
/// The first of two words, one a network, with the last number received there
/// plus one, or 0 for none.
const LAST_NUMBERS: usize = 1;
/// The first of two words for each network and number: not 0 while a delivery
/// waits for its copy, and the stamp of that delivery.
const DELIVERIES: usize = 3;
/// How many sequence numbers there are.
const NUMBERS: usize = 256;

type Row = [u8; RECEIVE_ROW];
type Record = [u64; RECORD_WORDS];

/// One of the two networks.
#[derive(Debug, Clone, Copy, PartialEq, Eq)]
pub enum Network {
    /// The first.
    A,
    /// The second.
    B,
}

impl Network {
    fn index(self) -> usize {
        match self {
            Network::A => 0,
            Network::B => 1,
        }
    }

    fn other(self) -> Self {
        match self {
            Network::A => Network::B,
            Network::B => Network::A,
        }
    }
}

/// What becomes of a frame.
#[derive(Debug, Clone, Copy, PartialEq, Eq)]
pub enum Reception {
    /// Code 0: goes up.
    Delivered,
    /// Code 4: no row has the link's number.
    UnknownLink,
    /// Code 8: stamped before the link's last frame.
    Late,
    /// Code 30: its other copy went up.
    Copy,
    /// Code 31: not what follows the network's last number.
    OutOfSequence,
}

impl Reception {
    /// The answer as a number.
    pub fn code(&self) -> u8 {
        match self {
            Reception::Delivered => DELIVERED,
            Reception::UnknownLink => NO_LINK,
            Reception::Late => LATE,
            Reception::Copy => COPY,
            Reception::OutOfSequence => OUT_OF_SEQUENCE,
        }
    }
}

/// The link number of a row.
fn number_of(row: &Row) -> u16 {
    u16::from_be_bytes([row[0], row[1]])
}

/// The SkewMax of a row.
fn skew_of(row: &Row) -> u32 {
    u32::from_be_bytes([row[2], row[3], row[4], row[5]])
}

/// The word that says if a network's delivery of a number is open; its stamp
/// follows it.
fn delivery(network: Network, number: u8) -> usize {
    DELIVERIES + 2 * (NUMBERS * network.index() + usize::from(number))
}

/// The number after another; 0 comes after a reset alone.
fn next(number: u8) -> u8 {
    number.checked_add(1).unwrap_or(1)
}

/// Does a number pass integrity after the one that this word keeps?
fn in_sequence(word: u64, number: u8) -> bool {
    let Some(last) = word.checked_sub(1) else {
        return true;
    };
    if number == 0 {
        return true;
    }
    // Only a forged word keeps more than 255, and that leads nowhere.
    u8::try_from(last).is_ok_and(|last| number == next(last) || number == next(next(last)))
}

/// Is a delivery at this stamp at most `skew` old? One after `now`
/// counts as none.
fn recent(delivered: u64, now: u64, skew: u32) -> bool {
    now.checked_sub(delivered)
        .is_some_and(|age| age <= u64::from(skew))
}

/// Judges a frame by its link's record, and keeps the record.
fn take(record: &mut Record, skew: u32, network: Network, number: u8, stamp: u64) -> Reception {
    if stamp < record[LAST_STAMP] {
        return Reception::Late;
    }
    record[LAST_STAMP] = stamp;
    let last = &mut record[LAST_NUMBERS + network.index()];
    let passes = in_sequence(*last, number);
    *last = u64::from(number) + 1;
    if !passes {
        return Reception::OutOfSequence;
    }
    let there = delivery(network.other(), number);
    if record[there] != 0 && recent(record[there + 1], stamp, skew) {
        record[there] = 0;
        return Reception::Copy;
    }
    let here = delivery(network, number);
    record[here] = 1;
    record[here + 1] = stamp;
    Reception::Delivered
}

/// Receives a frame of a link on one network, with its sequence number and its
/// stamp in microseconds. `rows` holds 6 octets a link, `records` 1,027 words a
/// row; only whole rows with a whole record are in use. Codes 4 and 8 change
/// nothing, the others only the record of the first row with the link's number.
pub fn receive(
    link: u16,
    network: Network,
    number: u8,
    stamp: u64,
    rows: &[u8],
    records: &mut [u64],
) -> Reception {
    let rows: &[Row] = rows.as_chunks().0;
    let records: &mut [Record] = records.as_chunks_mut().0;
    let mut in_use = rows.iter().zip(records);
    match in_use.find(|(row, _)| number_of(row) == link) {
        Some((row, record)) => take(record, skew_of(row), network, number, stamp),
        None => Reception::UnknownLink,
    }
}
