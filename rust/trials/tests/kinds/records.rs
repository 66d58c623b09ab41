//! Records of the receiving end, and a frame received by each side.

use std::ops::Range;

use trials::arrivals::{Arrival, ReceiveRow, RECORD};

use super::lent::Lent;
use super::{sides, Mismatch};

pub fn by_rattle(frame: &Arrival, rows: &[u8], records: &mut Lent<u64>) -> u8 {
    let network = ffi::Network::of(frame.network);
    ffi::receive(
        frame.link,
        network,
        frame.number,
        frame.stamp,
        rows,
        records.run_mut(),
    )
}

pub fn by_rust(frame: &Arrival, rows: &[u8], records: &mut Lent<u64>) -> u8 {
    let network = sides::network(frame.network);
    let answer = policer::receive(
        frame.link,
        network,
        frame.number,
        frame.stamp,
        rows,
        records.run_mut(),
    );
    answer.code()
}

/// The words of the record that counts for a link, where the first so many rows are in use.
pub fn counted(rows: &[ReceiveRow], in_use: usize, link: u16) -> Option<Range<usize>> {
    let mut used = rows.iter().take(in_use);
    let row = used.position(|row| row.number == link)?;
    Some(row * RECORD..(row + 1) * RECORD)
}

/// Two runs of words that begin at the same offset of the records. The first word that differs is reported by its record and
/// its offset there.
pub fn agree_words(
    what: &str,
    start: isize,
    one: (&str, &[u64]),
    other: (&str, &[u64]),
) -> Result<(), Mismatch> {
    if one.1 == other.1 {
        return Ok(());
    }
    let first = one.1.iter().zip(other.1).position(|(a, b)| a != b);
    let first = first.unwrap_or(one.1.len().min(other.1.len()));
    let (place, size) = (start + first as isize, RECORD as isize);
    Err(Mismatch::new(format!(
        "{what}: not the same, first at record {}, word {}\n  {}: {:?}\n  {}: {:?}",
        place.div_euclid(size),
        place.rem_euclid(size),
        one.0,
        one.1.get(first),
        other.0,
        other.1.get(first)
    )))
}

/// Two runs of records with what lies around them.
pub fn agree_lent(
    what: &str,
    one: (&str, &Lent<u64>),
    other: (&str, &Lent<u64>),
) -> Result<(), Mismatch> {
    let start = -(one.1.before() as isize);
    agree_words(what, start, (one.0, one.1.all()), (other.0, other.1.all()))
}
