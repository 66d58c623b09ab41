//! Reading frames.

use trials::random::Random;
use trials::traffic::{LONG_SIZES, SIZE_EDGES};

use super::lent::ReadOnly;
use super::{agree, guarded, same, sides, Mismatch, Tally, What};

fn any_frame(r: &mut Random) -> Vec<u8> {
    let octets = match r.below(1_000) {
        0 => r.count(0, 140_000),
        1..=4 => r.pick(&LONG_SIZES),
        5..=9 => r.pick(&[65_535, 65_536, 66_000]),
        10..=300 => r.pick(&SIZE_EDGES),
        _ => r.count(0, 1_600),
    };
    r.octets(octets)
}

/// The library reports the payload's length, but not where it starts: that is checked of the plain version alone.
fn compare(frame: &ReadOnly) -> Result<u8, Mismatch> {
    let octets = frame.run();
    let ours = ffi::read_frame(octets);
    same("reading a frame", &ours, &sides::frame(octets))?;
    let payload = policer::payload(octets);
    let start = (payload.as_ptr() as usize).wrapping_sub(octets.as_ptr() as usize);
    let expected = match ours.code {
        0 => (14, octets.len() - 14 - 5),
        _ => (0, 0),
    };
    agree(
        "the payload's start and length",
        ("Rust", &(start, payload.len())),
        ("expected", &expected),
    )?;
    frame.stayed("the frame lent for reading")?;
    Ok(ours.code)
}

pub fn run(r: &mut Random, tally: &mut Tally) -> Result<(), Mismatch> {
    let octets = any_frame(r);
    let frame = ReadOnly::new(r, &octets);
    let code = guarded(|| compare(&frame)).map_err(|m| m.octets("frame", &octets))?;
    tally.count(What::Frame, code);
    tally.count_long(octets.len(), || policer::header(&octets[..64]).code);
    Ok(())
}
