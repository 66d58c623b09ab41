//! Images far above the limit: several hundred thousand octets.

use trials::damage;
use trials::plan::Plan;
use trials::random::Random;
use trials::sound::{self, ACCOUNTS_MAX, LINKS_MAX};

use super::images::compare;
use super::{Mismatch, Tally, What};

/// The fewest and the most octets, mostly.
const OCTETS: (usize, usize) = (100_000, 700_000);

/// So many octets, the same block over and over.
fn filler(r: &mut Random, octets: usize) -> Vec<u8> {
    let block = r.octets(4_096);
    let mut filler = block.repeat(octets / block.len() + 1);
    filler.truncate(octets);
    filler
}

/// A plan, with a bad value now and then.
fn any_plan(r: &mut Random, accounts: usize, links: usize) -> Plan {
    let mut plan = sound::plan_of(r, accounts, links);
    if r.once_in(8) {
        damage::value(r, &mut plan);
    }
    plan
}

/// The rows over and over: so many that their field makes up the octets, or around as many as 16 bits count.
fn repeat<T: Copy>(r: &mut Random, rows: &mut Vec<T>, field: usize) {
    let n = match r.below(3) {
        0 => 65_536 + r.count(0, rows.len()),
        _ => r.count(OCTETS.0 / field + 1, OCTETS.1 / field),
    };
    *rows = rows.repeat(n / rows.len() + 1);
    rows.truncate(n);
}

/// An image's octets, damaged anywhere in what decides its answer now and then.
fn damaged(r: &mut Random, mut image: Vec<u8>) -> Vec<u8> {
    if r.once_in(4) {
        let decided = image.len().min(8 + 9 * ACCOUNTS_MAX + 16 * LINKS_MAX);
        let at = r.count(0, decided - 1);
        image[at] ^= 1 << r.below(8);
    }
    image
}

/// An image, and which of its kinds it is.
fn any_image(r: &mut Random) -> (u8, Vec<u8>) {
    let kind = r.below(5) as u8;
    let links = r.pick(&[1, 3, LINKS_MAX, LINKS_MAX]);
    let accounts = r.pick(&[1, 3, ACCOUNTS_MAX]);
    let mut plan = any_plan(r, accounts, links);
    match kind {
        0 => repeat(r, &mut plan.accounts, 9),
        1 => repeat(r, &mut plan.links, 16),
        _ => {}
    }
    let mut image = plan.image();
    let whole = image.len();
    match kind {
        2 => {
            let more = r.count(OCTETS.0, OCTETS.1 - whole);
            image.extend(filler(r, more));
        }
        3 => {
            let more = 65_536 * r.count(2, 10);
            image.extend(filler(r, more));
        }
        4 => image = image.repeat(r.count(OCTETS.0 / whole + 1, OCTETS.1 / whole)),
        _ => {}
    }
    (kind, damaged(r, image))
}

pub fn run(r: &mut Random, tally: &mut Tally) -> Result<(), Mismatch> {
    let (kind, image) = any_image(r);
    compare(r, &image, (ACCOUNTS_MAX, LINKS_MAX), tally)?;
    tally.count(What::LargeImage, kind);
    Ok(())
}
