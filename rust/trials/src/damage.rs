//! Damage to sound rows, images and logs, at the edge of one rule where there is one.

use crate::plan::{AccountRow, LinkRow, Plan};
use crate::random::Random;
use crate::sound::{self, ACCOUNTS_MAX, LINKS_MAX};

/// Breaks one rule of an account.
pub fn account(r: &mut Random, a: &mut AccountRow) {
    match r.below(5) {
        0 => a.smax = r.pick(&[0, 63, 63]),
        1 => a.smax = r.pick(&[1_519, 1_519, u16::MAX]),
        2 => a.k = r.pick(&[8, 8, 9, 31, 32, 64, u8::MAX]),
        3 => a.jitter = r.pick(&[10_001, 10_001, u16::MAX]),
        _ => a.mode = r.near(&[4, 4, 5, 6, 7, 255], 4, 255) as u8,
    }
}

/// Breaks one rule of a link beside its accounts.
pub fn link(r: &mut Random, l: &mut LinkRow, accounts: &[AccountRow]) {
    let smax = accounts.get(usize::from(l.account)).map_or(0, |a| a.smax);
    match r.below(7) {
        0 => l.port = r.pick(&[32, 32, 33, 63, 64, u8::MAX]),
        1 => l.mask = 0,
        2 => l.mask |= 1_u32.wrapping_shl(l.port.into()),
        3 => l.smallest = r.pick(&[0, 63, 63]),
        4 => l.smallest = l.largest.saturating_add(1),
        5 => l.largest = r.pick(&[smax.saturating_add(1), u16::MAX]),
        _ => l.account = beyond(r, accounts.len()),
    }
}

/// The number of an account that isn't there.
fn beyond(r: &mut Random, accounts: usize) -> u16 {
    let first = accounts as u16;
    r.pick(&[first, first, first + 1, first + 256, u16::MAX])
}

/// Breaks one value rule anywhere in a plan.
pub fn value(r: &mut Random, plan: &mut Plan) {
    match r.below(10) {
        0 => plan.constant &= !r.pick(&[0x0100_0000, 0x0200_0000, 0x0300_0000]),
        1..=3 => {
            if let Some(i) = any_index(r, plan.accounts.len()) {
                account(r, &mut plan.accounts[i]);
            }
        }
        4..=7 => {
            if let Some(i) = any_index(r, plan.links.len()) {
                link(r, &mut plan.links[i], &plan.accounts);
            }
        }
        _ => order(r, plan),
    }
}

/// A link number that isn't above the one before it.
fn order(r: &mut Random, plan: &mut Plan) {
    if plan.links.len() < 2 {
        return;
    }
    let i = r.count(1, plan.links.len() - 1);
    let before = plan.links[i - 1].number;
    plan.links[i].number = r.pick(&[before, before.saturating_sub(1), 0]);
}

/// Any index of a run; the first and the last often. None where the run is empty.
pub fn any_index(r: &mut Random, n: usize) -> Option<usize> {
    let last = (n as u64).checked_sub(1)?;
    Some(r.near(&[0, last], 0, last) as usize)
}

/// A 65th account or a 257th link, which may be bad besides.
fn too_many(r: &mut Random, plan: &mut Plan) {
    if r.once_in(2) {
        while plan.accounts.len() <= ACCOUNTS_MAX {
            plan.accounts.push(sound::account(r));
        }
        if r.once_in(3) {
            account(r, &mut plan.accounts[ACCOUNTS_MAX]);
        }
    } else {
        *plan = sound::plan_of(r, 1, LINKS_MAX + 1);
        if r.once_in(3) {
            link(r, &mut plan.links[LINKS_MAX], &plan.accounts);
        }
    }
}

/// No account or no link.
fn none(r: &mut Random, plan: &mut Plan) {
    match r.below(3) {
        0 => plan.accounts.clear(),
        1 => plan.links.clear(),
        _ => {
            plan.accounts.clear();
            plan.links.clear();
        }
    }
}

/// Damage to whole fields, their tags and their lengths.
fn fields(r: &mut Random, fields: &mut Vec<Vec<u8>>) {
    let i = any_index(r, fields.len()).expect("a plan has fields");
    let j = any_index(r, fields.len()).expect("a plan has fields");
    match r.below(9) {
        0 => drop(fields.remove(i)),
        1 => fields.insert(i, fields[i].clone()),
        2 => fields.insert(j, fields[i].clone()),
        3 => fields.swap(i, j),
        4 => fields[i][0] = r.pick(&[0, 1, 2, 3, 4, 8, 9, 10, 16, 255]),
        5 => fields[i][2] = r.pick(&[0, 4, 5, 6, 7, 12, 13, 14, 255]),
        6 => fields[i][1] = r.pick(&[1, 128, 255]),
        7 => fields[0][3] = r.pick(&[0, 2, 255]),
        // A field shorter or longer than its length, or with it.
        _ => {
            let octets = r.count(0, fields[i].len() + 2);
            fields[i].resize(octets, 0);
            if octets >= 3 && r.once_in(2) {
                fields[i][2] = octets as u8 - 3;
            }
        }
    }
}

/// Damage to octets anywhere: flipped, cut, added, changed.
pub fn octets(r: &mut Random, octets: &mut Vec<u8>) {
    match r.below(6) {
        0 => octets.truncate(r.count(0, octets.len())),
        1 => octets.truncate(octets.len().saturating_sub(r.count(1, 20))),
        2 => {
            let more = r.count(1, 20);
            octets.extend(r.octets(more));
        }
        3 => octets.extend([9, 0, 0]),
        4 => octets.insert(r.count(0, octets.len()), r.next() as u8),
        _ => {
            for _ in 0..r.within(1, 3) {
                if let Some(i) = any_index(r, octets.len()) {
                    octets[i] ^= 1 << r.below(8);
                }
            }
        }
    }
}

/// Octets that are no plan's; the first few may be plausible.
fn garbage(r: &mut Random) -> Vec<u8> {
    let mut image = sound::plan(r).image();
    image.truncate(r.pick(&[0, 0, 3, 8, 17, 33]));
    let more = r.near(&[0, 1, 2, 3], 0, 100) as usize;
    let small = r.once_in(2);
    image.extend(
        r.octets(more)
            .iter()
            .map(|o| if small { o % 16 } else { *o }),
    );
    image
}

/// An image of this plan, damaged mostly.
pub fn image(r: &mut Random, mut plan: Plan) -> Vec<u8> {
    let way = r.below(100);
    match way {
        0..=24 => return plan.image(),
        25..=52 => value(r, &mut plan),
        53..=56 => too_many(r, &mut plan),
        57..=60 => none(r, &mut plan),
        61..=65 => return garbage(r),
        _ => {}
    }
    let mut cut = plan.fields();
    if (66..=82).contains(&way) || r.once_in(12) {
        fields(r, &mut cut);
    }
    let mut image = cut.concat();
    if way > 82 || r.once_in(12) {
        octets(r, &mut image);
    }
    image
}
