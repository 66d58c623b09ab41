//! Plans whose images are accepted, with values at their limits often.

use std::collections::BTreeSet;

use crate::plan::{AccountRow, LinkRow, Plan};
use crate::random::Random;

pub const ACCOUNTS_MAX: usize = 64;
pub const LINKS_MAX: usize = 256;

pub fn account(r: &mut Random) -> AccountRow {
    AccountRow {
        smax: r.near(&[64, 65, 200, 1_517, 1_518], 64, 1_518) as u16,
        k: r.near(&[0, 7], 0, 7) as u8,
        jitter: r.near(&[0, 1, 9_999, 10_000], 0, 10_000) as u16,
        mode: r.below(4) as u8,
    }
}

/// A link of one of the accounts.
pub fn link(r: &mut Random, number: u16, accounts: &[AccountRow]) -> LinkRow {
    let account = r.below(accounts.len() as u64) as u16;
    let smax = u64::from(accounts[usize::from(account)].smax);
    let smallest = r.near(&[64, smax], 64, smax);
    let largest = r.near(&[smallest, smax], smallest, smax);
    let port = r.near(&[0, 31], 0, 31) as u8;
    LinkRow {
        number,
        port,
        mask: mask(r, port),
        smallest: smallest as u16,
        largest: largest as u16,
        account,
    }
}

/// Some output ports, at least one, without the input port.
fn mask(r: &mut Random, port: u8) -> u32 {
    let others = !(1_u32 << port);
    let some = match r.below(4) {
        0 => others,
        1 => 1 << ((u64::from(port) + r.within(1, 31)) % 32),
        _ => r.next() as u32 & others,
    };
    if some == 0 {
        others
    } else {
        some
    }
}

/// Rising link numbers, close together or far apart, with 0 and 65,535 often.
fn numbers(r: &mut Random, n: usize) -> BTreeSet<u16> {
    let mut numbers = BTreeSet::new();
    if n > 1 && r.once_in(4) {
        numbers.extend([0, u16::MAX]);
    }
    let (first, spread) = match r.below(3) {
        0 => (r.below(65_000), 2 * n as u64),
        1 => (0, 2 * n as u64),
        _ => (0, 65_536),
    };
    while numbers.len() < n {
        numbers.insert((first + r.below(spread)) as u16);
    }
    numbers
}

fn constant(r: &mut Random) -> u32 {
    r.next() as u32 | 0x0300_0000
}

/// A plan of so many accounts and links.
pub fn plan_of(r: &mut Random, accounts: usize, links: usize) -> Plan {
    let accounts: Vec<AccountRow> = (0..accounts).map(|_| account(r)).collect();
    let numbers = numbers(r, links);
    Plan {
        constant: constant(r),
        links: numbers.iter().map(|&n| link(r, n, &accounts)).collect(),
        accounts,
    }
}

/// Any sound plan: a small one mostly, the largest sometimes.
pub fn plan(r: &mut Random) -> Plan {
    let (accounts, links) = match r.below(100) {
        0 => (ACCOUNTS_MAX, LINKS_MAX),
        1 => (ACCOUNTS_MAX, r.count(1, 8)),
        2 => (r.count(1, 4), LINKS_MAX),
        3..=5 => (r.count(1, ACCOUNTS_MAX), r.count(1, LINKS_MAX)),
        _ => (r.count(1, 4), r.count(1, 8)),
    };
    plan_of(r, accounts, links)
}
