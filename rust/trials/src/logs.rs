//! Logs of frame calls, and damage to them.

use crate::damage;
use crate::plan::{put_record, Plan};
use crate::random::Random;
use crate::traffic::{Call, Traffic};

/// The largest port that a record holds.
pub const PORT_MAX: u32 = 255;

/// Appends a call's record. A larger port than it holds is written as the largest: both are no link's.
pub fn put_call(log: &mut Vec<u8>, call: &Call) {
    let port = call.port.min(PORT_MAX) as u8;
    put_record(log, call.time, port, &call.frame);
}

/// Appends so many calls on a plan, each changed by `change`. They are aimed by the plain Rust version.
pub fn put_traffic(
    r: &mut Random,
    plan: &Plan,
    log: &mut Vec<u8>,
    calls: u64,
    mut change: impl FnMut(&mut Random, &mut Call),
) {
    let n = plan.accounts.len();
    let (mut accounts, mut links) = (vec![0; 6 * n], vec![0; 13 * plan.links.len()]);
    let (mut credits, mut lasts) = (vec![0; n], vec![0; n]);
    let image = plan.image();
    let loaded = policer::load(&image, &mut accounts, &mut credits, &mut lasts, &mut links);
    let config = policer::Config {
        constant: loaded.constant,
        accounts: &accounts,
        account_count: loaded.accounts,
        links: &links,
        link_count: loaded.links,
    };
    let mut traffic = Traffic::new(r, plan);
    for _ in 0..calls {
        let mut call = traffic.call(r, &credits, &lasts);
        change(r, &mut call);
        put_call(log, &call);
        let Call { frame, port, time } = &call;
        policer::frame_call(frame, *port, *time, &config, &mut credits, &mut lasts);
    }
}

/// Appends long frames, up to so many octets of log.
pub fn pad(r: &mut Random, log: &mut Vec<u8>, octets: usize) {
    while octets - log.len() >= 12 {
        let record = (octets - log.len()).min(65_538);
        let call = Call {
            frame: r.octets(record - 12),
            port: r.below(256) as u32,
            time: r.next(),
        };
        put_call(log, &call);
    }
}

/// Damages a log: its last record, any octet, or a record's tag or length.
pub fn damage(r: &mut Random, log: &mut Vec<u8>) {
    let starts = record_starts(log);
    let at = damage::any_index(r, starts.len()).map(|i| starts[i]);
    match (r.below(7), at) {
        (0, Some(at)) => log[at] = r.next() as u8,
        (1, Some(at)) => log[at + 1..at + 3].copy_from_slice(&[0, r.below(12) as u8]),
        (2, Some(at)) => log.truncate(at + r.count(0, 14)),
        (3, _) => log.extend([16, 0, 9, 0, 0, 0, 0, 0, 0, 0, 0, 0]),
        (4, _) => log.extend([16, 0, 9, 0, 0][..r.count(1, 5)].iter()),
        _ => damage::octets(r, log),
    }
}

/// The offsets of the records of a log without damage.
fn record_starts(log: &[u8]) -> Vec<usize> {
    let mut starts = vec![];
    let mut at = 0;
    while at < log.len() {
        starts.push(at);
        at += 3 + usize::from(u16::from_be_bytes([log[at + 1], log[at + 2]]));
    }
    starts
}
