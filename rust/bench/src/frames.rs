//! Frame calls of both boxes: by links and octets, and by how the accounts stand.

use crate::rounds::compare;
use crate::work::{Standing, Work, CALLS, SMAX};
use std::hint::black_box;

/// What the early return from the top-up of a full account is measured by: 1 link, and 64, one for each account.
pub const STANDINGS: [(usize, Standing); 6] = [
    (1, Standing::Full),
    (64, Standing::Full),
    (1, Standing::Idle),
    (64, Standing::Idle),
    (1, Standing::Drained),
    (64, Standing::Drained),
];

/// What a second is in nanoseconds a frame.
pub const SCALE: f64 = 1e9 / CALLS as f64;
pub const UNIT: &str = "ns a frame";

fn line(w: &Work) {
    compare(&w.describe(), UNIT, SCALE, || w.proved(), || w.rust());
}

pub fn table() {
    for octets in [64, 1_518] {
        for links in [1, 16, 64, 256] {
            line(&Work::new(links, octets, Standing::Busy));
        }
    }
}

pub fn standings() {
    for (links, standing) in STANDINGS {
        line(&Work::new(links, usize::from(SMAX), standing));
    }
}

/// One round of one box; false where there is no such box.
pub fn count(chosen: &str, work: &Work) -> bool {
    let (_, sum) = match chosen {
        "proved" => work.proved(),
        "rust" => work.rust(),
        _ => return false,
    };
    println!("{}", black_box(sum));
    true
}
