//! Loading the longest image.

use crate::rounds::{compare, timed};
use crate::work::plan;
use std::hint::black_box;

const LOADS: usize = 2_000;

/// The four runs that an image is loaded into, and the sum of what loading answered.
#[derive(PartialEq)]
struct Runs {
    accounts: Vec<u8>,
    credits: Vec<u32>,
    lasts: Vec<u64>,
    links: Vec<u8>,
    answers: u64,
}

impl Runs {
    fn cleared() -> Self {
        Runs {
            accounts: vec![0; 6 * 64],
            credits: vec![0; 64],
            lasts: vec![u64::MAX; 64],
            links: vec![0; 13 * 256],
            answers: 0,
        }
    }

    fn by_proved(&mut self, image: &[u8]) {
        let (a, c, t, l) = (
            &mut self.accounts,
            &mut self.credits,
            &mut self.lasts,
            &mut self.links,
        );
        let said = ffi::load(image, a, c, t, l);
        self.answers += said.offset as u64 + u64::from(said.code);
    }

    fn by_rust(&mut self, image: &[u8]) {
        let (a, c, t, l) = (
            &mut self.accounts,
            &mut self.credits,
            &mut self.lasts,
            &mut self.links,
        );
        let said = policer::load(image, a, c, t, l);
        self.answers += said.offset as u64 + u64::from(said.code);
    }
}

/// A round: many loads into runs that were cleared.
fn round(image: &[u8], load: fn(&mut Runs, &[u8])) -> (f64, Runs) {
    let mut runs = Runs::cleared();
    let (seconds, ()) = timed(|| (0..LOADS).for_each(|_| load(&mut runs, black_box(image))));
    (seconds, runs)
}

pub fn table() {
    let image = plan(256).image();
    compare(
        &format!("loading an image of {} octets", image.len()),
        "us an image",
        1e6 / LOADS as f64,
        || round(&image, Runs::by_proved),
        || round(&image, Runs::by_rust),
    );
}
