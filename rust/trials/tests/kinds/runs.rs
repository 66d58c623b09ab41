//! The four runs that loading fills.

use ffi::{ImageAnswer, Tables};
use trials::random::Random;

use super::lent::Lent;
use super::{same, same_octets, sides, Mismatch};

pub const ACCOUNT_ROW: usize = 6;
pub const LINK_ROW: usize = 13;

#[derive(Debug, Clone, PartialEq, Eq)]
pub struct Runs {
    pub accounts: Lent<u8>,
    pub credits: Lent<u32>,
    pub lasts: Lent<u64>,
    pub links: Lent<u8>,
}

impl Runs {
    /// Room for so many accounts and links, or more; garbage is in it.
    pub fn ample(r: &mut Random, accounts: usize, links: usize) -> Self {
        Runs::new(r, accounts, links, true)
    }

    /// The same, where a run may be too short now and then.
    pub fn any(r: &mut Random, accounts: usize, links: usize) -> Self {
        let ample = r.percent(70);
        Runs::new(r, accounts, links, ample)
    }

    fn new(r: &mut Random, accounts: usize, links: usize, ample: bool) -> Self {
        let accounts_long = length(r, accounts * ACCOUNT_ROW, ample, ACCOUNT_ROW);
        let credits_long = length(r, accounts, ample, 1);
        let lasts_long = length(r, accounts, ample, 1);
        let links_long = length(r, links * LINK_ROW, ample, LINK_ROW);
        Runs {
            accounts: Lent::garbage(r, accounts_long, |n| n as u8),
            credits: Lent::garbage(r, credits_long, |n| n as u32),
            lasts: Lent::garbage(r, lasts_long, |n| n),
            links: Lent::garbage(r, links_long, |n| n as u8),
        }
    }

    pub fn load_by_rattle(&mut self, image: &[u8]) -> ImageAnswer {
        ffi::load(
            image,
            self.accounts.run_mut(),
            self.credits.run_mut(),
            self.lasts.run_mut(),
            self.links.run_mut(),
        )
    }

    pub fn load_by_reader(&mut self, image: &[u8], place: &mut usize) -> ImageAnswer {
        ffi::reader_load(
            image,
            place,
            self.accounts.run_mut(),
            self.credits.run_mut(),
            self.lasts.run_mut(),
            self.links.run_mut(),
        )
    }

    pub fn load_by_rust(&mut self, image: &[u8]) -> ImageAnswer {
        sides::image(policer::load(
            image,
            self.accounts.run_mut(),
            self.credits.run_mut(),
            self.lasts.run_mut(),
            self.links.run_mut(),
        ))
    }

    /// Rattle's runs and Rust's.
    pub fn same(&self, rust: &Runs) -> Result<(), Mismatch> {
        same("the credits", &self.credits, &rust.credits)?;
        same("the last times", &self.lasts, &rust.lasts)?;
        same_octets("the account rows", &self.accounts, &rust.accounts)?;
        same_octets("the link rows", &self.links, &rust.links)
    }

    /// Adds what was lent to a mismatch.
    pub fn with_inputs(&self, mismatch: Mismatch) -> Mismatch {
        mismatch
            .octets("account rows lent", self.accounts.run())
            .input("credits lent", self.credits.run())
            .input("last times lent", self.lasts.run())
            .octets("link rows lent", self.links.run())
    }
}

/// How long a run is lent where so much is needed: longer, as long, one element or one row too short, or empty.
fn length(r: &mut Random, needed: usize, ample: bool, row: usize) -> usize {
    match r.below(if ample { 10 } else { 20 }) {
        0..=4 => needed,
        5..=11 => needed + r.count(0, 3 * row),
        12..=13 => needed.saturating_sub(1),
        14 => needed.saturating_sub(row),
        15 => 0,
        _ => needed + r.count(0, 100),
    }
}

/// Loaded rows, as a frame call and the writer are lent them.
pub fn tables<'a>(answer: &ImageAnswer, accounts: &'a [u8], links: &'a [u8]) -> Tables<'a> {
    Tables {
        constant: answer.constant,
        accounts,
        account_count: answer.accounts,
        links,
        link_count: answer.links,
    }
}
