//! Accounts and the policing step.
//!
//! Credit is counted in octets times microseconds, so every amount is whole.

use crate::frame::size_refusal;
use crate::rules::{
    BAG_UNIT, JITTER_MAX, K_MAX, LINE_OCTETS, MODE_BYTE, MODE_BYTE_LINE, MODE_FRAME,
    MODE_FRAME_LINE, SMAX_MAX, SMAX_MIN, UNSOUND,
};

/// One policing account: its fixed terms, its credit and its last time.
#[derive(Debug, Clone, Copy, PartialEq, Eq)]
pub struct Account {
    /// Largest frame paid for, in octets.
    pub smax: u16,
    /// The BAG is 2^k milliseconds.
    pub k: u8,
    /// Allowed jitter, in microseconds.
    pub jitter: u16,
    /// 0 byte mode, 1 frame mode; 2 and 3 the same with line octets.
    pub mode: u8,
    /// Credit held.
    pub credit: u32,
    /// Time of the last frame that got here, in microseconds.
    pub last: u64,
}

/// What the policing step answers.
#[derive(Debug, Clone, Copy, PartialEq, Eq)]
pub enum Outcome {
    /// Code 0, with the credit left.
    Forwarded(u32),
    /// Code 9, with the credit held.
    Short(u32),
    /// Code 8, with the credit held.
    Late(u32),
    /// Code 1, 2 or 10.
    Refused(u8),
}

/// What the step answers once size and account are known to be good, with the
/// credit that the account then holds.
pub(crate) enum Settled {
    Forwarded(u32),
    Short(u32),
    Late(u32),
}

impl Account {
    /// Are Smax, k, jitter and mode within their limits?
    #[inline]
    pub(crate) fn terms_hold(&self) -> bool {
        (SMAX_MIN..=SMAX_MAX).contains(&self.smax)
            && self.k <= K_MAX
            && self.jitter <= JITTER_MAX
            && matches!(
                self.mode,
                MODE_BYTE | MODE_FRAME | MODE_BYTE_LINE | MODE_FRAME_LINE
            )
    }

    /// BAG in microseconds. Only for terms that hold.
    #[inline]
    fn bag(&self) -> u32 {
        BAG_UNIT << self.k
    }

    /// Octets charged for a frame beyond its own.
    #[inline]
    fn charge(&self) -> u32 {
        match self.mode {
            MODE_BYTE_LINE | MODE_FRAME_LINE => LINE_OCTETS,
            _ => 0,
        }
    }

    /// What a microsecond earns: Smax with the charge.
    #[inline]
    fn rate(&self) -> u32 {
        u32::from(self.smax) + self.charge()
    }

    /// The capacity of a sound account, `None` for one that gets code 10.
    #[inline(always)]
    pub(crate) fn sound_capacity(&self) -> Option<u32> {
        if !self.terms_hold() {
            return None;
        }
        let capacity = self.rate() * (self.bag() + u32::from(self.jitter));
        (self.credit <= capacity).then_some(capacity)
    }

    /// What a frame costs. Only for terms that hold and a frame's size.
    #[inline]
    fn price(&self, octets: usize) -> u32 {
        let octets = match self.mode {
            MODE_BYTE | MODE_BYTE_LINE => octets as u32,
            _ => u32::from(self.smax),
        };
        (octets + self.charge()) * self.bag()
    }

    /// Refills up to `capacity`. Only for a time not before the last one.
    #[inline]
    fn refill(&mut self, time: u64, capacity: u32) {
        let earned = u64::from(self.rate()).saturating_mul(time - self.last);
        let credit = u64::from(self.credit).saturating_add(earned);
        self.credit = credit.min(u64::from(capacity)) as u32;
        self.last = time;
    }

    /// The step itself, once size and account are known to be good.
    #[inline(always)]
    pub(crate) fn settle(&mut self, octets: usize, time: u64, capacity: u32) -> Settled {
        if time < self.last {
            return Settled::Late(self.credit);
        }
        self.refill(time, capacity);
        match self.credit.checked_sub(self.price(octets)) {
            Some(left) => {
                self.credit = left;
                Settled::Forwarded(left)
            }
            None => Settled::Short(self.credit),
        }
    }

    /// The most credit this account can hold; 0 for an unsound account.
    pub fn capacity(&self) -> u32 {
        self.sound_capacity().unwrap_or(0)
    }

    /// What a frame of so many octets costs; 0 for a size that no frame has or
    /// an unsound account.
    pub fn cost(&self, octets: usize) -> u32 {
        if size_refusal(octets).is_some() || self.sound_capacity().is_none() {
            return 0;
        }
        self.price(octets)
    }

    /// Brings the account to `time`; an unsound account or an earlier time
    /// leaves it alone.
    pub fn top_up(&mut self, time: u64) {
        if let Some(capacity) = self.sound_capacity() {
            if time >= self.last {
                self.refill(time, capacity);
            }
        }
    }

    /// Judges a frame of so many octets at `time`, and keeps the account.
    pub fn police(&mut self, octets: usize, time: u64) -> Outcome {
        if let Some(code) = size_refusal(octets) {
            return Outcome::Refused(code);
        }
        let Some(capacity) = self.sound_capacity() else {
            return Outcome::Refused(UNSOUND);
        };
        match self.settle(octets, time, capacity) {
            Settled::Forwarded(credit) => Outcome::Forwarded(credit),
            Settled::Short(credit) => Outcome::Short(credit),
            Settled::Late(credit) => Outcome::Late(credit),
        }
    }
}
