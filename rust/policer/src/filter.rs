//! The frame call: filter first, then police.

use crate::account::Settled;
use crate::frame::size_refusal;
use crate::rules::{
    ABOVE_LARGEST, BELOW_SMALLEST, CREDIT_SHORT, FORWARDED, LATE, NO_LINK, UNSOUND, WRONG_CONSTANT,
    WRONG_PORT,
};
use crate::tables::{account, link_number, Config, Link};

/// What a frame call answers.
#[derive(Debug, Clone, Copy, PartialEq, Eq)]
pub enum Verdict {
    /// Code 0: goes out on the ports of the mask.
    Forwarded {
        /// Output ports, bit p for port p.
        mask: u32,
        /// Credit left.
        credit: u32,
    },
    /// Code 9, with the credit held.
    Short(u32),
    /// Code 8, with the credit held.
    Late(u32),
    /// Any other code.
    Refused(u8),
}

impl Verdict {
    /// The code in document 01's table.
    pub fn code(&self) -> u8 {
        match *self {
            Verdict::Forwarded { .. } => FORWARDED,
            Verdict::Short(_) => CREDIT_SHORT,
            Verdict::Late(_) => LATE,
            Verdict::Refused(code) => code,
        }
    }

    /// The output mask of a forwarded frame.
    pub fn mask(&self) -> Option<u32> {
        match *self {
            Verdict::Forwarded { mask, .. } => Some(mask),
            _ => None,
        }
    }

    /// The credit of a forwarded, short or late frame.
    pub fn credit(&self) -> Option<u32> {
        match *self {
            Verdict::Forwarded { credit, .. } | Verdict::Short(credit) | Verdict::Late(credit) => {
                Some(credit)
            }
            Verdict::Refused(_) => None,
        }
    }
}

/// The first link row in use with this number. Rows may come in any order, so
/// they are tried one by one.
#[inline]
fn find_link(config: &Config, number: u16) -> Option<Link> {
    let rows = config.link_rows();
    rows[..rows.len().min(config.link_count)]
        .iter()
        .find(|row| link_number(row) == number)
        .map(Link::read)
}

/// Code 5, 6 or 7 for a frame that the link doesn't take.
#[inline]
fn link_refusal(link: &Link, port: u32, octets: usize) -> Option<u8> {
    if port != u32::from(link.port) {
        Some(WRONG_PORT)
    } else if octets < usize::from(link.smallest) {
        Some(BELOW_SMALLEST)
    } else if octets > usize::from(link.largest) {
        Some(ABOVE_LARGEST)
    } else {
        None
    }
}

/// The verdict of a frame that got as far as the account.
#[inline]
fn verdict(settled: Settled, mask: u32) -> Verdict {
    match settled {
        Settled::Forwarded(credit) => Verdict::Forwarded { mask, credit },
        Settled::Short(credit) => Verdict::Short(credit),
        Settled::Late(credit) => Verdict::Late(credit),
    }
}

/// Judges one frame that came in on `port` at `time`. Only codes 0 and 9 change
/// `credits` and `lasts`, and only the one account's elements.
pub fn frame_call(
    frame: &[u8],
    port: u32,
    time: u64,
    config: &Config,
    credits: &mut [u32],
    lasts: &mut [u64],
) -> Verdict {
    if let Some(code) = size_refusal(frame.len()) {
        return Verdict::Refused(code);
    }
    if u32::from_be_bytes([frame[0], frame[1], frame[2], frame[3]]) != config.constant {
        return Verdict::Refused(WRONG_CONSTANT);
    }
    let Some(link) = find_link(config, u16::from_be_bytes([frame[4], frame[5]])) else {
        return Verdict::Refused(NO_LINK);
    };
    // The account's row, credit and last time must all be there.
    let index = link.account;
    let (Some(row), Some(credit), Some(last)) = (
        config.account_rows().get(index),
        credits.get_mut(index),
        lasts.get_mut(index),
    ) else {
        return Verdict::Refused(UNSOUND);
    };
    let mut account = account(row, *credit, *last);
    let capacity = match account.sound_capacity() {
        Some(capacity) if index < config.account_count && link.holds(account.smax) => capacity,
        _ => return Verdict::Refused(UNSOUND),
    };
    if let Some(code) = link_refusal(&link, port, frame.len()) {
        return Verdict::Refused(code);
    }
    let settled = account.settle(frame.len(), time, capacity);
    // A late frame left the account as it was, so storing it changes nothing.
    *credit = account.credit;
    *last = account.last;
    verdict(settled, link.mask)
}
