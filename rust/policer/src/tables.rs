//! The rows of the configuration tables.

use crate::account::Account;
use crate::rules::{ACCOUNT_ROW, FRAME_MIN, LINK_ROW, PORT_MAX};

/// What a switch is configured with, as loading answered it or as a caller
/// makes it up.
#[derive(Debug, Clone, Copy, PartialEq, Eq)]
pub struct Config<'a> {
    /// The constant field of every frame.
    pub constant: u32,
    /// Account rows of 6 octets, laid out as in an image.
    pub accounts: &'a [u8],
    /// How many of the account rows count.
    pub account_count: usize,
    /// Link rows of 13 octets, laid out as in an image.
    pub links: &'a [u8],
    /// How many of the link rows count.
    pub link_count: usize,
}

impl<'a> Config<'a> {
    /// All whole account rows lent.
    #[inline]
    pub(crate) fn account_rows(&self) -> &'a [[u8; ACCOUNT_ROW]] {
        self.accounts.as_chunks().0
    }

    /// All whole link rows lent.
    #[inline]
    pub(crate) fn link_rows(&self) -> &'a [[u8; LINK_ROW]] {
        self.links.as_chunks().0
    }
}

/// Reads an account row; credit and last time live elsewhere.
#[inline]
pub(crate) fn account(row: &[u8; ACCOUNT_ROW], credit: u32, last: u64) -> Account {
    let [s0, s1, k, j0, j1, mode] = *row;
    Account {
        smax: u16::from_be_bytes([s0, s1]),
        k,
        jitter: u16::from_be_bytes([j0, j1]),
        mode,
        credit,
        last,
    }
}

/// The number of a link row.
#[inline]
pub(crate) fn link_number(row: &[u8; LINK_ROW]) -> u16 {
    u16::from_be_bytes([row[0], row[1]])
}

/// A link row without its number.
#[derive(Debug, Clone, Copy)]
pub(crate) struct Link {
    pub port: u8,
    pub mask: u32,
    pub smallest: u16,
    pub largest: u16,
    pub account: usize,
}

impl Link {
    #[inline]
    pub(crate) fn read(row: &[u8; LINK_ROW]) -> Self {
        let [_, _, port, m0, m1, m2, m3, s0, s1, l0, l1, a0, a1] = *row;
        Link {
            port,
            mask: u32::from_be_bytes([m0, m1, m2, m3]),
            smallest: u16::from_be_bytes([s0, s1]),
            largest: u16::from_be_bytes([l0, l1]),
            account: usize::from(u16::from_be_bytes([a0, a1])),
        }
    }

    /// Does the row keep its rules beside an account of this Smax?
    #[inline]
    pub(crate) fn holds(&self, smax: u16) -> bool {
        self.port <= PORT_MAX
            && self.mask != 0
            && (self.mask >> self.port) & 1 == 0
            && usize::from(self.smallest) >= FRAME_MIN
            && self.smallest <= self.largest
            && self.largest <= smax
    }
}
