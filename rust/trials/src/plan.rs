//! A configuration and its octets: rows, image, frames and log records, laid out by the tables of document 01.

#[derive(Debug, Clone, Copy, PartialEq, Eq)]
pub struct AccountRow {
    pub smax: u16,
    pub k: u8,
    pub jitter: u16,
    pub mode: u8,
}

#[derive(Debug, Clone, Copy, PartialEq, Eq)]
pub struct LinkRow {
    pub number: u16,
    pub port: u8,
    pub mask: u32,
    pub smallest: u16,
    pub largest: u16,
    pub account: u16,
}

impl AccountRow {
    /// BAG in microseconds; none where k is above its limit.
    pub(crate) fn bag(&self) -> Option<u64> {
        (self.k <= 7).then(|| 1_000 << self.k)
    }

    /// The line octets that modes 2 and 3 add to a frame.
    fn line_octets(&self) -> u64 {
        if matches!(self.mode, 2 | 3) {
            20
        } else {
            0
        }
    }

    /// Credit earned in a microsecond: Smax, with line octets in their modes.
    pub fn rate(&self) -> u64 {
        u64::from(self.smax) + self.line_octets()
    }

    /// The rate x (BAG + J); none where k is above its limit.
    pub fn capacity(&self) -> Option<u64> {
        Some(self.rate() * (self.bag()? + u64::from(self.jitter)))
    }

    /// What a frame of so many octets costs; none where k is above its limit or the cost beyond any number.
    pub fn cost(&self, octets: usize) -> Option<u64> {
        let charged = if matches!(self.mode, 0 | 2) {
            self.line_octets().checked_add(octets as u64)?
        } else {
            self.rate()
        };
        charged.checked_mul(self.bag()?)
    }

    /// Reads a row.
    pub fn of(row: &[u8; 6]) -> Self {
        let [s0, s1, k, j0, j1, mode] = *row;
        AccountRow {
            smax: u16::from_be_bytes([s0, s1]),
            k,
            jitter: u16::from_be_bytes([j0, j1]),
            mode,
        }
    }

    fn octets(&self) -> [u8; 6] {
        let (s, j) = (self.smax.to_be_bytes(), self.jitter.to_be_bytes());
        [s[0], s[1], self.k, j[0], j[1], self.mode]
    }
}

impl LinkRow {
    fn octets(&self) -> [u8; 13] {
        let mut row = [0; 13];
        row[..2].copy_from_slice(&self.number.to_be_bytes());
        row[2] = self.port;
        row[3..7].copy_from_slice(&self.mask.to_be_bytes());
        row[7..9].copy_from_slice(&self.smallest.to_be_bytes());
        row[9..11].copy_from_slice(&self.largest.to_be_bytes());
        row[11..].copy_from_slice(&self.account.to_be_bytes());
        row
    }
}

#[derive(Debug, Clone, Default, PartialEq, Eq)]
pub struct Plan {
    pub constant: u32,
    pub accounts: Vec<AccountRow>,
    pub links: Vec<LinkRow>,
}

impl Plan {
    pub fn account_rows(&self) -> Vec<u8> {
        self.accounts.iter().flat_map(AccountRow::octets).collect()
    }

    pub fn link_rows(&self) -> Vec<u8> {
        self.links.iter().flat_map(LinkRow::octets).collect()
    }

    /// The image's fields, each with its tag and length.
    pub(crate) fn fields(&self) -> Vec<Vec<u8>> {
        let mut head = vec![1];
        head.extend(self.constant.to_be_bytes());
        let mut fields = vec![field(1, &head)];
        fields.extend(self.accounts.iter().map(|a| field(2, &a.octets())));
        fields.extend(self.links.iter().map(|l| field(3, &l.octets())));
        fields.push(field(9, &[]));
        fields
    }

    pub fn image(&self) -> Vec<u8> {
        self.fields().concat()
    }

    /// A frame of so many octets on a link number; the octets after the number are those of `rest`, over and over.
    pub fn frame(&self, number: u16, octets: usize, rest: &[u8]) -> Vec<u8> {
        let mut frame: Vec<u8> = self.constant.to_be_bytes().into();
        frame.extend(number.to_be_bytes());
        frame.extend(rest.iter().cycle().take(octets.saturating_sub(6)));
        frame.resize(octets, 0);
        frame
    }
}

/// A field: tag, length, data.
fn field(tag: u8, data: &[u8]) -> Vec<u8> {
    let length = (data.len() as u16).to_be_bytes();
    [&[tag], &length[..], data].concat()
}

/// A log's record: tag 16, length, time, port, frame.
pub fn put_record(log: &mut Vec<u8>, time: u64, port: u8, frame: &[u8]) {
    log.push(16);
    log.extend((9 + frame.len() as u16).to_be_bytes());
    log.extend(time.to_be_bytes());
    log.push(port);
    log.extend(frame);
}

#[cfg(test)]
mod tests {
    use super::*;

    /// What frames are aimed by, in each mode: Smax 200, BAG 1,000, jitter 500.
    #[test]
    fn figures_by_mode() {
        for (mode, rate, capacity, costs) in [
            (0, 200, 300_000, [64_000, 200_000]),
            (1, 200, 300_000, [200_000, 200_000]),
            (2, 220, 330_000, [84_000, 220_000]),
            (3, 220, 330_000, [220_000, 220_000]),
        ] {
            let row = AccountRow {
                smax: 200,
                k: 0,
                jitter: 500,
                mode,
            };
            assert_eq!(row.rate(), rate);
            assert_eq!(row.capacity(), Some(capacity));
            assert_eq!([64, 200].map(|octets| row.cost(octets)), costs.map(Some));
            assert_eq!(AccountRow::of(&row.octets()), row);
        }
    }
}
