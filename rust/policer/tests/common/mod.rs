//! Things several tests share.
#![allow(dead_code)]

use policer::{check, frame_call, load, Account, Config, Loaded, Verdict};

/// The image of the bench sheet: one account, link 7 on port 2.
pub const IMAGE_P: [u8; 36] = [
    0x01, 0x00, 0x05, 0x01, 0x03, 0x00, 0x00, 0x00, //
    0x02, 0x00, 0x06, 0x00, 0xC8, 0x00, 0x01, 0xF4, 0x00, //
    0x03, 0x00, 0x0D, 0x00, 0x07, 0x02, 0x00, 0x00, 0x00, 0x08, 0x00, 0x40, 0x00, 0xC8, 0x00, 0x00,
    0x09, 0x00, 0x00,
];

/// The same in another mode.
pub fn image_p(mode: u8) -> [u8; 36] {
    let mut image = IMAGE_P;
    image[16] = mode;
    image
}

pub const CONSTANT: u32 = 0x0300_0000;
pub const MASK: u32 = 8;

pub fn frame_of(constant: u32, link: u16, octets: usize) -> Vec<u8> {
    let mut frame: Vec<u8> = (0..octets).map(|i| (i * 7 + 1) as u8).collect();
    for (place, octet) in frame
        .iter_mut()
        .zip(constant.to_be_bytes().into_iter().chain(link.to_be_bytes()))
    {
        *place = octet;
    }
    frame
}

pub fn frame(link: u16, octets: usize) -> Vec<u8> {
    frame_of(CONSTANT, link, octets)
}

pub fn account_row(smax: u16, k: u8, jitter: u16, mode: u8) -> Vec<u8> {
    let mut row = smax.to_be_bytes().to_vec();
    row.push(k);
    row.extend(jitter.to_be_bytes());
    row.push(mode);
    row
}

#[derive(Clone, Copy)]
pub struct LinkRow {
    pub number: u16,
    pub port: u8,
    pub mask: u32,
    pub smallest: u16,
    pub largest: u16,
    pub account: u16,
}

pub const LINK_7: LinkRow = LinkRow {
    number: 7,
    port: 2,
    mask: MASK,
    smallest: 64,
    largest: 200,
    account: 0,
};

impl LinkRow {
    pub const fn number(self, number: u16) -> Self {
        LinkRow { number, ..self }
    }

    pub const fn port(self, port: u8) -> Self {
        LinkRow { port, ..self }
    }

    pub const fn mask(self, mask: u32) -> Self {
        LinkRow { mask, ..self }
    }

    pub const fn smallest(self, smallest: u16) -> Self {
        LinkRow { smallest, ..self }
    }

    pub const fn largest(self, largest: u16) -> Self {
        LinkRow { largest, ..self }
    }

    pub const fn account(self, account: u16) -> Self {
        LinkRow { account, ..self }
    }

    pub fn row(&self) -> Vec<u8> {
        let mut row = self.number.to_be_bytes().to_vec();
        row.push(self.port);
        row.extend(self.mask.to_be_bytes());
        row.extend(self.smallest.to_be_bytes());
        row.extend(self.largest.to_be_bytes());
        row.extend(self.account.to_be_bytes());
        row
    }
}

/// An image field, its length taken from the data.
pub fn field(tag: u8, data: &[u8]) -> Vec<u8> {
    let mut field = vec![tag];
    field.extend((data.len() as u16).to_be_bytes());
    field.extend(data);
    field
}

pub fn head() -> Vec<u8> {
    field(1, &[1, 3, 0, 0, 0])
}

pub fn end() -> Vec<u8> {
    field(9, &[])
}

/// An image of so many accounts and links (numbered from 1), without its end.
pub fn open_image(accounts: usize, links: usize) -> Vec<u8> {
    let mut image = head();
    for _ in 0..accounts {
        image.extend(field(2, &account_row(200, 0, 500, 0)));
    }
    for index in 0..links {
        let link = LinkRow {
            number: index as u16 + 1,
            account: (index % accounts.max(1)) as u16,
            ..LINK_7
        };
        image.extend(field(3, &link.row()));
    }
    image
}

pub fn image_of(accounts: usize, links: usize) -> Vec<u8> {
    let mut image = open_image(accounts, links);
    image.extend(end());
    image
}

pub fn fresh(smax: u16, k: u8, jitter: u16, mode: u8) -> Account {
    let mut account = Account {
        smax,
        k,
        jitter,
        mode,
        credit: 0,
        last: 0,
    };
    account.credit = account.capacity();
    account
}

/// A switch with its tables and state.
#[derive(Clone, PartialEq, Eq, Debug)]
pub struct Switch {
    pub constant: u32,
    pub accounts: Vec<u8>,
    pub account_count: usize,
    pub links: Vec<u8>,
    pub link_count: usize,
    pub credits: Vec<u32>,
    pub lasts: Vec<u64>,
}

impl Switch {
    pub fn load(image: &[u8]) -> Switch {
        let Loaded {
            code,
            constant,
            accounts,
            links,
            ..
        } = check(image);
        assert_eq!(code, 0);
        let mut switch = Switch {
            constant,
            accounts: vec![0xEE; accounts * 6],
            account_count: accounts,
            links: vec![0xEE; links * 13],
            link_count: links,
            credits: vec![1; accounts],
            lasts: vec![1; accounts],
        };
        let loaded = load(
            image,
            &mut switch.accounts,
            &mut switch.credits,
            &mut switch.lasts,
            &mut switch.links,
        );
        assert_eq!(loaded, check(image));
        switch
    }

    /// One account and one link, made up.
    pub fn of(account: &[u8], link: &LinkRow) -> Switch {
        Switch {
            constant: CONSTANT,
            accounts: account.to_vec(),
            account_count: 1,
            links: link.row(),
            link_count: 1,
            credits: vec![0],
            lasts: vec![0],
        }
    }

    pub fn config(&self) -> Config<'_> {
        Config {
            constant: self.constant,
            accounts: &self.accounts,
            account_count: self.account_count,
            links: &self.links,
            link_count: self.link_count,
        }
    }

    pub fn call(&mut self, frame: &[u8], port: u32, time: u64) -> Verdict {
        let config = Config {
            constant: self.constant,
            accounts: &self.accounts,
            account_count: self.account_count,
            links: &self.links,
            link_count: self.link_count,
        };
        frame_call(
            frame,
            port,
            time,
            &config,
            &mut self.credits,
            &mut self.lasts,
        )
    }

    /// A call that must get this code and, unless 0 or 9, change nothing.
    pub fn expect(&mut self, frame: &[u8], port: u32, time: u64, code: u8) {
        let before = self.clone();
        let verdict = self.call(frame, port, time);
        assert_eq!(verdict.code(), code, "{verdict:?}");
        if code != 0 && code != 9 {
            assert_eq!(*self, before);
        }
        if !matches!(code, 0 | 8 | 9) {
            assert_eq!(verdict, Verdict::Refused(code));
        }
    }
}

/// A small generator of made-up numbers.
pub struct Dice(pub u64);

impl Dice {
    pub fn next(&mut self) -> u64 {
        self.0 ^= self.0 << 13;
        self.0 ^= self.0 >> 7;
        self.0 ^= self.0 << 17;
        self.0.wrapping_mul(0x2545_F491_4F6C_DD1D)
    }

    pub fn below(&mut self, bound: u64) -> u64 {
        (self.next() >> 11) % bound
    }

    pub fn pick<T: Copy>(&mut self, from: &[T]) -> T {
        from[self.below(from.len() as u64) as usize]
    }

    /// The usual one nine times of ten, otherwise one of the odd ones.
    pub fn mostly<T: Copy>(&mut self, usual: T, odd: &[T]) -> T {
        match self.below(10) {
            0 => self.pick(odd),
            _ => usual,
        }
    }

    pub fn octets(&mut self, count: usize) -> Vec<u8> {
        (0..count).map(|_| (self.next() >> 32) as u8).collect()
    }
}
