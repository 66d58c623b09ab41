//! Safe calls of the proved static library, whose functions `include/ashthulgo.h` declares. A slice is a pointer that is
//! never null and a count; an exclusive one overlaps nothing else. That is all that the library asks of its callers.

mod raw;

use std::num::NonZeroU8;

/// What reading a frame answers.
#[derive(Debug, Clone, Copy, PartialEq, Eq)]
pub struct FrameAnswer {
    pub code: u8,
    pub link: u16,
    pub sequence: u8,
    /// Octets of the payload.
    pub payload: usize,
}

/// What a policing step answers; the credit is 0 where the code carries none.
#[derive(Debug, Clone, Copy, PartialEq, Eq)]
pub struct StepAnswer {
    pub code: u8,
    pub credit: u32,
}

/// What a frame call answers; mask and credit are 0 where the code carries none.
#[derive(Debug, Clone, Copy, PartialEq, Eq)]
pub struct CallAnswer {
    pub code: u8,
    pub mask: u32,
    pub credit: u32,
}

/// What reading or loading an image answers.
#[derive(Debug, Clone, Copy, PartialEq, Eq, Default)]
pub struct ImageAnswer {
    pub code: u8,
    pub offset: usize,
    pub constant: u32,
    pub accounts: usize,
    pub links: usize,
}

/// What writing an image answers.
#[derive(Debug, Clone, Copy, PartialEq, Eq)]
pub struct WriteAnswer {
    pub code: u8,
    pub offset: usize,
}

/// The configured values of an account.
#[derive(Debug, Clone, Copy, PartialEq, Eq)]
pub struct Terms {
    pub smax: u16,
    pub k: u8,
    pub jitter: u16,
    pub mode: u8,
}

/// The tables that a frame call and the writer are lent.
#[derive(Debug, Clone, Copy, PartialEq, Eq)]
pub struct Tables<'a> {
    pub constant: u32,
    pub accounts: &'a [u8],
    pub account_count: usize,
    pub links: &'a [u8],
    pub link_count: usize,
}

/// A network as the library takes it: 0 is A, any other number B.
#[derive(Debug, Clone, Copy, PartialEq, Eq)]
pub enum Network {
    A,
    B(NonZeroU8),
}

impl Network {
    /// The network of a number.
    pub fn of(number: u8) -> Self {
        NonZeroU8::new(number).map_or(Network::A, Network::B)
    }

    /// The number that the library takes for it.
    pub fn number(self) -> u8 {
        match self {
            Network::A => 0,
            Network::B(number) => number.get(),
        }
    }
}

pub fn read_frame(frame: &[u8]) -> FrameAnswer {
    let mut said = FrameAnswer {
        code: 0,
        link: 0,
        sequence: 0,
        payload: 0,
    };
    // SAFETY: the slice and the outputs are live, and the outputs are three of their own.
    said.code = unsafe {
        raw::ashthulgo_read_frame(
            frame.as_ptr(),
            frame.len(),
            &mut said.link,
            &mut said.sequence,
            &mut said.payload,
        )
    };
    said
}

pub fn capacity(t: &Terms, credit: u32) -> u32 {
    // SAFETY: numbers only.
    unsafe { raw::ashthulgo_capacity(t.smax, t.k, t.jitter, t.mode, credit) }
}

pub fn cost(t: &Terms, credit: u32, octets: usize) -> u32 {
    // SAFETY: numbers only.
    unsafe { raw::ashthulgo_cost(t.smax, t.k, t.jitter, t.mode, credit, octets) }
}

pub fn top_up(t: &Terms, credit: &mut u32, last: &mut u64, time: u64) {
    // SAFETY: two exclusive references.
    unsafe { raw::ashthulgo_top_up(t.smax, t.k, t.jitter, t.mode, credit, last, time) }
}

pub fn police(t: &Terms, credit: &mut u32, last: &mut u64, octets: usize, time: u64) -> StepAnswer {
    step(raw::ashthulgo_police, t, credit, last, octets, time)
}

/// The same by way of an account that is changed in place.
pub fn police_in_place(
    t: &Terms,
    credit: &mut u32,
    last: &mut u64,
    octets: usize,
    time: u64,
) -> StepAnswer {
    step(
        raw::ashthulgo_police_in_place,
        t,
        credit,
        last,
        octets,
        time,
    )
}

/// One of the two policing steps.
fn step(
    call: raw::Step,
    t: &Terms,
    credit: &mut u32,
    last: &mut u64,
    octets: usize,
    time: u64,
) -> StepAnswer {
    let mut reported = 0;
    // SAFETY: exclusive references, and an output of its own.
    let code = unsafe {
        call(
            t.smax,
            t.k,
            t.jitter,
            t.mode,
            credit,
            last,
            octets,
            time,
            &mut reported,
        )
    };
    StepAnswer {
        code,
        credit: reported,
    }
}

#[inline]
pub fn frame_call(
    frame: &[u8],
    port: u32,
    time: u64,
    tables: &Tables,
    credits: &mut [u32],
    lasts: &mut [u64],
) -> CallAnswer {
    let (mut mask, mut credit) = (0, 0);
    // SAFETY: slices, two of them exclusive, and outputs of their own.
    let code = unsafe {
        raw::ashthulgo_frame_call(
            frame.as_ptr(),
            frame.len(),
            port,
            time,
            tables.constant,
            tables.accounts.as_ptr(),
            tables.accounts.len(),
            credits.as_mut_ptr(),
            credits.len(),
            lasts.as_mut_ptr(),
            lasts.len(),
            tables.links.as_ptr(),
            tables.links.len(),
            tables.account_count,
            tables.link_count,
            &mut mask,
            &mut credit,
        )
    };
    CallAnswer { code, mask, credit }
}

pub fn check(image: &[u8]) -> ImageAnswer {
    let mut said = ImageAnswer::default();
    // SAFETY: the slice is live, and the outputs are four of their own.
    said.code = unsafe {
        raw::ashthulgo_check(
            image.as_ptr(),
            image.len(),
            &mut said.offset,
            &mut said.constant,
            &mut said.accounts,
            &mut said.links,
        )
    };
    said
}

pub fn load(
    image: &[u8],
    accounts: &mut [u8],
    credits: &mut [u32],
    lasts: &mut [u64],
    links: &mut [u8],
) -> ImageAnswer {
    let mut said = ImageAnswer::default();
    // SAFETY: slices, four of them exclusive, and outputs of their own.
    said.code = unsafe {
        raw::ashthulgo_load(
            image.as_ptr(),
            image.len(),
            accounts.as_mut_ptr(),
            accounts.len(),
            credits.as_mut_ptr(),
            credits.len(),
            lasts.as_mut_ptr(),
            lasts.len(),
            links.as_mut_ptr(),
            links.len(),
            &mut said.offset,
            &mut said.constant,
            &mut said.accounts,
            &mut said.links,
        )
    };
    said
}

/// The same through a reader: its place before, and then the offset answered.
pub fn reader_load(
    image: &[u8],
    place: &mut usize,
    accounts: &mut [u8],
    credits: &mut [u32],
    lasts: &mut [u64],
    links: &mut [u8],
) -> ImageAnswer {
    let mut said = ImageAnswer::default();
    // SAFETY: slices, four of them exclusive, an exclusive reference, and outputs of their own.
    said.code = unsafe {
        raw::ashthulgo_reader_load(
            image.as_ptr(),
            image.len(),
            place,
            accounts.as_mut_ptr(),
            accounts.len(),
            credits.as_mut_ptr(),
            credits.len(),
            lasts.as_mut_ptr(),
            lasts.len(),
            links.as_mut_ptr(),
            links.len(),
            &mut said.offset,
            &mut said.constant,
            &mut said.accounts,
            &mut said.links,
        )
    };
    said
}

pub fn write(tables: &Tables, room: &mut [u8]) -> WriteAnswer {
    let mut offset = 0;
    // SAFETY: slices, one of them exclusive, and an output of its own.
    let code = unsafe {
        raw::ashthulgo_write(
            tables.constant,
            tables.accounts.as_ptr(),
            tables.accounts.len(),
            tables.account_count,
            tables.links.as_ptr(),
            tables.links.len(),
            tables.link_count,
            room.as_mut_ptr(),
            room.len(),
            &mut offset,
        )
    };
    WriteAnswer { code, offset }
}

#[inline]
pub fn receive(
    link: u16,
    network: Network,
    number: u8,
    stamp: u64,
    rows: &[u8],
    records: &mut [u64],
) -> u8 {
    // SAFETY: two slices, one of them exclusive.
    unsafe {
        raw::ashthulgo_receive(
            link,
            network.number(),
            number,
            stamp,
            rows.as_ptr(),
            rows.len(),
            records.as_mut_ptr(),
            records.len(),
        )
    }
}
