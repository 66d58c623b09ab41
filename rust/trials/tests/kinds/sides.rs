//! Rust's answers in the form of the proved library's; what a code doesn't carry is 0 there.

use ffi::{CallAnswer, FrameAnswer, ImageAnswer, StepAnswer, Tables, WriteAnswer};
use policer::{Config, Loaded, Outcome, Verdict, Written};
use trials::arrivals::Arrival;

pub fn config<'a>(t: &Tables<'a>) -> Config<'a> {
    Config {
        constant: t.constant,
        accounts: t.accounts,
        account_count: t.account_count,
        links: t.links,
        link_count: t.link_count,
    }
}

pub fn call(v: Verdict) -> CallAnswer {
    CallAnswer {
        code: v.code(),
        mask: v.mask().unwrap_or(0),
        credit: v.credit().unwrap_or(0),
    }
}

pub fn step(o: Outcome) -> StepAnswer {
    let (code, credit) = match o {
        Outcome::Forwarded(credit) => (0, credit),
        Outcome::Short(credit) => (9, credit),
        Outcome::Late(credit) => (8, credit),
        Outcome::Refused(code) => (code, 0),
    };
    StepAnswer { code, credit }
}

pub fn image(l: Loaded) -> ImageAnswer {
    ImageAnswer {
        code: l.code,
        offset: l.offset,
        constant: l.constant,
        accounts: l.accounts,
        links: l.links,
    }
}

pub fn write(w: Written) -> WriteAnswer {
    WriteAnswer {
        code: w.code,
        offset: w.offset,
    }
}

pub fn frame(frame: &[u8]) -> FrameAnswer {
    let header = policer::header(frame);
    FrameAnswer {
        code: header.code,
        link: header.link,
        sequence: header.sequence,
        payload: policer::payload(frame).len(),
    }
}

pub fn network(number: u8) -> policer::Network {
    match number {
        0 => policer::Network::A,
        _ => policer::Network::B,
    }
}

/// A frame as the judge takes it.
pub fn judged(frame: &Arrival) -> judge::receive::Arrival {
    judge::receive::Arrival {
        link: frame.link,
        network: match frame.network {
            0 => judge::receive::Network::A,
            _ => judge::receive::Network::B,
        },
        number: frame.number,
        stamp: frame.stamp,
    }
}
