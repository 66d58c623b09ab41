//! A plain Rust version of document 01: configuration images, the frame
//! filter, the policer and the replay of recorded rigs. Accounts have the line
//! octets of request Q-3 too. Beside it the receiving end of request Q-1.
//!
//! Every function here is total: it answers for any octets, tables, counts,
//! ports, records and times, and never panics.
#![forbid(unsafe_code)]
#![warn(missing_docs)]

mod account;
mod filter;
mod frame;
mod image;
mod receive;
mod replay;
pub mod rules;
mod tables;

pub use account::{Account, Outcome};
pub use filter::{frame_call, Verdict};
pub use frame::{header, payload, Header};
pub use image::{check, load, write, Loaded, Written, IMAGE_MAX};
pub use receive::{receive, Network, Reception, RECEIVE_ROW, RECORD_WORDS};
pub use replay::{replay, Fault};
pub use tables::Config;
