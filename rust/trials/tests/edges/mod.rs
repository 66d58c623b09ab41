//! What the tests of the replay program's edge have in common, and those of its launcher.

mod folders;
mod launcher;
mod rigs;
mod runs;
mod words;

pub use folders::Folder;
pub use rigs::{by_rust, large, outcomes, small, HEADER, IMAGE, LOG};
pub use runs::{run, run_plain, run_with, same_text, Does, Out, OUTPUTS};
pub use words::{unopened, unread, unwritten, EIO, ENOSPC, EPIPE};
