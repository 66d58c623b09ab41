//! The program's words on standard error.

/// Errors, with the system's words for them.
pub const EIO: (i32, &str) = (5, "Input/output error");
pub const EBADF: (i32, &str) = (9, "Bad file descriptor");
pub const ENOSPC: (i32, &str) = (28, "No space left on device");
pub const EPIPE: (i32, &str) = (32, "Broken pipe");

pub fn unopened(file: &str) -> String {
    format!("replay: {file} can't be opened and reads as empty: No such file or directory\n")
}

pub fn unread(file: &str, why: &str) -> String {
    format!("replay: {file} can't be read: {why}\n")
}

pub fn unwritten(why: &str) -> String {
    format!("replay: the answers can't be written: {why}\n")
}
