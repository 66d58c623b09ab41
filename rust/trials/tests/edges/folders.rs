//! Folders to replay in.

use std::fs::{self, File};
use std::io::{self, Write};
use std::path::{Path, PathBuf};
use std::process::Command;
use std::sync::atomic::{AtomicU32, Ordering};
use std::thread;

/// A folder that goes away with its owner.
pub struct Folder(pub PathBuf);

impl Folder {
    pub fn new() -> Self {
        static NEXT: AtomicU32 = AtomicU32::new(0);
        let number = NEXT.fetch_add(1, Ordering::Relaxed);
        let name = format!("edge-{}-{number}", std::process::id());
        let path = Path::new(env!("CARGO_TARGET_TMPDIR")).join(name);
        fs::create_dir_all(&path).expect("a folder");
        Folder(path)
    }

    pub fn put(&self, file: &str, octets: &[u8]) {
        fs::write(self.0.join(file), octets).expect("a file");
    }

    pub fn remove(&self, file: &str) {
        fs::remove_file(self.0.join(file)).expect("a file that goes");
    }

    /// A file's text; none where there is no file.
    pub fn text(&self, file: &str) -> String {
        fs::read_to_string(self.0.join(file)).unwrap_or_default()
    }

    /// Makes a named pipe, into which the octets are written in pieces of these sizes, over and over, once a program opens it.
    pub fn pipe(&self, file: &str, octets: &[u8], pieces: &[usize]) {
        let path = self.0.join(file);
        let made = Command::new("mkfifo").arg(&path).status();
        assert!(made.expect("mkfifo starts").success());
        let (octets, pieces) = (octets.to_vec(), pieces.to_vec());
        // Nobody waits for the writer, which would never end where the program doesn't open the pipe.
        thread::spawn(move || {
            let mut pipe = File::options().write(true).open(path)?;
            let mut rest = &octets[..];
            for piece in pieces.into_iter().cycle() {
                let (now, later) = rest.split_at(piece.min(rest.len()));
                pipe.write_all(now)?;
                rest = later;
                if rest.is_empty() {
                    break;
                }
                thread::yield_now();
            }
            io::Result::Ok(())
        });
    }
}

impl Drop for Folder {
    fn drop(&mut self) {
        let _ = fs::remove_dir_all(&self.0);
    }
}
