//! Rig folders: an image and a log, as the replay programs read them.

use std::io;
use std::path::{Path, PathBuf};
use std::{env, fs};

use trials::logs::put_call;
pub use trials::logs::PORT_MAX;
use trials::traffic::Call;

/// A rig; a missing file is `None`.
#[derive(Debug, Clone, PartialEq, Eq)]
pub struct Rig {
    /// What it shows.
    pub about: String,
    pub image: Option<Vec<u8>>,
    pub log: Option<Vec<u8>>,
    /// Frames, numbered from 1, with a port that no record holds.
    pub other_ports: Vec<usize>,
}

impl Rig {
    pub fn new(about: &str, image: Option<Vec<u8>>, log: Option<Vec<u8>>) -> Self {
        Rig {
            about: about.into(),
            image,
            log,
            other_ports: vec![],
        }
    }

    pub fn of_calls(about: &str, image: &[u8], calls: &[Call]) -> Self {
        let mut log = vec![];
        calls.iter().for_each(|call| put_call(&mut log, call));
        let mut rig = Rig::new(about, Some(image.into()), Some(log));
        let large = |&n: &usize| calls[n - 1].port > PORT_MAX;
        rig.other_ports = (1..=calls.len()).filter(large).collect();
        rig
    }

    pub fn write(&self, folder: &Path) -> io::Result<()> {
        fs::create_dir_all(folder)?;
        write_or_remove(&folder.join("rig.cfg"), &self.image)?;
        write_or_remove(&folder.join("rig.frames"), &self.log)
    }

    /// Writes the rig to a folder that stays.
    pub fn keep(&self, name: &str) -> io::Result<PathBuf> {
        let about = self
            .about
            .replace(|c: char| !c.is_ascii_alphanumeric(), "-");
        let folder = env::temp_dir().join(format!("ashthulgo-{name}-{about}"));
        self.write(&folder)?;
        Ok(folder)
    }
}

fn write_or_remove(path: &Path, octets: &Option<Vec<u8>>) -> io::Result<()> {
    match octets {
        Some(octets) => fs::write(path, octets),
        None if path.exists() => fs::remove_file(path),
        None => Ok(()),
    }
}
