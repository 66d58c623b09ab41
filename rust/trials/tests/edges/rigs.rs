//! Rigs, and what the plain Rust version makes of them.

use trials::logs;
use trials::random::Random;
use trials::sound;

use super::Folder;

pub const IMAGE: &str = "rig.cfg";
pub const LOG: &str = "rig.frames";
pub const HEADER: &str = "# frame code credit\n";

/// An accepted image and a log without damage.
pub struct Rig {
    pub image: Vec<u8>,
    pub log: Vec<u8>,
}

impl Rig {
    /// So many frames over a few links. Most are cut to a few octets, so that there are many lines; some are longer than any
    /// buffer for one.
    fn new(seed: u64, frames: u64) -> Self {
        let mut r = Random::new(seed, 0);
        let plan = sound::plan_of(&mut r, 3, 6);
        let mut log = vec![];
        logs::put_traffic(&mut r, &plan, &mut log, frames, |r, call| {
            match r.below(1_000) {
                0 => call.frame.resize(r.pick(&[1_519, 9_000, 65_526]), 0x5a),
                1..=960 => call.frame.truncate(r.count(0, 8)),
                _ => {}
            }
        });
        Rig {
            image: plan.image(),
            log,
        }
    }

    pub fn folder(&self) -> Folder {
        let folder = Folder::new();
        folder.put(IMAGE, &self.image);
        folder.put(LOG, &self.log);
        folder
    }

    /// The text of the whole log.
    pub fn text(&self) -> Vec<u8> {
        let (text, status) = by_rust(&self.folder());
        assert_eq!(status, 0, "a rig without damage");
        text
    }

    /// The text of the frames that are whole in the first so many octets of the log: so many lines of the whole text.
    pub fn text_of(&self, octets: usize, whole: &[u8]) -> Vec<u8> {
        let (mut at, mut frames) = (0, 0);
        while at + 3 <= octets {
            at += 3 + usize::from(u16::from_be_bytes([self.log[at + 1], self.log[at + 2]]));
            frames += usize::from(at <= octets);
        }
        let lines = whole.split_inclusive(|&o| o == b'\n').take(1 + frames);
        lines.flatten().copied().collect()
    }
}

/// A log of a few thousand octets.
pub fn small() -> Rig {
    Rig::new(1, 40)
}

/// A log of more octets than two reads bring, and of more lines than three writes take.
pub fn large() -> Rig {
    let rig = Rig::new(2, 30_000);
    assert!(rig.log.len() > 2 * 262_152, "{} octets", rig.log.len());
    assert!(rig.text().len() > 3 * 65_536);
    rig
}

/// Rigs that print the lines of a log, lines and `cut`, and a refused image; with their statuses.
pub fn outcomes() -> [(Folder, u8); 3] {
    let rig = small();
    let [whole, cut, refused] = [rig.folder(), rig.folder(), rig.folder()];
    cut.put(LOG, &rig.log[..rig.log.len() - 1]);
    refused.put(IMAGE, &rig.image[..33]);
    [(whole, 0), (cut, 4), (refused, 3)]
}

/// The text and the status of a folder's replay.
pub fn by_rust(folder: &Folder) -> (Vec<u8>, u8) {
    let mut text = vec![];
    let faults = policer::replay(&folder.0, &mut text);
    let status = faults.iter().map(policer::Fault::status).max();
    (text, status.unwrap_or(0))
}
