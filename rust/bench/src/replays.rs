//! The replay program against the Rust version's, each as a process of its own that reads a log of a million frames and
//! writes to /dev/null.

use crate::rounds::{compare, timed};
use crate::work::{calls, plan, Standing};
use std::fs::{self, File};
use std::io::{self, BufWriter, Write};
use std::path::{Path, PathBuf};
use std::process::{Command, Stdio};
use trials::plan::put_record;

const LINKS: usize = 256;

/// A folder that goes with its owner.
struct Folder(PathBuf);

impl Drop for Folder {
    fn drop(&mut self) {
        // What can't be removed stays; there is nobody to report it to.
        let _ = fs::remove_dir_all(&self.0);
    }
}

/// The rig: its configuration, and a record a frame.
fn write_rig(folder: &Path, octets: usize) -> io::Result<()> {
    let plan = plan(LINKS);
    fs::create_dir_all(folder)?;
    fs::write(folder.join("rig.cfg"), plan.image())?;
    let mut log = BufWriter::with_capacity(1 << 20, File::create(folder.join("rig.frames"))?);
    let frames: Vec<Vec<u8>> = plan
        .links
        .iter()
        .map(|l| plan.frame(l.number, octets, &[0x55]))
        .collect();
    let mut record = vec![];
    for c in calls(LINKS, Standing::Busy) {
        record.clear();
        put_record(
            &mut record,
            c.time,
            plan.links[c.link].port,
            &frames[c.link],
        );
        log.write_all(&record)?;
    }
    log.flush()
}

/// The Rust version's replay of a folder, to standard output.
pub fn rust(folder: &str) {
    let faults = policer::replay(Path::new(folder), &mut io::stdout().lock());
    assert!(faults.is_empty(), "{faults:?}");
}

/// A run's seconds.
fn run(program: &mut Command) -> (f64, ()) {
    program.stdin(Stdio::null()).stdout(Stdio::null());
    let (seconds, status) = timed(|| program.status().expect("a program that starts"));
    assert!(status.success());
    (seconds, ())
}

fn output(program: &mut Command) -> Vec<u8> {
    program.output().expect("a program that starts").stdout
}

/// The two programs on a folder: the proved one runs in it, this one gets its path.
fn programs(folder: &Path) -> (Command, Command) {
    let proved = Path::new(env!("CARGO_MANIFEST_DIR")).join("../../crates/replay/out/replay");
    let proved = fs::canonicalize(&proved)
        .expect("crates/replay/out/replay: `rt run` in crates/replay builds it");
    let this = std::env::current_exe().expect("a path");
    let (mut a, mut b) = (Command::new(proved), Command::new(this));
    a.current_dir(folder);
    b.arg("replay").arg(folder);
    (a, b)
}

pub fn table() {
    for octets in [64, 1_518] {
        let name = format!("ashthulgo-bench-{}-{octets}", std::process::id());
        let folder = Folder(std::env::temp_dir().join(name));
        write_rig(&folder.0, octets).expect("a folder that can be written");
        let (mut proved, mut rust) = programs(&folder.0);
        let same = output(&mut proved) == output(&mut rust);
        assert!(same, "the two replays differ");
        compare(
            &format!("replay of a million frames, {LINKS} links, {octets} octets"),
            "ms",
            1e3,
            || run(&mut proved),
            || run(&mut rust),
        );
    }
}
