//! Rig folders, good and damaged: the proved program's output beside the plain one's.

use std::path::{Path, PathBuf};
use std::process::{Command, Stdio};
use std::{env, fs, process};

use trials::plan::Plan;
use trials::random::Random;
use trials::sound::{self, ACCOUNTS_MAX, LINKS_MAX};
use trials::{damage, logs};

use super::images::modes;
use super::rigs::Rig;
use super::{agree, guarded, sides, Mismatch, Tally, What};

/// Octets that the proved program reads at once; logs around that length have an edge there.
const READ_AT_ONCE: usize = 4 * 65_538;

fn any_image(r: &mut Random, plan: &Plan) -> Option<Vec<u8>> {
    match r.below(20) {
        0 => None,
        1..=6 => Some(damage::image(r, plan.clone())),
        7 => Some(with_more(r, plan.image())),
        8..=9 => Some(longest_image(r)),
        _ => Some(plan.image()),
    }
}

/// Octets after the end, also far more than any accepted image has.
fn with_more(r: &mut Random, image: Vec<u8>) -> Vec<u8> {
    let more = r.near(&[1, 13, 16, 65_536, 300_000], 1, 20_000) as usize;
    [image, r.octets(more)].concat()
}

/// Around the longest image's 4,683 octets, near which a program may stop reading: one link more, whole or cut, or octets
/// after the end.
fn longest_image(r: &mut Random) -> Vec<u8> {
    let links = r.pick(&[LINKS_MAX, LINKS_MAX + 1, LINKS_MAX + 1]);
    let mut image = sound::plan_of(r, ACCOUNTS_MAX, links).image();
    match r.below(6) {
        0 => {}
        1 => image = with_more(r, image),
        _ => image.truncate(r.count(4_681, 4_696)),
    }
    image
}

/// Fills a log with calls on the plan, a frame longer than any buffer for one now and then.
fn fill_log(r: &mut Random, plan: &Plan, log: &mut Vec<u8>) {
    if r.once_in(8) {
        let left = r.pick(&[0, 1, 2, 3, 11, 12, 13, 80, 3_000]);
        logs::pad(r, log, READ_AT_ONCE - left);
    }
    let calls = match r.below(40) {
        0 => 6_000,
        1..=3 => 500,
        _ => r.below(120),
    };
    logs::put_traffic(r, plan, log, calls, |r, call| {
        if r.percent(2) {
            let octets = r.pick(&[1_519, 1_520, 9_000, 65_526]);
            call.frame.resize(octets, 0x5a);
        }
    });
}

fn any_rig(r: &mut Random) -> Result<Rig, Mismatch> {
    let plan = sound::plan(r);
    let image = any_image(r, &plan);
    let mut log = vec![];
    guarded(|| {
        fill_log(r, &plan, &mut log);
        Ok(())
    })
    .map_err(|m| m.rig(Rig::new("aiming", Some(plan.image()), Some(log.clone()))))?;
    if r.percent(40) {
        logs::damage(r, &mut log);
    }
    let log = (!r.once_in(25)).then_some(log);
    Ok(Rig::new("replay", image, log))
}

fn program() -> Result<PathBuf, String> {
    let program = Path::new(env!("CARGO_MANIFEST_DIR")).join("../../crates/replay/out/replay");
    if program.is_file() {
        return Ok(program);
    }
    Err("crates/replay/out/replay is missing: `rt run` in crates/replay builds it".into())
}

fn run_program(program: &Path, folder: &Path) -> Result<Vec<u8>, String> {
    let mut command = Command::new(program);
    command.current_dir(folder).stdin(Stdio::null());
    let ran = command
        .output()
        .map_err(|e| format!("crates/replay/out/replay didn't start: {e}"))?;
    if !ran.status.success() {
        return Err(format!("crates/replay/out/replay failed: {}", ran.status));
    }
    Ok(ran.stdout)
}

/// Compares the lines of both; the first that differ are reported.
fn compare(rattle: &[u8], rust: &[u8]) -> Result<(), Mismatch> {
    let lines = |octets: &[u8]| -> Vec<String> {
        let text = String::from_utf8_lossy(octets);
        text.split_inclusive('\n').map(String::from).collect()
    };
    let (ours, theirs) = (lines(rattle), lines(rust));
    for n in 0..ours.len().max(theirs.len()) {
        let what = format!("line {} of the output", n + 1);
        agree(&what, ("Rattle", &ours.get(n)), ("Rust", &theirs.get(n)))?;
    }
    agree("the output", ("Rattle", &rattle), ("Rust", &rust))
}

/// Counts the answers of an output.
fn count(output: &[u8], tally: &mut Tally) {
    for line in String::from_utf8_lossy(output).lines() {
        let words: Vec<&str> = line.split(' ').collect();
        match words[..] {
            ["image", code, _] => tally.count(What::Image, code.parse().unwrap_or(31)),
            ["#", ..] => tally.count(What::Image, 0),
            [_, code, _] => tally.count(What::FrameCall, code.parse().unwrap_or(31)),
            _ => {}
        }
    }
}

/// Counts an image's answer, which is the same from both, by its modes.
fn count_modes(image: &[u8], tally: &mut Tally) {
    let answer = sides::image(policer::check(image));
    for mode in modes(image, &answer) {
        tally.count_mode(What::Image, mode, answer.code);
    }
}

/// Replays by both in a folder that goes away again; Rust's output.
fn replay_both(program: &Path, rig: &Rig) -> Result<Vec<u8>, Mismatch> {
    let folder = env::temp_dir().join(format!("ashthulgo-replays-{}", process::id()));
    let ready = rig
        .write(&folder)
        .map_err(|e| format!("no rig in {}: {e}", folder.display()));
    let ours = ready.and_then(|()| run_program(program, &folder));
    let mut theirs = vec![];
    let faults = guarded(|| Ok(policer::replay(&folder, &mut theirs)));
    let _ = fs::remove_dir_all(&folder);
    let failed = faults?.into_iter().find(|fault| fault.status() > 5);
    if let Some(fault) = failed {
        return Err(Mismatch::new(format!("policer's replay: {fault:?}")));
    }
    compare(&ours.map_err(Mismatch::new)?, &theirs)?;
    Ok(theirs)
}

pub fn run(r: &mut Random, tally: &mut Tally) -> Result<(), Mismatch> {
    let program = program().map_err(Mismatch::new)?;
    let rig = any_rig(r)?;
    let output = replay_both(&program, &rig).map_err(|m| m.rig(rig.clone()))?;
    count(&output, tally);
    count_modes(&rig.image.unwrap_or_default(), tally);
    Ok(())
}
