//! The edge of the proved replay program: reads and writes that are short, interrupted or failing, files and outputs that
//! aren't as they should be. What it writes is always the whole text of the plain Rust version, or the part that is due.

mod edges;

use std::fs;

use edges::*;
use trials::random::Random;
use trials::sound;
use trials::{damage, logs};

/// More calls than any run here has.
const CALLS: u32 = 5_000;

/// Tries each call from the first on, until the run has no such call; the number of calls that it has.
fn every_call(mut meets: impl FnMut(u32) -> bool) -> u32 {
    let last = (1..CALLS).find(|&call| !meets(call));
    last.expect("a run that ends") - 1
}

#[test]
fn plain_runs() {
    for rig in [small(), large()] {
        run_plain(&rig.folder()).is(&rig.text(), "", 0, "a plain run");
    }
}

/// Nothing is written to descriptor 3 where no word asks for it.
#[test]
fn no_status_without_a_word() {
    let folder = small().folder();
    for (words, status) in [("", ""), ("a", "0\n"), ("''", "0\n"), ("a b", "0\n")] {
        let ran = run_with(&folder, words, ("", &[]), &[], Out::Taken);
        assert_eq!(ran.status, status, "words '{words}'");
        same_text(&ran.text, &small().text(), words);
    }
}

#[test]
fn named_pipes_in_pieces() {
    let (small, large) = (small(), large());
    let sizes: [&[usize]; 12] = [
        &[1],
        &[2],
        &[3],
        &[7],
        &[11, 12, 13],
        &[1, 300, 2, 70_000],
        &[4_096],
        &[65_535],
        &[65_536],
        &[65_537],
        &[262_151, 1],
        &[10_000_000],
    ];
    for pieces in sizes {
        let rig = if pieces[0] < 4 && pieces.len() == 1 {
            &small
        } else {
            &large
        };
        for file in [IMAGE, LOG] {
            let folder = rig.folder();
            folder.remove(file);
            let octets = if file == IMAGE { &rig.image } else { &rig.log };
            folder.pipe(file, octets, pieces);
            let about = format!("{file} in pieces of {pieces:?}");
            run_plain(&folder).is(&rig.text(), "", 0, &about);
        }
    }
}

#[test]
fn short_reads() {
    let (small, large) = (small(), large());
    let few = [1, 2, 3, 5, 7, 11, 12, 13, 4_695, 4_696];
    let many = [29, 1_000, 65_535, 65_536, 65_538, 262_151, 262_152];
    for (rig, file, sizes) in [
        (&small, IMAGE, &few[..]),
        (&small, LOG, &few),
        (&large, LOG, &many),
    ] {
        let (folder, text) = (rig.folder(), rig.text());
        for &most in sizes {
            let ran = run(&folder, (file, &[Does::Most(most)]), &[], Out::Taken);
            ran.is(&text, "", 0, &format!("{file} read by {most}"));
        }
    }
}

/// Short reads of logs that are cut anywhere.
#[test]
fn short_reads_of_cut_logs() {
    let rig = small();
    let folder = rig.folder();
    for length in (0..rig.log.len()).step_by(37) {
        folder.put(LOG, &rig.log[..length]);
        let (text, status) = by_rust(&folder);
        for most in [1, 7, 100_000] {
            let about = format!("{length} octets of the log, read by {most}");
            let ran = run(&folder, (LOG, &[Does::Most(most)]), &[], Out::Taken);
            ran.is(&text, "", status, &about);
        }
    }
}

#[test]
fn interrupted_reads() {
    let (small, large) = (small(), large());
    for (rig, most) in [(&small, 97), (&large, 100_000), (&large, 1_000_000)] {
        let (folder, text) = (rig.folder(), rig.text());
        for file in [IMAGE, LOG] {
            let calls = every_call(|call| {
                let does = [Does::Most(most), Does::Interrupt(call)];
                let ran = run(&folder, (file, &does), &[], Out::Taken);
                ran.is(&text, "", 0, &format!("{file}: read {call} interrupted"));
                ran.moved("READ").is_some()
            });
            assert!(calls >= 2, "{calls} reads of {file}");
            let does = [Does::Most(most), Does::Every(2)];
            let ran = run(&folder, (file, &does), &[], Out::Taken);
            ran.is(
                &text,
                "",
                0,
                &format!("{file}: every other read interrupted"),
            );
        }
    }
}

#[test]
fn failing_reads() {
    let (small, large) = (small(), large());
    for (rig, most) in [(&small, 41), (&large, 50_000), (&large, 1_000_000)] {
        let (folder, text) = (rig.folder(), rig.text());
        let mut whole_at_end = false;
        let calls = every_call(|call| {
            let does = [Does::Most(most), Does::Fail(call, EIO.0)];
            let ran = run(&folder, (LOG, &does), &[], Out::Taken);
            let about = format!("read {call} of the log by {most} failed");
            let Some(octets) = ran.moved("READ") else {
                ran.is(&text, "", 0, &about);
                return false;
            };
            let due = rig.text_of(octets, &text);
            ran.is(&due, &unread(LOG, EIO.1), 6, &about);
            whole_at_end |= octets == rig.log.len();
            true
        });
        assert!(whole_at_end && calls >= 4, "{calls} reads of the log");
        let calls = every_call(|call| {
            let does = [Does::Most(most), Does::Fail(call, EIO.0)];
            let ran = run(&folder, (IMAGE, &does), &[], Out::Taken);
            let about = format!("read {call} of the image by {most} failed");
            if ran.moved("READ").is_none() {
                ran.is(&text, "", 0, &about);
                return false;
            }
            ran.is(b"", &unread(IMAGE, EIO.1), 6, &about);
            true
        });
        assert!(calls >= 2, "{calls} reads of the image");
    }
}

#[test]
fn short_writes() {
    for (rig, sizes) in [(small(), &[1, 2, 3][..]), (large(), &[1, 7, 4_096, 65_535])] {
        let (folder, text) = (rig.folder(), rig.text());
        for &most in sizes {
            let ran = run(&folder, ("", &[]), &[Does::Most(most)], Out::Taken);
            ran.is(&text, "", 0, &format!("written by {most}"));
        }
    }
}

#[test]
fn interrupted_writes() {
    for (rig, most) in [(small(), 20), (large(), 30_000), (large(), 1_000_000)] {
        let (folder, text) = (rig.folder(), rig.text());
        let calls = every_call(|call| {
            let does = [Does::Most(most), Does::Interrupt(call)];
            let ran = run(&folder, ("", &[]), &does, Out::Taken);
            ran.is(&text, "", 0, &format!("write {call} interrupted"));
            ran.moved("WRITE").is_some()
        });
        assert!(calls >= 4, "{calls} writes");
        let does = [Does::Most(most), Does::Every(2)];
        let ran = run(&folder, ("", &[]), &does, Out::Taken);
        ran.is(&text, "", 0, "every other write interrupted");
    }
}

/// What was written before the write that failed, and nothing after it.
#[test]
fn failing_writes() {
    for (rig, most) in [(small(), 20), (large(), 30_000), (large(), 1_000_000)] {
        let (folder, text) = (rig.folder(), rig.text());
        for (error, why) in [ENOSPC, EIO] {
            let calls = every_call(|call| {
                let does = [Does::Most(most), Does::Fail(call, error)];
                let ran = run(&folder, ("", &[]), &does, Out::Taken);
                let about = format!("write {call} by {most} failed: {why}");
                let Some(octets) = ran.moved("WRITE") else {
                    ran.is(&text, "", 0, &about);
                    return false;
                };
                ran.is(&text[..octets], &unwritten(why), 7, &about);
                true
            });
            assert!(calls >= 4, "{calls} writes");
        }
    }
}

/// A write that takes nothing is one that failed; the system has no word for it.
#[test]
fn writes_that_take_nothing() {
    let rig = large();
    let (folder, text) = (rig.folder(), rig.text());
    let calls = every_call(|call| {
        let ran = run(&folder, ("", &[]), &[Does::Fail(call, 0)], Out::Taken);
        let Some(octets) = ran.moved("WRITE") else {
            return false;
        };
        assert!(ran.said.starts_with(unwritten("").trim_end()));
        assert_eq!(ran.status, "7\n");
        same_text(&ran.text, &text[..octets], "a write that took nothing");
        true
    });
    assert!(calls >= 4, "{calls} writes");
}

/// The lines of what was read are due after a read that failed; where they can't be written, that is the status.
#[test]
fn a_failed_read_and_a_failed_write() {
    let folder = small().folder();
    let (read, write) = ([Does::Fail(2, EIO.0)], [Does::Fail(1, ENOSPC.0)]);
    let ran = run(&folder, (LOG, &read), &write, Out::Taken);
    assert_eq!(ran.status, "7\n");
    assert_eq!(ran.text, b"");
    assert!(ran.said.contains(&unwritten(ENOSPC.1)), "{}", ran.said);
}

#[test]
fn outputs_that_take_nothing() {
    for (folder, status) in outcomes() {
        let ran = run_plain(&folder);
        ran.is(&by_rust(&folder).0, "", status, "an output that takes all");
        for (out, why) in OUTPUTS {
            let ran = run(&folder, ("", &[]), &[], out);
            ran.is(b"", &unwritten(why), 7, why);
        }
    }
}

#[test]
fn files_that_cant_be_opened_or_read() {
    let rig = small();
    let folder = rig.folder();
    folder.remove(LOG);
    let ran = run_plain(&folder);
    ran.is(HEADER.as_bytes(), &unopened(LOG), 5, "no log");
    fs::create_dir(folder.0.join(LOG)).expect("a folder");
    let said = unread(LOG, "Is a directory");
    run_plain(&folder).is(HEADER.as_bytes(), &said, 6, "a folder as log");

    // Where the image is refused, the log isn't opened.
    folder.put(IMAGE, &rig.image[..33]);
    let (text, status) = by_rust(&folder);
    assert_eq!(status, 3);
    run_plain(&folder).is(&text, "", 3, "a refused image and a folder as log");
    fs::remove_dir(folder.0.join(LOG)).expect("a folder that goes");
    run_plain(&folder).is(&text, "", 3, "a refused image and no log");
    folder.remove(IMAGE);
    let said = unopened(IMAGE);
    run_plain(&folder).is(b"image 20 0\n", &said, 5, "no files");
    folder.put(LOG, &rig.log);
    run_plain(&folder).is(b"image 20 0\n", &said, 5, "no image");
    fs::create_dir(folder.0.join(IMAGE)).expect("a folder");
    let said = unread(IMAGE, "Is a directory");
    run_plain(&folder).is(b"", &said, 6, "a folder as image");
}

/// A file that can't be opened and an output that takes nothing: the greater status counts.
#[test]
fn the_greatest_status_counts() {
    let folder = small().folder();
    for file in [LOG, IMAGE] {
        folder.remove(file);
        let ran = run(&folder, ("", &[]), &[], Out::Full);
        assert_eq!(
            (ran.text.as_slice(), ran.status.as_str()),
            (&b""[..], "7\n")
        );
        assert!(ran.said.ends_with(&unwritten(ENOSPC.1)), "{}", ran.said);
    }
}

/// Images and logs, damaged mostly: the text and the status are the plain Rust version's, however the log is read.
#[test]
fn damaged_rigs() {
    let mut statuses = [0; 8];
    for case in 0..120 {
        let mut r = Random::new(3, case);
        let plan = sound::plan(&mut r);
        let folder = Folder::new();
        let image = match r.below(3) {
            0 => damage::image(&mut r, plan.clone()),
            _ => plan.image(),
        };
        folder.put(IMAGE, &image);
        let mut log = vec![];
        logs::put_traffic(&mut r, &plan, &mut log, 60, |_, _| {});
        if r.percent(60) {
            logs::damage(&mut r, &mut log);
        }
        folder.put(LOG, &log);
        let (text, status) = by_rust(&folder);
        let does = [Does::Most(r.count(1, 300))];
        let ran = run(
            &folder,
            (LOG, &does),
            &[Does::Most(r.count(1, 300))],
            Out::Taken,
        );
        ran.is(&text, "", status, &format!("case {case}"));
        statuses[usize::from(status)] += 1;
    }
    assert!(
        statuses[0] > 9 && statuses[3] > 9 && statuses[4] > 9,
        "{statuses:?}"
    );
}
