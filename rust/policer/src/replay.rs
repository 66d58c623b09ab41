//! Replaying a recorded rig: an image and a log of frames.

use std::fmt;
use std::fs::File;
use std::io::{self, BufReader, Read, Write};
use std::path::Path;

use crate::filter::frame_call;
use crate::image::{load, IMAGE_DECIDED};
use crate::rules::{ACCOUNTS_MAX, ACCOUNT_ROW, DONE, FRAME_LONG, FRAME_MAX, LINKS_MAX, LINK_ROW};
use crate::tables::Config;
use crate::Verdict;

const IMAGE_FILE: &str = "rig.cfg";
const LOG_FILE: &str = "rig.frames";
const HEADER_LINE: &str = "# frame code credit";
const CUT_LINE: &str = "cut";

const TAG_RECORD: u8 = 16;
/// Octets of a record before its frame: tag, length, time and port.
const RECORD_HEAD: usize = 12;
/// Those of them that the length counts: time and port.
const RECORD_STAMP: usize = 9;

/// Octets of the buffer for the log.
const LOG_BUFFER: usize = 262_144;
/// Octets of the buffer for the output.
const OUT_BUFFER: usize = 65_536;
/// No line is longer.
const LINE_MAX: usize = 64;

/// Something that a replay met on its way.
#[derive(Debug)]
pub enum Fault {
    /// The image was refused.
    Refused,
    /// The log has a cut or malformed record.
    Cut,
    /// A file couldn't be opened, and read as empty.
    Unopened(&'static str, io::Error),
    /// A file couldn't be read on.
    Unread(&'static str, io::Error),
    /// The answers couldn't be written.
    Unwritten(io::Error),
}

impl Fault {
    /// The exit status of a replay that met this and nothing worse.
    pub fn status(&self) -> u8 {
        match self {
            Fault::Refused => 3,
            Fault::Cut => 4,
            Fault::Unopened(..) => 5,
            Fault::Unread(..) => 6,
            Fault::Unwritten(_) => 7,
        }
    }

    /// What is said of it beside the answers, which show a refused image and a
    /// cut log themselves.
    pub fn message(&self) -> Option<String> {
        let message = match self {
            Fault::Refused | Fault::Cut => return None,
            Fault::Unopened(file, error) => {
                format!("{file} can't be opened and reads as empty: {}", text(error))
            }
            Fault::Unread(file, error) => format!("{file} can't be read: {}", text(error)),
            Fault::Unwritten(error) => format!("the answers can't be written: {}", text(error)),
        };
        Some(message)
    }
}

/// The system's own words for an error.
fn text(error: &io::Error) -> String {
    let text = error.to_string();
    let number = error.raw_os_error().unwrap_or(0);
    let suffix = format!(" (os error {number})");
    text.strip_suffix(&suffix).unwrap_or(&text).into()
}

/// Lines on their way to the output.
struct Lines<'a, W: Write> {
    out: &'a mut W,
    buffer: Vec<u8>,
}

impl<'a, W: Write> Lines<'a, W> {
    fn new(out: &'a mut W) -> Self {
        let buffer = Vec::with_capacity(OUT_BUFFER);
        Lines { out, buffer }
    }

    /// Adds a line. Where it might not fit, the lines before it are written.
    fn put(&mut self, line: fmt::Arguments) -> Result<(), Fault> {
        if self.buffer.len() + LINE_MAX > OUT_BUFFER {
            self.flush()?;
        }
        writeln!(self.buffer, "{line}").map_err(Fault::Unwritten)
    }

    /// Writes the lines. Nothing is written after a write that failed.
    fn flush(&mut self) -> Result<(), Fault> {
        self.out.write_all(&self.buffer).map_err(Fault::Unwritten)?;
        self.buffer.clear();
        self.out.flush().map_err(Fault::Unwritten)
    }
}

/// One record of the log.
struct Record {
    time: u64,
    port: u8,
    /// How long the frame is, though a long one isn't kept.
    octets: usize,
}

/// What comes next in the log.
enum Next {
    Record(Record),
    Cut,
    End,
}

/// Fills `run` as far as the source goes.
fn fill(source: &mut impl Read, run: &mut [u8]) -> io::Result<usize> {
    let mut filled = 0;
    while filled < run.len() {
        match source.read(&mut run[filled..]) {
            Ok(0) => break,
            Ok(octets) => filled += octets,
            Err(error) if error.kind() == io::ErrorKind::Interrupted => {}
            Err(error) => return Err(error),
        }
    }
    Ok(filled)
}

/// Reads past so many octets; false if the source ends before.
fn skip(source: &mut impl Read, octets: usize) -> io::Result<bool> {
    let octets = octets as u64;
    let passed = io::copy(&mut source.take(octets), &mut io::sink())?;
    Ok(passed == octets)
}

/// Reads the next record, its frame into `frame` if it fits there.
fn next_record(log: &mut impl Read, frame: &mut [u8; FRAME_MAX]) -> io::Result<Next> {
    let mut head = [0; RECORD_HEAD];
    match fill(log, &mut head)? {
        0 => return Ok(Next::End),
        RECORD_HEAD => {}
        _ => return Ok(Next::Cut),
    }
    let [tag, l0, l1, t0, t1, t2, t3, t4, t5, t6, t7, port] = head;
    let length = usize::from(u16::from_be_bytes([l0, l1]));
    if tag != TAG_RECORD || length < RECORD_STAMP {
        return Ok(Next::Cut);
    }
    let octets = length - RECORD_STAMP;
    let whole = match frame.get_mut(..octets) {
        Some(frame) => fill(log, frame)? == octets,
        None => skip(log, octets)?,
    };
    if !whole {
        return Ok(Next::Cut);
    }
    Ok(Next::Record(Record {
        time: u64::from_be_bytes([t0, t1, t2, t3, t4, t5, t6, t7]),
        port,
        octets,
    }))
}

/// Judges a record whose frame is in `buffer`, unless it was too long for it.
fn judge(
    record: &Record,
    buffer: &[u8; FRAME_MAX],
    config: &Config,
    credits: &mut [u32],
    lasts: &mut [u64],
) -> Verdict {
    let port = u32::from(record.port);
    match buffer.get(..record.octets) {
        Some(frame) => frame_call(frame, port, record.time, config, credits, lasts),
        None => Verdict::Refused(FRAME_LONG),
    }
}

/// Adds the line of the frame of this number.
fn put_verdict(lines: &mut Lines<impl Write>, number: u64, verdict: &Verdict) -> Result<(), Fault> {
    match verdict.credit() {
        Some(credit) => lines.put(format_args!("{number} {} {credit}", verdict.code())),
        None => lines.put(format_args!("{number} {} -", verdict.code())),
    }
}

/// Judges the records of the log in turn and adds a line for each.
fn replay_log(
    log: &mut impl Read,
    config: &Config,
    credits: &mut [u32],
    lasts: &mut [u64],
    lines: &mut Lines<impl Write>,
) -> Result<(), Fault> {
    lines.put(format_args!("{HEADER_LINE}"))?;
    let mut buffer = [0; FRAME_MAX];
    let mut number: u64 = 0;
    loop {
        let next = next_record(log, &mut buffer);
        let record = match next.map_err(|error| Fault::Unread(LOG_FILE, error))? {
            Next::Record(record) => record,
            Next::Cut => {
                lines.put(format_args!("{CUT_LINE}"))?;
                return Err(Fault::Cut);
            }
            Next::End => return Ok(()),
        };
        let verdict = judge(&record, &buffer, config, credits, lasts);
        number += 1;
        put_verdict(lines, number, &verdict)?;
    }
}

/// Opens a file of the rig; one that can't be opened reads as empty.
fn open(folder: &Path, file: &'static str, faults: &mut Vec<Fault>) -> Box<dyn Read> {
    match File::open(folder.join(file)) {
        Ok(file) => Box::new(file),
        Err(error) => {
            faults.push(Fault::Unopened(file, error));
            Box::new(io::empty())
        }
    }
}

/// As much of the image as the reader can need.
fn read_image(mut source: impl Read) -> io::Result<Vec<u8>> {
    let mut image = vec![0; IMAGE_DECIDED];
    let octets = fill(&mut source, &mut image)?;
    image.truncate(octets);
    Ok(image)
}

/// Loads the image and replays the log, up to the fault that ends the replay.
fn replay_rig(
    folder: &Path,
    lines: &mut Lines<impl Write>,
    faults: &mut Vec<Fault>,
) -> Result<(), Fault> {
    let mut accounts = [0; ACCOUNTS_MAX * ACCOUNT_ROW];
    let mut links = [0; LINKS_MAX * LINK_ROW];
    let mut credits = [0; ACCOUNTS_MAX];
    let mut lasts = [0; ACCOUNTS_MAX];

    let image = read_image(open(folder, IMAGE_FILE, faults));
    let image = image.map_err(|error| Fault::Unread(IMAGE_FILE, error))?;
    let loaded = load(&image, &mut accounts, &mut credits, &mut lasts, &mut links);
    if loaded.code != DONE {
        lines.put(format_args!("image {} {}", loaded.code, loaded.offset))?;
        return Err(Fault::Refused);
    }
    let config = Config {
        constant: loaded.constant,
        accounts: &accounts,
        account_count: loaded.accounts,
        links: &links,
        link_count: loaded.links,
    };
    let mut log = BufReader::with_capacity(LOG_BUFFER, open(folder, LOG_FILE, faults));
    replay_log(&mut log, &config, &mut credits, &mut lasts, lines)
}

/// Replays the rig in a folder, writes its answers, a line each, and gives the
/// faults that it met. A file that can't be opened reads as empty. Where a file
/// can't be read on, the frames read whole before are answered; where the
/// answers can't be written, nothing is written after. Memory doesn't grow with
/// the log.
pub fn replay(folder: &Path, out: &mut impl Write) -> Vec<Fault> {
    let mut lines = Lines::new(out);
    let mut faults = vec![];
    let ended = replay_rig(folder, &mut lines, &mut faults).err();
    let written = !matches!(ended, Some(Fault::Unwritten(_)));
    faults.extend(ended);
    if written {
        faults.extend(lines.flush().err());
    }
    faults
}

#[cfg(test)]
mod tests {
    use super::*;

    /// A source that fails once its octets are used up.
    struct Failing<'a>(&'a [u8]);

    impl Read for Failing<'_> {
        fn read(&mut self, run: &mut [u8]) -> io::Result<usize> {
            match self.0.read(run)? {
                0 => Err(io::Error::other("broken")),
                octets => Ok(octets),
            }
        }
    }

    #[test]
    fn an_image_that_fails_is_an_error() {
        for octets in [&[][..], &[1], &[1, 0, 5, 1], &[7; IMAGE_DECIDED - 1]] {
            assert!(read_image(Failing(octets)).is_err());
        }
        // So much settles the answer, and no more is read.
        for octets in [&[7; IMAGE_DECIDED][..], &[7; IMAGE_DECIDED + 1]] {
            let image = read_image(Failing(octets)).unwrap();
            assert_eq!(image, octets[..IMAGE_DECIDED]);
        }
    }

    #[test]
    fn a_log_that_fails_is_an_error() {
        for octets in [1_usize, 2_000] {
            let mut record = vec![16, 0, 0, 0, 0, 0, 0, 0, 0, 0, 5, 2];
            record[1..3].copy_from_slice(&(9 + octets as u16).to_be_bytes());
            record.resize(RECORD_HEAD + octets, 99);
            let mut buffer = [0; FRAME_MAX];
            for length in 0..record.len() {
                let next = next_record(&mut Failing(&record[..length]), &mut buffer);
                assert!(next.is_err(), "{length}");
            }
            let mut log = Failing(&record);
            let Next::Record(record) = next_record(&mut log, &mut buffer).unwrap() else {
                panic!("no record");
            };
            assert_eq!((record.time, record.port, record.octets), (5, 2, octets));
            assert!(next_record(&mut log, &mut buffer).is_err());
        }
    }

    /// A source that gives an octet at a time and is interrupted before each.
    struct Interrupted<'a>(&'a [u8], bool);

    impl Read for Interrupted<'_> {
        fn read(&mut self, run: &mut [u8]) -> io::Result<usize> {
            self.1 = !self.1;
            if self.1 {
                return Err(io::ErrorKind::Interrupted.into());
            }
            let octets = run.len().min(1);
            self.0.read(&mut run[..octets])
        }
    }

    #[test]
    fn an_interrupted_read_is_tried_again() {
        let octets: Vec<u8> = (0..100).collect();
        let mut run = [0; 200];
        let filled = fill(&mut Interrupted(&octets, false), &mut run).unwrap();
        assert_eq!(run[..filled], octets);
        for (more, whole) in [(99, true), (100, true), (101, false)] {
            let passed = skip(&mut Interrupted(&octets, false), more).unwrap();
            assert_eq!(passed, whole);
        }
    }

    /// An output that takes a few octets at a time, is interrupted before each
    /// time, and from some call on fails or takes nothing.
    struct Output {
        taken: Vec<u8>,
        at_once: usize,
        calls: usize,
        fails_at: usize,
        with: Option<io::ErrorKind>,
        interrupted: bool,
    }

    impl Write for Output {
        fn write(&mut self, run: &[u8]) -> io::Result<usize> {
            self.interrupted = !self.interrupted;
            if self.interrupted {
                return Err(io::ErrorKind::Interrupted.into());
            }
            self.calls += 1;
            if self.calls >= self.fails_at {
                return self.with.map_or(Ok(0), |kind| Err(kind.into()));
            }
            let octets = run.len().min(self.at_once);
            self.taken.extend(&run[..octets]);
            Ok(octets)
        }

        fn flush(&mut self) -> io::Result<()> {
            Ok(())
        }
    }

    /// Lines of several buffers come out whole, or up to the call that fails
    /// and no further.
    #[test]
    fn lines_end_at_the_write_that_fails() {
        let expected: String = (0..20_000).map(|n| format!("{n} 9 1000\n")).collect();
        let mut whole = 0;
        for fails_at in 1..60 {
            for with in [None, Some(io::ErrorKind::StorageFull)] {
                let mut out = Output {
                    taken: vec![],
                    at_once: 10_000,
                    calls: 0,
                    fails_at,
                    with,
                    interrupted: false,
                };
                let mut lines = Lines::new(&mut out);
                let put = (0..20_000).try_for_each(|n| lines.put(format_args!("{n} 9 1000")));
                let went = put.and_then(|()| lines.flush());
                assert!(expected.as_bytes().starts_with(&out.taken));
                assert_eq!(went.is_ok(), out.taken.len() == expected.len());
                assert_eq!(went.is_ok(), out.calls < fails_at);
                assert!(out.calls <= fails_at);
                whole += usize::from(went.is_ok());
            }
        }
        assert!(whole > 0 && whole < 100, "{whole}");
    }
}
