//! Receptions from empty records: every answer and its record by both, all answers by the judge, and one link alone.

use std::ops::Range;

use trials::arrivals::{self, Arrival, ReceiveRow, Senders, RECORD, ROW};
use trials::random::Random;

use super::lent::{Lent, ReadOnly};
use super::made::lend_rows;
use super::records::{agree_lent, agree_words, by_rattle, by_rust, counted};
use super::{agree, guarded, same, sides, Mismatch, Tally, What};

/// Rows as they are lent, and how many words are lent with them.
struct Source {
    rows: Vec<ReceiveRow>,
    lent: ReadOnly,
    words: usize,
}

impl Source {
    fn any(r: &mut Random) -> Self {
        let n = r.pick(&[1, 1, 1, 2, 2, 2, 2, 3, 3, 4, 6]);
        let rows = arrivals::rows(r, n);
        let octets = rows.iter().flat_map(ReceiveRow::octets).collect();
        let whole = n * RECORD;
        Source {
            rows,
            lent: lend_rows(r, octets, ROW),
            words: match r.below(40) {
                0 => r.count(0, whole),
                1 => whole - 1,
                2..=5 => whole + r.count(1, 2 * RECORD),
                _ => whole,
            },
        }
    }

    /// Whole rows with a whole record. Octets after the rows may make up more of them, whose numbers nobody aims at.
    fn in_use(&self) -> usize {
        (self.lent.run().len() / ROW).min(self.words / RECORD)
    }

    /// The record that counts for a link.
    fn record(&self, link: u16) -> Option<Range<usize>> {
        counted(&self.rows, self.in_use(), link)
    }
}

/// One record of two runs.
fn agree_record(
    what: &str,
    record: Range<usize>,
    one: (&str, &Lent<u64>),
    other: (&str, &Lent<u64>),
) -> Result<(), Mismatch> {
    let one = (one.0, &one.1.run()[record.clone()]);
    let other = (other.0, &other.1.run()[record.clone()]);
    agree_words(what, record.start as isize, one, other)
}

/// A history on both sides, as far as it has come.
struct History<'a> {
    source: &'a Source,
    rattle: Lent<u64>,
    rust: Lent<u64>,
    senders: Senders<'a>,
    frames: Vec<Arrival>,
    answers: Vec<u8>,
}

impl<'a> History<'a> {
    fn start(r: &mut Random, source: &'a Source) -> Self {
        let empty = Lent::around(r, &vec![0; source.words], |n| n);
        History {
            source,
            rattle: empty.clone(),
            rust: empty,
            senders: Senders::new(r, &source.rows),
            frames: vec![],
            answers: vec![],
        }
    }

    /// A frame aimed by how the records stand.
    fn next_frame(&mut self, r: &mut Random) -> Arrival {
        self.senders.arrival(r, self.rust.run())
    }

    /// A frame of another link, known or not.
    fn other_frame(&mut self, r: &mut Random, link: u16) -> Arrival {
        for _ in 0..4 {
            let frame = self.next_frame(r);
            if frame.link != link {
                return frame;
            }
        }
        let mut frame = self.senders.stranger(r);
        if frame.link == link {
            frame.link ^= 1 << r.below(16);
        }
        frame
    }

    /// Sends a frame to both; the answers and the record that counts for it are compared.
    fn send(&mut self, frame: Arrival) -> Result<u8, Mismatch> {
        self.frames.push(frame);
        let answer = guarded(|| {
            let rows = self.source.lent.run();
            let ours = by_rattle(&frame, rows, &mut self.rattle);
            let theirs = by_rust(&frame, rows, &mut self.rust);
            same("the answer to the last frame", &ours, &theirs)?;
            if let Some(record) = self.source.record(frame.link) {
                let what = "the link's record after the last frame";
                agree_record(what, record, ("Rattle", &self.rattle), ("Rust", &self.rust))?;
            }
            Ok(ours)
        });
        let answer = answer.map_err(|m| self.with_inputs(m, self.frames.len()))?;
        self.answers.push(answer);
        Ok(answer)
    }

    /// Everything lent, at the end.
    fn finish(&self) -> Result<(), Mismatch> {
        let (one, other) = (("Rattle", &self.rattle), ("Rust", &self.rust));
        agree_lent("all records at the end", one, other)
            .and_then(|()| self.source.lent.stayed("the rows lent for reading"))
            .map_err(|m| self.with_inputs(m, self.frames.len()))
    }

    /// Adds the first so many frames to a mismatch, which is about the last of them.
    fn with_inputs(&self, mismatch: Mismatch, frames: usize) -> Mismatch {
        let plain = |f: &Arrival| (f.link, f.network, f.number, f.stamp);
        let frames: Vec<_> = self.frames[..frames].iter().map(plain).collect();
        mismatch
            .octets("rows", self.source.lent.run())
            .input("record words lent", self.source.words)
            .input("frames sent", frames.len())
            .input("frames (link, network, number, stamp)", frames)
    }
}

/// A new history, each answer and each record compared.
fn play<'a>(
    r: &mut Random,
    source: &'a Source,
    tally: &mut Tally,
) -> Result<History<'a>, Mismatch> {
    let mut history = History::start(r, source);
    let length = match r.below(100) {
        0 => 0,
        1..=2 => r.within(400, 900),
        _ => r.within(1, 250),
    };
    for _ in 0..length {
        let frame = history.next_frame(r);
        let answer = history.send(frame)?;
        tally.count(What::Receive, answer);
    }
    history.finish()?;
    Ok(history)
}

/// All answers by the rule of Q-1, from the history alone.
fn judge(history: &History) -> Result<(), Mismatch> {
    let frames: Vec<_> = history.frames.iter().map(sides::judged).collect();
    let (rows, in_use) = (history.source.lent.run(), history.source.in_use());
    let judged = guarded(|| Ok(judge::receive::answers(rows, in_use, &frames)))
        .map_err(|m| history.with_inputs(m, frames.len()))?;
    for (n, pair) in history.answers.iter().zip(&judged).enumerate() {
        agree("the answer", ("Rattle", pair.0), ("judge", pair.1))
            .map_err(|m| history.with_inputs(m, n + 1))?;
    }
    agree(
        "the count of answers",
        ("Rattle", &history.answers.len()),
        ("judge", &judged.len()),
    )
    .map_err(|m| history.with_inputs(m, frames.len()))
}

/// The link of one of the frames and the record that counts for it; none where no row in use has its number.
fn any_link(r: &mut Random, history: &History) -> Option<(u16, Range<usize>)> {
    let any = r.below(history.frames.len() as u64) as usize;
    let link = history.frames.get(any)?.link;
    Some((link, history.source.record(link)?))
}

/// One link's frames again, alone or with others' before, between and after them: its answers and its record at the end
/// are the same.
fn isolate(r: &mut Random, whole: &History, tally: &mut Tally) -> Result<(), Mismatch> {
    let Some((link, record)) = any_link(r, whole) else {
        return Ok(());
    };
    let others = r.pick(&[0, 0, 30, 60]);
    let mut alone = History::start(r, whole.source);
    for (n, (frame, answer)) in whole.frames.iter().zip(&whole.answers).enumerate() {
        if frame.link != link {
            continue;
        }
        send_others(r, &mut alone, link, others, tally)?;
        let again = alone.send(*frame)?;
        tally.count(What::ReceiveAlone, again);
        let (one, other) = (("whole history", answer), ("one link", &again));
        agree("Rattle's answer to the frame", one, other)
            .map_err(|m| with_both(m, link, (whole, n + 1), &alone))?;
    }
    send_others(r, &mut alone, link, others, tally)?;
    alone.finish()?;
    let one = ("whole history", &whole.rattle);
    let other = ("one link", &alone.rattle);
    agree_record("Rattle's record of the link at the end", record, one, other)
        .map_err(|m| with_both(m, link, (whole, whole.frames.len()), &alone))
}

/// Some frames of other links, another one so many times in a hundred.
fn send_others(
    r: &mut Random,
    history: &mut History,
    link: u16,
    others: u64,
    tally: &mut Tally,
) -> Result<(), Mismatch> {
    while r.percent(others) {
        let frame = history.other_frame(r, link);
        let answer = history.send(frame)?;
        tally.count(What::Receive, answer);
    }
    Ok(())
}

/// Adds to a mismatch the frames of both histories, the first so many of the whole one.
fn with_both(
    mismatch: Mismatch,
    link: u16,
    (whole, frames): (&History, usize),
    alone: &History,
) -> Mismatch {
    let mismatch = whole.with_inputs(mismatch.input("link", link), frames);
    alone.with_inputs(mismatch, alone.frames.len())
}

pub fn run(r: &mut Random, tally: &mut Tally) -> Result<(), Mismatch> {
    let source = Source::any(r);
    let history = play(r, &source, tally)?;
    judge(&history)?;
    isolate(r, &history, tally)
}
