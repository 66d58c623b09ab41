//! Receive calls over any rows, and records that no frames left.

use trials::arrivals::{self, Arrival, Manner, ReceiveRow, RECORD, ROW};
use trials::random::Random;
use trials::traffic::wild_time;

use super::lent::{Lent, ReadOnly};
use super::records::{agree_lent, by_rattle, by_rust, counted};
use super::{guarded, same, Mismatch, Tally, What};

const CALLS: usize = 10;

/// Rows and records as they stand: Rattle's, Rust's, and as they follow from the answers.
struct Station {
    /// One more than is lent mostly, so that the rest of a row lent in part follows it.
    rows: Vec<ReceiveRow>,
    lent: ReadOnly,
    rattle: Lent<u64>,
    rust: Lent<u64>,
    expected: Lent<u64>,
}

/// How much to lend where there is so much and one more: all mostly, else none, less, a part more or the one more.
fn length(r: &mut Random, n: usize, size: usize) -> usize {
    let whole = n * size;
    match r.below(20) {
        0 => 0,
        1 => r.count(0, whole + size),
        2 => whole.saturating_sub(1),
        3 => whole.saturating_sub(size),
        4..=5 => whole + r.count(1, size - 1),
        6 => whole + size - 1,
        7..=9 => whole + size,
        _ => whole,
    }
}

/// A word for a network's last number: none, a number, or what stands for none.
fn number_word(r: &mut Random) -> u64 {
    match r.below(12) {
        0 => 0,
        1 => {
            let far = r.pick(&[1 << 8, 1 << 9, 1 << 16, 1 << 32, 1 << 63]);
            far + r.within(1, 256)
        }
        2 => r.pick(&[257, 258, 511, 512, u64::MAX - 1, u64::MAX]),
        3..=5 => r.pick(&[1, 2, 253, 254, 255, 256]),
        _ => r.within(1, 256),
    }
}

/// A delivery's two words from one random number: open or not, and a stamp around a time or a SkewMax before it.
fn delivery(n: u64, skew: u64, around: u64) -> [u64; 2] {
    const FLAGS: [u64; 8] = [2, 3, 255, 256, 1 << 16, 1 << 32, 1 << 63, u64::MAX];
    let open = match n % 16 {
        0..=4 => 0,
        5..=11 => 1,
        _ => FLAGS[(n >> 4) as usize % 8],
    };
    let little = (n >> 16) % 8;
    let stamp = match (n >> 8) % 16 {
        0..=5 => around.wrapping_sub(little),
        6..=8 => around.wrapping_add(little),
        9..=12 => around
            .wrapping_sub(skew)
            .wrapping_sub(4)
            .wrapping_add(little),
        13 => little,
        14 => u64::MAX - little,
        _ => n,
    };
    [open, stamp]
}

/// Appends a record around a time, forged mostly.
fn forge(r: &mut Random, row: &ReceiveRow, around: u64, words: &mut Vec<u64>) {
    if r.once_in(8) {
        words.resize(words.len() + RECORD, 0);
        return;
    }
    let last = match r.below(8) {
        0 => 0,
        1 => wild_time(r),
        _ => around.wrapping_sub(r.below(8)),
    };
    words.extend([last, number_word(r), number_word(r)]);
    for _ in 0..512 {
        words.extend(delivery(r.next(), row.skew_max.into(), around));
    }
}

/// What an answer, neither 4 nor 8, writes to its link's record.
fn write(record: &mut [u64], frame: &Arrival, answer: u8) {
    let network = usize::from(frame.network != 0);
    let delivery = |network: usize| 3 + 512 * network + 2 * usize::from(frame.number);
    record[0] = frame.stamp;
    record[1 + network] = u64::from(frame.number) + 1;
    match answer {
        0 => {
            let here = delivery(network);
            (record[here], record[here + 1]) = (1, frame.stamp);
        }
        30 => record[delivery(1 - network)] = 0,
        _ => {}
    }
}

impl Station {
    fn any(r: &mut Random) -> Self {
        let n = r.pick(&[0, 1, 1, 1, 1, 1, 1, 2, 2, 2, 2, 3, 3, 4]);
        let rows = arrivals::rows(r, n + 1);
        let around = match r.below(4) {
            0 => r.below(20),
            1 => u64::MAX - r.below(20),
            2 => wild_time(r),
            _ => r.within(1 << 20, 1 << 35),
        };
        let octets: Vec<u8> = rows.iter().flat_map(ReceiveRow::octets).collect();
        let mut words = Vec::with_capacity(rows.len() * RECORD);
        for row in &rows {
            forge(r, row, around, &mut words);
        }
        let (row_octets, record_words) = (length(r, n, ROW), length(r, n, RECORD));
        let octets = Lent::around(r, &octets, |n| n as u8).shortened(row_octets);
        let records = Lent::around(r, &words, |n| n).shortened(record_words);
        Station {
            rows,
            lent: ReadOnly::of(octets),
            rattle: records.clone(),
            rust: records.clone(),
            expected: records,
        }
    }

    fn in_use(&self) -> usize {
        let rows = self.lent.run().len() / ROW;
        rows.min(self.expected.run().len() / RECORD)
    }

    /// A frame aimed at a row, in use mostly, and at the record that counts for it.
    fn any_arrival(&self, r: &mut Random, manner: &Manner) -> Arrival {
        let aimed = match self.in_use() {
            n if n > 0 && r.percent(80) => &self.rows[..n],
            _ => &self.rows,
        };
        let link = r.pick(aimed).number;
        let first = self.rows.iter().position(|row| row.number == link);
        let first = first.unwrap_or(0);
        let records = self.expected.run().as_chunks().0;
        let record = records.get(first).unwrap_or(&[0; RECORD]);
        let mut frame = arrivals::arrival(r, manner, &self.rows[first], record);
        if r.once_in(25) {
            frame.link = arrivals::stray(r, &self.rows);
        }
        frame
    }

    /// One frame by both: the answers, all words, and that they follow from the answer.
    fn take(&mut self, frame: &Arrival) -> Result<u8, Mismatch> {
        let rows = self.lent.run();
        let ours = by_rattle(frame, rows, &mut self.rattle);
        let theirs = by_rust(frame, rows, &mut self.rust);
        same("the answer", &ours, &theirs)?;
        let (one, other) = (("Rattle", &self.rattle), ("Rust", &self.rust));
        agree_lent("the records after the call", one, other)?;
        self.lent.stayed("the rows lent for reading")?;
        if !matches!(ours, 4 | 8) {
            let record = counted(&self.rows, self.in_use(), frame.link);
            let record = record.ok_or_else(|| Mismatch::new("no row, and the answer isn't 4"))?;
            write(&mut self.expected.run_mut()[record], frame, ours);
        }
        let (one, other) = (("Rattle", &self.rattle), ("expected", &self.expected));
        agree_lent("the records, which follow from the answer", one, other)?;
        Ok(ours)
    }

    /// The words of its record that a frame is about: the last stamp, then a network's number, open word and stamp.
    fn about(&self, frame: &Arrival) -> Option<(u64, [u64; 3], [u64; 3])> {
        let record = counted(&self.rows, self.in_use(), frame.link)?;
        let words = &self.expected.run()[record];
        let at = 3 + 2 * usize::from(frame.number);
        let a = [words[1], words[at], words[at + 1]];
        let b = [words[2], words[at + 512], words[at + 513]];
        Some((words[0], a, b))
    }
}

pub fn run(r: &mut Random, tally: &mut Tally) -> Result<(), Mismatch> {
    let mut station = Station::any(r);
    let manner = arrivals::manner(r);
    for _ in 0..CALLS {
        let frame = station.any_arrival(r, &manner);
        let about = station.about(&frame);
        let answer = guarded(|| station.take(&frame)).map_err(|m| {
            m.octets("rows", station.lent.run())
                .input("record words lent", station.rattle.run().len())
                .input("frame", frame)
                .input(
                    "its record (last stamp, [number, open, stamp] of A, B)",
                    about,
                )
        })?;
        tally.count(What::Receive, answer);
    }
    Ok(())
}
