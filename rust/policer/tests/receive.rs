//! The receiving end: figures of the source, steps, ages, refusals and records
//! that no frames left.

mod common;

use common::Dice;
use policer::Network::{self, A, B};
use policer::Reception::{self, Copy, Delivered, Late, OutOfSequence, UnknownLink};
use policer::{receive, RECEIVE_ROW, RECORD_WORDS};

const LINK: u16 = 7;
/// SkewMax of most tests.
const SKEW: u32 = 5_000;

/// Lent rows and records.
#[derive(Debug, Clone, PartialEq, Eq)]
struct Station {
    rows: Vec<u8>,
    records: Vec<u64>,
}

/// Rows of these numbers and skews.
fn rows_of(links: &[(u16, u32)]) -> Vec<u8> {
    let mut rows = vec![];
    for (number, skew) in links {
        rows.extend(number.to_be_bytes());
        rows.extend(skew.to_be_bytes());
    }
    rows
}

impl Station {
    /// Rows of these numbers and skews with empty records.
    fn of(links: &[(u16, u32)]) -> Self {
        Station {
            rows: rows_of(links),
            records: vec![0; links.len() * RECORD_WORDS],
        }
    }

    fn with_skew(skew: u32) -> Self {
        Station::of(&[(LINK, skew)])
    }

    /// A frame of any link; a refusal must change nothing.
    fn take(&mut self, link: u16, network: Network, number: u8, stamp: u64) -> Reception {
        let before = self.clone();
        let answer = receive(link, network, number, stamp, &self.rows, &mut self.records);
        assert_eq!(self.rows, before.rows);
        if matches!(answer, UnknownLink | Late) {
            assert_eq!(self.records, before.records);
        }
        answer
    }

    /// A frame of the one link, which must get this answer.
    fn expect(&mut self, network: Network, number: u8, stamp: u64, answer: Reception) {
        let got = self.take(LINK, network, number, stamp);
        assert_eq!(got, answer, "{network:?}{number} at {stamp}");
    }
}

/// The open word of a delivery in the first record.
fn open_word(network: Network, number: u8) -> usize {
    match network {
        A => 3 + 2 * usize::from(number),
        B => 515 + 2 * usize::from(number),
    }
}

/// Frames 100 us apart on an empty record.
fn figure(frames: &[(Network, u8, Reception)]) {
    let mut station = Station::with_skew(SKEW);
    for (stamp, &(network, number, answer)) in (1_000..).step_by(100).zip(frames) {
        station.expect(network, number, stamp, answer);
    }
}

#[test]
fn answers_as_numbers() {
    let answers = [Delivered, UnknownLink, Late, Copy, OutOfSequence];
    assert_eq!(answers.map(|answer| answer.code()), [0, 4, 8, 30, 31]);
}

#[test]
fn figure_3_15() {
    figure(&[
        (A, 1, Delivered),
        (B, 1, Copy),
        (A, 2, Delivered),
        (B, 2, Copy),
        (A, 3, Delivered),
        (B, 99, OutOfSequence),
        (A, 4, Delivered),
        (B, 4, OutOfSequence),
        (B, 5, Delivered),
        (A, 5, Copy),
        (A, 6, Delivered),
        (B, 6, Copy),
    ]);
}

#[test]
fn figure_3_16() {
    figure(&[
        (A, 1, Delivered),
        (B, 1, Copy),
        (A, 2, Delivered),
        (B, 2, Copy),
        (B, 3, Delivered),
        (A, 3, Copy),
        (B, 4, Delivered),
        (B, 5, Delivered),
        (A, 5, Copy),
        (A, 6, Delivered),
        (B, 6, Copy),
    ]);
}

#[test]
fn figure_3_17() {
    figure(&[
        (A, 255, Delivered),
        (B, 255, Copy),
        (A, 1, Delivered),
        (B, 1, Copy),
        (A, 0, Delivered),
        (B, 0, Copy),
        (B, 1, Delivered),
        (A, 1, Copy),
        (A, 2, Delivered),
        (B, 2, Copy),
    ]);
}

#[test]
fn figure_3_18() {
    let mut frames = vec![(A, 1, Delivered), (B, 1, Copy)];
    for number in 2..=6 {
        frames.extend([(A, number, Delivered), (B, 9, OutOfSequence)]);
    }
    figure(&frames);
    // The same with every stuck frame at the end.
    frames.sort_by_key(|frame| frame.2 == OutOfSequence);
    figure(&frames);
}

/// The source drops B2; Q-1 promises no rising order.
#[test]
fn figure_3_20_as_q_1_has_it() {
    figure(&[
        (A, 1, Delivered),
        (B, 1, Copy),
        (A, 3, Delivered),
        (B, 2, Delivered),
        (B, 3, Copy),
    ]);
}

/// Every number after a last one, on a fresh link each.
fn passing(network: Network, last: Option<u8>) -> Vec<u8> {
    let passes = |&number: &u8| {
        let mut station = Station::with_skew(SKEW);
        if let Some(last) = last {
            station.expect(network, last, 10, Delivered);
        }
        match station.take(LINK, network, number, 20) {
            Delivered => true,
            OutOfSequence => false,
            answer => panic!("{answer:?} on one network alone"),
        }
    };
    (0..=255).filter(passes).collect()
}

#[test]
fn steps_from_every_number() {
    let table = [
        (0, [0, 1, 2]),
        (252, [0, 253, 254]),
        (253, [0, 254, 255]),
        (254, [0, 1, 255]),
        (255, [0, 1, 2]),
    ];
    for network in [A, B] {
        assert_eq!(passing(network, None), Vec::from_iter(0..=255));
        for (last, numbers) in table {
            assert_eq!(passing(network, Some(last)), numbers);
        }
        for last in 1..=252 {
            assert_eq!(passing(network, Some(last)), [0, last + 1, last + 2]);
        }
    }
}

#[test]
fn the_first_on_each_network() {
    let mut station = Station::with_skew(SKEW);
    station.expect(A, 100, 1, Delivered);
    // The first on B, whatever came on A.
    station.expect(B, 7, 2, Delivered);
    station.expect(B, 101, 3, OutOfSequence);
    station.expect(A, 101, 4, Delivered);
}

#[test]
fn age_up_to_skew_max() {
    for skew in [0, 1, 255, 256, 65_535, 65_536, SKEW, 1 << 31, u32::MAX] {
        for first in [0, 77, u64::from(u32::MAX), u64::MAX - (1 << 33)] {
            let edge = first + u64::from(skew);
            let mut station = Station::with_skew(skew);
            station.expect(A, 9, first, Delivered);
            station.clone().expect(B, 9, first, Copy);
            station.clone().expect(B, 9, edge, Copy);
            station.clone().expect(B, 9, edge + 1, Delivered);
            station.expect(B, 9, u64::MAX, Delivered);
        }
    }
}

#[test]
fn skew_max_0_takes_equal_stamps() {
    let mut station = Station::with_skew(0);
    station.expect(B, 5, 40, Delivered);
    station.expect(A, 5, 40, Copy);
    station.expect(A, 6, 40, Delivered);
    station.expect(B, 6, 41, Delivered);
    station.expect(B, 7, 41, Delivered);
    station.expect(A, 7, 41, Copy);
}

#[test]
fn a_delivery_meets_one_copy() {
    let mut station = Station::with_skew(SKEW);
    station.expect(A, 0, 100, Delivered);
    station.expect(B, 0, 110, Copy);
    station.expect(B, 0, 120, Delivered);
    // That one is open on B now, and A's frame is its copy.
    station.expect(A, 0, 130, Copy);
    station.expect(A, 0, 140, Delivered);
    // Round about: 1 is met, then comes on B again after a reset.
    let mut station = Station::with_skew(SKEW);
    station.expect(A, 1, 10, Delivered);
    station.expect(B, 1, 10, Copy);
    station.expect(B, 0, 10, Delivered);
    station.expect(B, 1, 10, Delivered);
}

#[test]
fn only_the_latest_delivery_counts() {
    let mut station = Station::with_skew(10);
    station.expect(A, 0, 100, Delivered);
    station.expect(A, 0, 105, Delivered);
    // Age 11 of the first, 6 of the second.
    station.expect(B, 0, 111, Copy);
    // The second is met, the first is gone.
    station.expect(B, 0, 111, Delivered);
    // An older one that is too old doesn't hide the newer one.
    let mut station = Station::with_skew(10);
    station.expect(A, 0, 100, Delivered);
    station.expect(B, 0, 111, Delivered);
    station.expect(A, 0, 121, Copy);
    station.expect(B, 0, 122, Delivered);
}

#[test]
fn the_same_network_makes_no_copy() {
    let mut station = Station::with_skew(u32::MAX);
    for stamp in [3, 3, 4] {
        station.expect(B, 0, stamp, Delivered);
    }
    station.expect(A, 0, 4, Copy);
    station.expect(A, 0, 4, Delivered);
}

#[test]
fn stamps_at_the_far_end() {
    let mut station = Station::with_skew(SKEW);
    let edge = u64::MAX - u64::from(SKEW);
    station.expect(A, 1, edge - 1, Delivered);
    station.expect(A, 2, edge, Delivered);
    station.expect(B, 1, u64::MAX, Delivered);
    station.expect(B, 2, u64::MAX, Copy);
    station.expect(B, 3, u64::MAX, Delivered);
    station.expect(A, 3, u64::MAX, Copy);
    station.expect(A, 4, u64::MAX - 1, Late);
    station.expect(A, 4, 0, Late);
    // 0 is no less a stamp.
    let mut station = Station::with_skew(SKEW);
    station.expect(A, 1, 0, Delivered);
    station.expect(B, 1, 0, Copy);
    station.expect(B, 2, u64::MAX, Delivered);
}

#[test]
fn zero_follows_everything() {
    let mut station = Station::with_skew(SKEW);
    for (stamp, last) in [9, 200, 255, 1, 254].into_iter().enumerate() {
        let stamp = 1_000_000 * stamp as u64;
        station.take(LINK, A, last, stamp);
        station.expect(A, 0, stamp, Delivered);
        // After it come 1 and 2, not 3.
        station.clone().expect(A, 1, stamp, Delivered);
        station.clone().expect(A, 2, stamp, Delivered);
        station.clone().expect(A, 3, stamp, OutOfSequence);
        station.clone().expect(A, 255, stamp, OutOfSequence);
    }
}

#[test]
fn laps_in_step() {
    let mut station = Station::with_skew(SKEW);
    let lap = (1..=255).cycle().take(700);
    for (stamp, number) in (0..).step_by(2_000).zip(lap) {
        station.expect(A, number, stamp, Delivered);
        station.expect(B, number, stamp + 500, Copy);
    }
}

/// A lost copy of the last lap within a large SkewMax is taken for this lap's.
#[test]
fn a_lap_within_skew_max() {
    for (skew, answer) in [(254_000, Delivered), (255_000, Copy)] {
        let mut station = Station::with_skew(skew);
        for (stamp, number) in (0..).step_by(1_000).zip(1..=255) {
            station.expect(A, number, stamp, Delivered);
        }
        station.expect(B, 1, 255_000, answer);
    }
}

#[test]
fn equal_stamps_are_in_time() {
    let mut station = Station::with_skew(SKEW);
    station.expect(A, 1, 60, Delivered);
    station.expect(A, 2, 60, Delivered);
    station.expect(B, 1, 60, Copy);
    station.expect(B, 2, 60, Copy);
    station.expect(B, 2, 60, OutOfSequence);
    station.expect(B, 3, 60, Delivered);
    assert_eq!(station.records[0], 60);
}

#[test]
fn late_on_either_network() {
    for network in [A, B] {
        let mut station = Station::with_skew(SKEW);
        station.expect(network, 1, 500, Delivered);
        for late in [A, B] {
            station.expect(late, 2, 499, Late);
            station.expect(late, 0, 0, Late);
        }
        // The late frames left no number and no stamp.
        assert_eq!(station.records[0], 500);
        station.expect(network, 2, 500, Delivered);
    }
}

#[test]
fn out_of_sequence_keeps_number_and_stamp() {
    let mut station = Station::with_skew(SKEW);
    station.expect(A, 10, 100, Delivered);
    let before = station.records.clone();
    station.expect(A, 50, 200, OutOfSequence);
    let mut expected = before;
    (expected[0], expected[1]) = (200, 51);
    assert_eq!(station.records, expected);
    station.expect(B, 10, 199, Late);
    station.expect(A, 11, 200, OutOfSequence);
    station.expect(A, 13, 200, Delivered);
    // 50 was no delivery.
    station.expect(B, 50, 200, Delivered);
}

#[test]
fn what_each_answer_writes() {
    let mut station = Station::with_skew(SKEW);
    let mut expected = station.records.clone();
    station.expect(B, 255, 1_000, Delivered);
    (expected[0], expected[2]) = (1_000, 256);
    (expected[1_025], expected[1_026]) = (1, 1_000);
    assert_eq!(station.records, expected);
    // The copy opens nothing, and closes B's; the stamp word stays.
    station.expect(A, 255, 1_200, Copy);
    (expected[0], expected[1], expected[1_025]) = (1_200, 256, 0);
    assert_eq!(station.records, expected);
    station.expect(A, 0, 1_300, Delivered);
    (expected[0], expected[1], expected[3], expected[4]) = (1_300, 1, 1, 1_300);
    assert_eq!(station.records, expected);
    // A delivery replaces the open one.
    station.expect(A, 0, 1_400, Delivered);
    (expected[0], expected[4]) = (1_400, 1_400);
    assert_eq!(station.records, expected);
}

#[test]
fn a_forged_delivery_after_the_frame_is_none() {
    for (open, stamp) in [(1, 1_001), (2, 6_000), (u64::MAX, u64::MAX)] {
        let mut station = Station::with_skew(u32::MAX);
        let word = open_word(B, 20);
        (station.records[word], station.records[word + 1]) = (open, stamp);
        station.expect(A, 20, 1_000, Delivered);
        assert_eq!(station.records[word..word + 2], [open, stamp]);
        assert_eq!(station.records[open_word(A, 20)], 1);
    }
    // The difference doesn't wrap: 3 is not 5 after 2^64 - 2.
    let mut station = Station::with_skew(5);
    let word = open_word(A, 20);
    (station.records[word], station.records[word + 1]) = (1, u64::MAX - 1);
    station.expect(B, 20, 3, Delivered);
}

#[test]
fn any_open_word_but_0_is_open() {
    for open in [1, 2, 255, 256, 1 << 32, 1 << 63, u64::MAX] {
        let mut station = Station::with_skew(SKEW);
        let word = open_word(A, 33);
        (station.records[word], station.records[word + 1]) = (open, 500);
        station.expect(B, 33, 500, Copy);
        assert_eq!(station.records[word..word + 2], [0, 500]);
    }
}

#[test]
fn a_forged_number_leads_nowhere() {
    for forged in [257, 258, 511, 512, 513, 1 << 32, u64::MAX - 1, u64::MAX] {
        for (place, network) in [(1, A), (2, B)] {
            let mut station = Station::with_skew(SKEW);
            station.records[place] = forged;
            for number in 1..=255 {
                station.clone().expect(network, number, 9, OutOfSequence);
            }
            station.clone().expect(network, 0, 9, Delivered);
            // The word is a number's again after any frame.
            station.expect(network, 80, 9, OutOfSequence);
            assert_eq!(station.records[place], 81);
            station.expect(network, 82, 9, Delivered);
        }
    }
    // 256 is the greatest that frames leave, and stands for 255.
    let mut station = Station::with_skew(SKEW);
    station.records[1] = 256;
    station.clone().expect(A, 1, 9, Delivered);
    station.clone().expect(A, 2, 9, Delivered);
    station.expect(A, 3, 9, OutOfSequence);
}

#[test]
fn a_row_in_part_is_none() {
    let whole = Station::of(&[(1, SKEW), (LINK, SKEW)]);
    for octets in 0..=whole.rows.len() {
        let mut station = whole.clone();
        station.rows.truncate(octets);
        let answer = if octets == 12 { Delivered } else { UnknownLink };
        assert_eq!(station.take(LINK, A, 1, 5), answer);
        let answer = if octets >= 6 { Delivered } else { UnknownLink };
        assert_eq!(station.take(1, A, 1, 5), answer);
    }
}

#[test]
fn a_record_in_part_is_none() {
    for words in [0, 1, 3, 1_026, 1_027, 1_028, 2_053, 2_054, 2_055, 4_000] {
        let mut station = Station::of(&[(1, SKEW), (LINK, SKEW)]);
        station.records = (0..words as u64).map(|n| n % 3).collect();
        let ends = [1_027, 2_054].map(|words| words.min(station.records.len()));
        let before = station.records.clone();
        let known = |in_use| if in_use { Delivered } else { UnknownLink };
        assert_eq!(station.take(LINK, A, 0, 5), known(words >= 2_054));
        assert_eq!(station.records[..ends[0]], before[..ends[0]]);
        assert_eq!(station.take(1, B, 0, 5), known(words >= 1_027));
        // Words beyond the rows in use stay, and rows beyond the words.
        assert_eq!(station.records[ends[1]..], before[ends[1]..]);
    }
}

#[test]
fn more_octets_than_rows() {
    let mut station = Station::of(&[(1, SKEW)]);
    station.rows.extend(LINK.to_be_bytes());
    station.records.resize(5 * RECORD_WORDS, 0);
    assert_eq!(station.rows.len(), RECEIVE_ROW + 2);
    assert_eq!(station.take(LINK, A, 1, 5), UnknownLink);
    assert_eq!(station.take(1, A, 1, 5), Delivered);
    let nothing = receive(LINK, B, 0, 0, &[], &mut []);
    assert_eq!(nothing, UnknownLink);
}

#[test]
fn the_first_row_with_a_number_counts() {
    let mut station = Station::of(&[(1, 0), (LINK, 10), (LINK, 1_000), (1, u32::MAX)]);
    assert_eq!(station.take(LINK, A, 1, 0), Delivered);
    assert_eq!(station.take(LINK, B, 1, 11), Delivered);
    assert_eq!(station.take(1, A, 1, 0), Delivered);
    assert_eq!(station.take(1, B, 1, 1), Delivered);
    assert!(station.records[2 * RECORD_WORDS..].iter().all(|&w| w == 0));
}

#[test]
fn numbers_have_their_high_octet_first() {
    let mut station = Station::of(&[(0x0102, 0x0102_0304)]);
    assert_eq!(station.rows, [1, 2, 1, 2, 3, 4]);
    assert_eq!(station.take(0x0201, A, 1, 0), UnknownLink);
    assert_eq!(station.take(0x0102, A, 1, 0), Delivered);
    let mut later = station.clone();
    assert_eq!(later.take(0x0102, B, 1, 0x0102_0305), Delivered);
    assert_eq!(station.take(0x0102, B, 1, 0x0102_0304), Copy);
}

#[test]
fn an_unknown_link_comes_first() {
    // Late too, were it known by the row beyond.
    let mut station = Station::of(&[(1, SKEW), (LINK, SKEW)]);
    assert_eq!(station.take(LINK, A, 9, 700), Delivered);
    assert_eq!(station.take(LINK, A, 9, 699), Late);
    station.records.pop();
    assert_eq!(station.take(LINK, A, 9, 699), UnknownLink);
    assert_eq!(station.take(2, A, 9, 699), UnknownLink);
}

#[test]
fn links_keep_to_themselves() {
    let mut both = Station::of(&[(1, 50), (LINK, 500)]);
    let mut alone = both.clone();
    let mut dice = Dice(664);
    for stamp in 0..3_000 {
        let (number, stamp) = (dice.below(4) as u8, stamp * 20 - dice.below(3).min(stamp));
        let network = dice.pick(&[A, B]);
        if dice.below(2) == 0 {
            both.take(1, network, number, stamp);
        } else {
            let answer = both.take(LINK, network, number, stamp);
            assert_eq!(alone.take(LINK, network, number, stamp), answer);
        }
    }
    assert_eq!(both.records[RECORD_WORDS..], alone.records[RECORD_WORDS..]);
}

/// Garbage of any length is answered.
#[test]
fn anything_lent_gets_an_answer() {
    let mut dice = Dice(7_777);
    for _ in 0..20_000 {
        let octets = dice.below(20) as usize;
        let words = dice.pick(&[0, 5, 1_026, 1_027, 1_028, 2_054, 3_000]);
        let rows: Vec<u8> = dice.octets(octets).iter().map(|o| o % 2).collect();
        let fill = dice.next() >> dice.below(64);
        let mut station = Station {
            rows,
            records: vec![fill; words],
        };
        let link = 256 * dice.below(2) as u16 + dice.below(2) as u16;
        let (number, stamp) = (dice.below(256) as u8, dice.next() >> dice.below(64));
        let network = dice.pick(&[A, B]);
        station.take(link, network, number, stamp);
    }
}
