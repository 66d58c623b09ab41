//! Receptions worked by hand: the source's figures, steps, ages and refusals.

use judge::receive::{answers, Arrival, Network};

/// Link 3 with a SkewMax of 1,000 and link 4 with none, then each once more.
const ROWS: [u8; 24] = [
    0, 3, 0, 0, 0x03, 0xE8, //
    0, 4, 0, 0, 0, 0, //
    0, 3, 0, 0, 0, 0, //
    0, 4, 0xFF, 0xFF, 0xFF, 0xFF,
];

/// A frame written as its network and number, as "A7".
fn arrival(link: u16, word: &str, stamp: u64) -> Arrival {
    let network = match &word[..1] {
        "A" => Network::A,
        "B" => Network::B,
        other => panic!("no network {other}"),
    };
    Arrival {
        link,
        network,
        number: word[1..].parse().expect("a sequence number"),
        stamp,
    }
}

/// Words such as "A7" or "B7@120" on link 3; without a stamp each is at the
/// last one's. What comes out is a letter a frame: d, c, o or l.
fn letters(rows: &[u8], words: &str) -> String {
    let mut stamp = 0;
    let mut frames = vec![];
    for word in words.split_whitespace() {
        let (frame, at) = word.split_once('@').unwrap_or((word, ""));
        if !at.is_empty() {
            stamp = at.parse().expect("a stamp");
        }
        frames.push(arrival(3, frame, stamp));
    }
    let letter = |answer| match answer {
        0 => 'd',
        8 => 'l',
        30 => 'c',
        31 => 'o',
        _ => '?',
    };
    answers(rows, 4, &frames).into_iter().map(letter).collect()
}

#[test]
fn figures() {
    let figures = [
        // 3-15 to 3-18, then 3-20 as Q-1 has it: B2 goes up after A3.
        ("A1 B1 A2 B2 A3 B99 A4 B4 B5 A5 A6 B6", "dcdcdododcdc"),
        ("A1 B1 A2 B2 B3 A3 B4 B5 A5 A6 B6", "dcdcdcddcdc"),
        ("A255 B255 A1 B1 A0 B0 B1 A1 A2 B2", "dcdcdcdcdc"),
        ("A1 B1 A2 B9 A3 B9 A4 B9 A5 B9 A6 B9", "dcdododododo"),
        ("A1 B1 A3 B2 B3", "dcddc"),
    ];
    for (words, expected) in figures {
        assert_eq!(letters(&ROWS, words), expected, "{words}");
    }
}

#[test]
fn steps() {
    for (last, one, two) in [
        (0, 1, 2),
        (1, 2, 3),
        (252, 253, 254),
        (253, 254, 255),
        (254, 255, 1),
        (255, 1, 2),
    ] {
        for number in 0..=255 {
            let words = format!("A{last} A{number}");
            let passes = [0, one, two].contains(&number);
            let expected = if passes { "dd" } else { "do" };
            assert_eq!(letters(&ROWS, &words), expected, "{words}");
        }
    }
    for number in 0..=255 {
        assert_eq!(letters(&ROWS, &format!("B{number}")), "d");
    }
}

#[test]
fn ages() {
    assert_eq!(letters(&ROWS, "A5@70 B5@1070"), "dc");
    assert_eq!(letters(&ROWS, "A5@70 B5@1071"), "dd");
    assert_eq!(letters(&ROWS, "B5@0 A5@1000 A6@1000 B6@2001"), "dcdd");
    // The last stamps there are.
    let words = "A5@18446744073709550615 A6 B5@18446744073709551615 B6 A7 B7";
    assert_eq!(letters(&ROWS, words), "ddccdc");
    let words = "A5@18446744073709550614 B5@18446744073709551615";
    assert_eq!(letters(&ROWS, words), "dd");
    // No row like the first: a SkewMax of 0 takes equal stamps alone.
    assert_eq!(letters(&ROWS[12..], "A5@9 B5 B6 A6@10"), "dcdd");
    let widest = [0, 3, 0xFF, 0xFF, 0xFF, 0xFF];
    assert_eq!(letters(&widest, "A5@1 A6@2 B5@4294967296 B6"), "ddcc");
    assert_eq!(letters(&widest, "A5@1 A6@2 B5@4294967297 B6"), "dddc");
}

#[test]
fn deliveries_meet_one_copy_each() {
    assert_eq!(letters(&ROWS, "A0 B0 B0 A0 A0 B0"), "dcdcdc");
    // Replaced before it was met: one copy, not two.
    assert_eq!(letters(&ROWS, "A0 A0 B0 B0"), "ddcd");
    assert_eq!(letters(&ROWS, "A0@0 A0@600 B0@1600 B0@1600"), "ddcd");
    // Too old, so B0 goes up too; then each has its own copy to meet.
    assert_eq!(letters(&ROWS, "A0@0 B0@1001 A0@2001 B0@2001"), "ddcd");
}

#[test]
fn numbers_and_stamps_are_kept() {
    // Out of sequence: the number counts for the next, the stamp too.
    assert_eq!(letters(&ROWS, "A1@5 A9@8 A2@8 A4@8 A5@7 B1@8"), "doodlc");
    // Late: neither, on either network.
    assert_eq!(letters(&ROWS, "A1@5 A2@4 B1@3 A2@5 B1@5 B2@5"), "dlldcc");
    assert_eq!(letters(&ROWS, "B1@5 A1@4 A1@5"), "dlc");
}

#[test]
fn laps() {
    let both: String = (1..=255).map(|n| format!("A{n} B{n} ")).collect();
    assert_eq!(letters(&ROWS, &both.repeat(2)), "dc".repeat(510));
    // A1 has no copy, and the next lap's B1 is taken for it if it's in time.
    let lap: String = (1..=255).map(|n| format!("A{n} ")).collect();
    for (first, answer) in [("B1@1000", "c"), ("B1@1001", "d")] {
        assert_eq!(
            letters(&ROWS, &(lap.clone() + first)),
            "d".repeat(255) + answer
        );
    }
}

#[test]
fn links_apart() {
    let frames = [
        arrival(3, "A1", 900),
        arrival(4, "B1", 100), // before the other link's stamp
        arrival(4, "A1", 101), // SkewMax 0
        arrival(5, "A1", 0),
        arrival(3, "B1", 1_900),
        arrival(4, "A9", 101),
        arrival(3, "A2", 1_899),
        arrival(0x0300, "A2", 1_900),
    ];
    assert_eq!(answers(&ROWS, 4, &frames), [0, 0, 0, 4, 30, 31, 8, 4]);
}

#[test]
fn rows_in_use() {
    let frames = [arrival(3, "A1", 0), arrival(4, "A1", 0)];
    for (octets, in_use, expected) in [
        (24, 9, [0, 0]),
        (24, 1, [0, 4]),
        (24, 0, [4, 4]),
        (12, 2, [0, 0]),
        (11, 2, [0, 4]),
        (5, 2, [4, 4]),
        (0, usize::MAX, [4, 4]),
    ] {
        assert_eq!(answers(&ROWS[..octets], in_use, &frames), expected);
    }
    assert!(answers(&ROWS, 4, &[]).is_empty());
}
