//! The bench sheet's cases and a few histories worked by hand.

use judge::{codes, step_codes, Call, Terms};

/// The image of the bench sheet.
const IMAGE_P: [u8; 36] = [
    0x01, 0x00, 0x05, 0x01, 0x03, 0x00, 0x00, 0x00, //
    0x02, 0x00, 0x06, 0x00, 0xC8, 0x00, 0x01, 0xF4, 0x00, //
    0x03, 0x00, 0x0D, 0x00, 0x07, 0x02, 0x00, 0x00, 0x00, 0x08, 0x00, 0x40, 0x00, 0xC8, 0x00, 0x00,
    0x09, 0x00, 0x00,
];

/// The same in another mode.
fn image_p(mode: u8) -> [u8; 36] {
    let mut image = IMAGE_P;
    image[16] = mode;
    image
}

const TERMS_P: Terms = Terms {
    smax: 200,
    k: 0,
    jitter: 500,
    mode: 0,
};

fn frame(link: u16, octets: usize) -> Vec<u8> {
    let mut frame = vec![0; octets];
    for (place, octet) in frame.iter_mut().zip([3, 0, 0, 0]) {
        *place = octet;
    }
    for (place, octet) in frame.iter_mut().skip(4).zip(link.to_be_bytes()) {
        *place = octet;
    }
    frame
}

/// Codes of calls given as (link, octets, port, time).
fn judged(image: &[u8], calls: &[(u16, usize, u32, u64)]) -> Vec<u8> {
    let frames: Vec<Vec<u8>> = calls.iter().map(|call| frame(call.0, call.1)).collect();
    let calls: Vec<Call> = calls
        .iter()
        .zip(&frames)
        .map(|(&(_, _, port, time), frame)| Call { frame, port, time })
        .collect();
    codes(image, &calls)
}

const STEPS: [(usize, u64); 9] = [
    (200, 0),
    (200, 499),
    (200, 500),
    (200, 499),
    (200, 1_499),
    (200, 1_500),
    (64, 1_500),
    (64, 1_820),
    (200, u64::MAX),
];
const STEP_CODES: [u8; 9] = [0, 9, 0, 8, 9, 0, 9, 0, 0];

#[test]
fn cases_2_to_10() {
    assert_eq!(step_codes(&TERMS_P, &STEPS), STEP_CODES);
    let calls: Vec<_> = STEPS
        .iter()
        .map(|&(octets, time)| (7, octets, 2, time))
        .collect();
    assert_eq!(judged(&IMAGE_P, &calls), STEP_CODES);
}

#[test]
fn case_11_frame_mode() {
    // 300,000 pays for one frame of 64 at Smax, not for two.
    let terms = Terms { mode: 1, ..TERMS_P };
    assert_eq!(step_codes(&terms, &[(64, 0), (64, 0)]), [0, 9]);
    assert_eq!(
        step_codes(&terms, &[(64, 0), (64, 499), (64, 500)]),
        [0, 9, 0]
    );
    // Byte mode pays for four.
    assert_eq!(step_codes(&TERMS_P, &[(64, 0); 5]), [0, 0, 0, 0, 9]);
}

/// Cases 2 to 7 with line octets. From the first frame at 500: 440,000 <= 220 x
/// 2,000. From it at 1,500: 660,000 <= 220 x 3,000. Each a microsecond early is
/// 220 too little.
#[test]
fn line_octets() {
    let codes = [0, 9, 0, 8, 9, 0];
    for mode in [2, 3] {
        let terms = Terms { mode, ..TERMS_P };
        assert_eq!(step_codes(&terms, &STEPS[..6]), codes);
        let calls: Vec<_> = STEPS[..6]
            .iter()
            .map(|&(octets, time)| (7, octets, 2, time))
            .collect();
        assert_eq!(judged(&image_p(mode), &calls), codes);
    }
}

/// A frame of 64 octets costs 84,000.
#[test]
fn line_octets_in_byte_mode() {
    let terms = Terms { mode: 2, ..TERMS_P };
    // 330,000 pays for three, byte mode without line octets for four.
    assert_eq!(step_codes(&terms, &[(64, 0); 4]), [0, 0, 0, 9]);
    // Four cost 336,000 <= 220 x 1,528 = 336,160, but > 220 x 1,527 = 335,940.
    let mut steps = vec![(64, 0); 3];
    steps.extend([(64, 27), (64, 28)]);
    assert_eq!(step_codes(&terms, &steps), [0, 0, 0, 9, 0]);
    // A fifth: 420,000 <= 220 x 1,910 = 420,200, but > 220 x 1,909 = 419,980.
    steps.extend([(64, 409), (64, 410)]);
    assert_eq!(step_codes(&terms, &steps), [0, 0, 0, 9, 0, 9, 0]);
    // Sizes: 310 octets just fit the allowance, as 330,000 = 330 x 1,000.
    for (octets, code) in [(63, 1), (310, 0), (311, 9), (1_518, 9), (1_519, 2)] {
        assert_eq!(step_codes(&terms, &[(octets, 0)]), [code]);
    }
}

#[test]
fn line_octets_in_frame_mode() {
    let terms = Terms { mode: 3, ..TERMS_P };
    // 330,000 pays for one frame of any size.
    for octets in [64, 200, 1_518] {
        let steps = [(octets, 0), (octets, 0), (64, 499), (64, 500)];
        assert_eq!(step_codes(&terms, &steps), [0, 9, 9, 0]);
    }
    for (octets, code) in [(63, 1), (1_519, 2)] {
        assert_eq!(step_codes(&terms, &[(octets, 0)]), [code]);
    }
}

/// A link's sizes are not moved by line octets.
#[test]
fn line_octets_are_not_sizes() {
    for mode in 0..=3 {
        for (octets, code) in [(63, 1), (64, 0), (200, 0), (201, 7), (220, 7), (1_519, 2)] {
            assert_eq!(judged(&image_p(mode), &[(7, octets, 2, 0)]), [code]);
        }
    }
}

#[test]
fn case_12_sizes() {
    for (octets, code) in [(63, 1), (64, 0), (200, 0), (201, 7), (1_518, 7), (1_519, 2)] {
        assert_eq!(judged(&IMAGE_P, &[(7, octets, 2, 0)]), [code]);
    }
    // Steps know no link: 300 octets just fit the allowance.
    for (octets, code) in [(0, 1), (63, 1), (300, 0), (301, 9), (1_518, 9), (1_519, 2)] {
        assert_eq!(step_codes(&TERMS_P, &[(octets, 0)]), [code]);
    }
}

#[test]
fn case_14_codes() {
    let calls = [
        (7, 200, 2, 0),
        (7, 200, 2, 499),
        (7, 200, 2, 500),
        (7, 200, 2, 499),
        (8, 200, 2, 600),
    ];
    assert_eq!(judged(&IMAGE_P, &calls), [0, 9, 0, 8, 4]);
}

#[test]
fn empty_history() {
    assert!(codes(&IMAGE_P, &[]).is_empty());
    assert!(step_codes(&TERMS_P, &[]).is_empty());
}

#[test]
fn filter_codes_in_order() {
    let mut off = frame(8, 64);
    off[3] = 1;
    let short = &off[..63];
    let call = |frame, port| Call {
        frame,
        port,
        time: 0,
    };
    let unknown = frame(8, 64);
    let good = frame(7, 64);
    let long = frame(7, 201);
    let calls = [
        call(short, 9),
        call(&[], 9),
        call(&off, 9),
        call(&unknown, 9),
        call(&good, 9),
        call(&good, 34),
        call(&good, u32::MAX),
        call(&long, 9),
        call(&long, 2),
        call(&good, 2),
    ];
    assert_eq!(codes(&IMAGE_P, &calls), [1, 1, 3, 4, 5, 5, 5, 5, 7, 0]);
    let mut image = IMAGE_P;
    image[28] = 100;
    assert_eq!(
        judged(&image, &[(7, 99, 3, 0), (7, 99, 2, 0), (7, 100, 2, 0)]),
        [5, 6, 0]
    );
}

#[test]
fn refused_frames_leave_no_trace() {
    // Frames that don't reach the account don't move its last time.
    let calls = [
        (7, 63, 2, 9_000),
        (8, 64, 2, 9_000),
        (7, 64, 3, 9_000),
        (7, 201, 2, 9_000),
        (7, 200, 2, 100),
        (7, 64, 2, 99),
        (7, 64, 2, 100),
    ];
    assert_eq!(judged(&IMAGE_P, &calls), [1, 4, 5, 7, 0, 8, 0]);
}

#[test]
fn a_short_frame_reaches_but_costs_nothing() {
    // The 9 at 499 makes 100 late, and isn't charged at 500.
    let steps = [(200, 0), (200, 499), (64, 100), (200, 500)];
    assert_eq!(step_codes(&TERMS_P, &steps), [0, 9, 8, 0]);
    // Late frames don't reach. From 200: 364,000 <= 200 x (1,500 + 320).
    let steps = [
        (200, 200),
        (64, 100),
        (64, 150),
        (100, 200),
        (64, 519),
        (64, 520),
    ];
    assert_eq!(step_codes(&TERMS_P, &steps), [0, 8, 8, 0, 9, 0]);
}

/// The bound that fails may lie at a frame in the middle. With Smax 100, BAG
/// 1,000 and no jitter, a frame of 100 octets uses the whole allowance.
#[test]
fn the_middle_frame_decides() {
    let terms = Terms {
        smax: 100,
        k: 0,
        jitter: 0,
        mode: 0,
    };
    // From 0: 100,000 + 100,000 + 64,000 <= 100 x 101,639, easily. From the
    // frame at 100,000: 164,000 <= 100 x (1,000 + 639) fails, with 640 holds.
    let steps = [(100, 0), (100, 100_000), (64, 100_639), (64, 100_640)];
    assert_eq!(step_codes(&terms, &steps), [0, 0, 9, 0]);
    // Both bounds only just met: 128,000 <= 100 x 1,280 from the frame at
    // 1,000, and 228,000 <= 100 x 2,280 from the one at 0.
    let steps = [(100, 0), (64, 1_000), (64, 1_280)];
    assert_eq!(step_codes(&terms, &steps), [0, 0, 0]);
    // The first frame decides: from 640 there is room at 1,279, from 0 not.
    let steps = [(100, 0), (64, 640), (64, 1_279), (64, 1_280)];
    assert_eq!(step_codes(&terms, &steps), [0, 0, 9, 0]);
}

/// The same with line octets: with Smax 100 a frame of 100 octets costs 120,000,
/// one of 64 octets 84,000, and a microsecond is worth 120.
#[test]
fn the_middle_frame_decides_with_line_octets() {
    let terms = Terms {
        smax: 100,
        k: 0,
        jitter: 0,
        mode: 2,
    };
    // From the frame at 100,000: 204,000 <= 120 x (1,000 + 700), not with 699.
    let steps = [(100, 0), (100, 100_000), (64, 100_699), (64, 100_700)];
    assert_eq!(step_codes(&terms, &steps), [0, 0, 9, 0]);
    // From 700 there is room at 1,399, from 0 not: 288,000 > 120 x 2,399.
    let steps = [(100, 0), (64, 700), (64, 1_399), (64, 1_400)];
    assert_eq!(step_codes(&terms, &steps), [0, 0, 9, 0]);
    // In frame mode each costs 120,000, a microsecond's worth a thousand times.
    let terms = Terms { mode: 3, ..terms };
    let steps = [(100, 0), (64, 999), (64, 1_000), (100, 1_999), (64, 2_000)];
    assert_eq!(step_codes(&terms, &steps), [0, 9, 0, 9, 0]);
}

#[test]
fn times_at_the_far_end() {
    let steps = [
        (200, u64::MAX - 500),
        (200, u64::MAX - 1),
        (200, u64::MAX),
        (200, u64::MAX),
        (200, 0),
    ];
    assert_eq!(step_codes(&TERMS_P, &steps), [0, 9, 0, 9, 8]);
    for mode in 0..=3 {
        let widest = Terms {
            smax: 1_518,
            k: 7,
            jitter: 10_000,
            mode,
        };
        let steps = [
            (1_518, 0),
            (1_518, 117_999),
            (1_518, 118_000),
            (1_518, u64::MAX),
        ];
        assert_eq!(step_codes(&widest, &steps), [0, 9, 0, 0]);
    }
}

/// Two accounts, links 1 and 3 on the first, 2 on the second.
fn two_accounts() -> Vec<u8> {
    let mut image = IMAGE_P[..17].to_vec();
    image.extend(&IMAGE_P[8..17]);
    for (number, account) in [(1, 0), (2, 1), (3, 0)] {
        let mut link = IMAGE_P[17..33].to_vec();
        link[4] = number;
        link[15] = account;
        image.extend(link);
    }
    image.extend(&IMAGE_P[33..]);
    image
}

#[test]
fn accounts_apart_and_shared() {
    let calls = [
        (1, 200, 2, 5_000),
        (2, 200, 2, 10), // another account, another last time
        (3, 200, 2, 4_999),
        (3, 200, 2, 5_000),
        (3, 100, 2, 5_000),
        (2, 100, 2, 10),
        (2, 64, 2, 10),
    ];
    assert_eq!(judged(&two_accounts(), &calls), [0, 0, 8, 9, 0, 0, 9]);
}

#[test]
#[should_panic]
fn terms_of_no_image() {
    step_codes(&Terms { k: 8, ..TERMS_P }, &[]);
}

#[test]
#[should_panic]
fn a_mode_of_no_image() {
    step_codes(&Terms { mode: 4, ..TERMS_P }, &[]);
}

#[test]
#[should_panic]
fn no_image() {
    codes(&[], &[]);
}
