//! The cases of the bench sheet, 1 to 13; case 14 is with the replay tests.

mod common;

use common::{frame, fresh, image_p, Switch, IMAGE_P, MASK};
use policer::{check, header, payload, Account, Loaded, Outcome, Verdict};

/// Cases 2 to 10: octets, time, code, credit.
const CASES: [(usize, u64, u8, u32); 9] = [
    (200, 0, 0, 100_000),
    (200, 499, 9, 199_800),
    (200, 500, 0, 0),
    (200, 499, 8, 0),
    (200, 1_499, 9, 199_800),
    (200, 1_500, 0, 0),
    (64, 1_500, 9, 0),
    (64, 1_820, 0, 0),
    (200, u64::MAX, 0, 100_000),
];

#[test]
fn case_1_capacity() {
    assert_eq!(fresh(200, 0, 500, 0).capacity(), 300_000);
    assert_eq!(Switch::load(&IMAGE_P).credits, [300_000]);
    assert_eq!(Switch::load(&IMAGE_P).lasts, [0]);
}

#[test]
fn cases_2_to_10_by_steps() {
    let mut account = fresh(200, 0, 500, 0);
    let mut last = 0;
    for (octets, time, code, credit) in CASES {
        let outcome = account.police(octets, time);
        let expected = match code {
            0 => Outcome::Forwarded(credit),
            8 => Outcome::Late(credit),
            _ => Outcome::Short(credit),
        };
        assert_eq!(outcome, expected);
        if code != 8 {
            last = time;
        }
        assert_eq!((account.credit, account.last), (credit, last));
    }
}

#[test]
fn cases_2_to_10_by_frames() {
    let mut switch = Switch::load(&IMAGE_P);
    let mut last = 0;
    for (octets, time, code, credit) in CASES {
        let verdict = switch.call(&frame(7, octets), 2, time);
        let expected = match code {
            0 => Verdict::Forwarded { mask: MASK, credit },
            8 => Verdict::Late(credit),
            _ => Verdict::Short(credit),
        };
        assert_eq!(verdict, expected);
        assert_eq!(verdict.code(), code);
        assert_eq!(verdict.credit(), Some(credit));
        assert_eq!(verdict.mask(), (code == 0).then_some(MASK));
        if code != 8 {
            last = time;
        }
        assert_eq!((switch.credits[0], switch.lasts[0]), (credit, last));
    }
}

#[test]
fn case_10_tops_up_to_capacity_first() {
    let mut account = Account {
        credit: 0,
        last: 1_820,
        ..fresh(200, 0, 500, 0)
    };
    account.top_up(u64::MAX);
    assert_eq!((account.credit, account.last), (300_000, u64::MAX));
    assert_eq!(account.police(200, u64::MAX), Outcome::Forwarded(100_000));
}

#[test]
fn case_11_frame_mode() {
    assert_eq!(
        fresh(200, 0, 500, 1).police(64, 0),
        Outcome::Forwarded(100_000)
    );
    assert_eq!(
        Switch::load(&image_p(1)).call(&frame(7, 64), 2, 0),
        Verdict::Forwarded {
            mask: MASK,
            credit: 100_000
        }
    );
}

#[test]
fn case_12_sizes() {
    for (octets, code) in [(63, 1), (64, 0), (200, 0), (201, 7), (1_518, 7), (1_519, 2)] {
        Switch::load(&IMAGE_P).expect(&frame(7, octets), 2, 0, code);
    }
}

#[test]
fn case_13_images() {
    let refused = |code, offset| Loaded {
        code,
        offset,
        constant: 0,
        accounts: 0,
        links: 0,
    };
    assert_eq!(check(&[]), refused(20, 0));
    assert_eq!(check(&IMAGE_P[..33]), refused(20, 33));
    let mut longer = IMAGE_P.to_vec();
    longer.push(0);
    assert_eq!(check(&longer), refused(25, 36));
    assert_eq!(
        check(&IMAGE_P),
        Loaded {
            code: 0,
            offset: 36,
            constant: 0x0300_0000,
            accounts: 1,
            links: 1
        }
    );
}

#[test]
fn frame_fields() {
    for (octets, length) in [(64, 45), (65, 46), (1_518, 1_499)] {
        let frame = frame(0x1234, octets);
        let header = header(&frame);
        assert_eq!((header.code, header.link), (0, 0x1234));
        assert_eq!(header.sequence, frame[octets - 5]);
        let part = payload(&frame);
        assert_eq!(part.len(), length);
        assert_eq!(part.as_ptr(), frame[14..].as_ptr());
        assert_eq!(part, &frame[14..octets - 5]);
    }
    for (octets, code) in [(0, 1), (1, 1), (63, 1), (1_519, 2), (5_000, 2)] {
        let frame = frame(0x1234, octets);
        let header = header(&frame);
        assert_eq!((header.code, header.link, header.sequence), (code, 0, 0));
        assert!(payload(&frame).is_empty());
        assert_eq!(payload(&frame).as_ptr(), frame.as_ptr());
    }
}
