//! The account's methods, at and beyond their edges.

mod common;

use common::{fresh, Dice};
use policer::{Account, Outcome};

/// Sound terms at the ends of their ranges.
const SOUND: [(u16, u8, u16, u8); 14] = [
    (64, 0, 0, 0),
    (64, 7, 10_000, 1),
    (64, 0, 0, 2),
    (64, 7, 10_000, 3),
    (1_518, 0, 0, 1),
    (1_518, 0, 0, 3),
    (1_518, 7, 10_000, 0),
    (1_518, 7, 10_000, 1),
    (1_518, 7, 10_000, 2),
    (1_518, 7, 10_000, 3),
    (200, 3, 500, 0),
    (200, 3, 500, 1),
    (200, 3, 500, 2),
    (200, 3, 500, 3),
];

/// The same just outside, and far outside.
const UNSOUND: [(u16, u8, u16, u8); 21] = [
    (0, 0, 0, 0),
    (63, 0, 0, 0),
    // Smax itself has the limits, not Smax with the line octets.
    (44, 0, 0, 2),
    (63, 0, 0, 2),
    (63, 0, 0, 3),
    (1_519, 0, 0, 0),
    (1_519, 0, 0, 2),
    (1_519, 0, 0, 3),
    (1_538, 0, 0, 3),
    (u16::MAX, 0, 0, 0),
    (200, 8, 500, 0),
    (200, 32, 500, 0),
    (200, 255, 500, 0),
    (200, 0, 10_001, 0),
    (200, 0, u16::MAX, 0),
    (200, 0, 500, 4),
    (200, 0, 500, 5),
    (200, 0, 500, 6),
    (200, 0, 500, 7),
    (200, 0, 500, 255),
    (u16::MAX, 255, u16::MAX, 255),
];

/// Line octets by mode.
const CHARGE: [u16; 4] = [0, 0, 20, 20];

fn with(terms: (u16, u8, u16, u8), credit: u32, last: u64) -> Account {
    Account {
        smax: terms.0,
        k: terms.1,
        jitter: terms.2,
        mode: terms.3,
        credit,
        last,
    }
}

#[test]
fn capacity_and_cost() {
    assert_eq!(fresh(1_518, 7, 10_000, 0).capacity(), 209_484_000);
    assert_eq!(fresh(1_518, 7, 10_000, 0).cost(1_518), 194_304_000);
    assert_eq!(fresh(64, 7, 0, 0).cost(1_518), 194_304_000);
    assert_eq!(fresh(64, 0, 0, 0).capacity(), 64_000);
    assert_eq!(fresh(200, 1, 500, 0).cost(64), 128_000);
    assert_eq!(fresh(200, 1, 500, 1).cost(64), 400_000);
    assert_eq!(fresh(1_518, 7, 10_000, 2).capacity(), 212_244_000);
    assert_eq!(fresh(1_518, 7, 10_000, 3).capacity(), 212_244_000);
    assert_eq!(fresh(1_518, 7, 10_000, 2).cost(1_518), 196_864_000);
    assert_eq!(fresh(1_518, 7, 10_000, 3).cost(64), 196_864_000);
    assert_eq!(fresh(64, 7, 0, 2).cost(1_518), 196_864_000);
    assert_eq!(fresh(64, 0, 0, 2).capacity(), 84_000);
    assert_eq!(fresh(64, 0, 0, 3).capacity(), 84_000);
    assert_eq!(fresh(200, 1, 500, 2).cost(64), 168_000);
    assert_eq!(fresh(200, 1, 500, 3).cost(64), 440_000);
}

#[test]
fn sizes_that_cost() {
    for (octets, costs) in [
        (0, [0; 4]),
        (63, [0; 4]),
        (64, [64_000, 200_000, 84_000, 220_000]),
        (200, [200_000, 200_000, 220_000, 220_000]),
        (1_518, [1_518_000, 200_000, 1_538_000, 220_000]),
        (1_519, [0; 4]),
        (usize::MAX, [0; 4]),
    ] {
        for (mode, cost) in (0..).zip(costs) {
            assert_eq!(fresh(200, 0, 500, mode).cost(octets), cost, "mode {mode}");
        }
    }
}

#[test]
fn sound_terms_answer() {
    for terms in SOUND {
        let account = with(terms, 0, 0);
        let smax = u64::from(terms.0 + CHARGE[usize::from(terms.3)]);
        let capacity = smax * ((1_000 << terms.1) + u64::from(terms.2));
        assert_eq!(u64::from(account.capacity()), capacity);
        let full = with(terms, capacity as u32, 0);
        assert_eq!(full.capacity(), capacity as u32);
        assert!(matches!(full.clone().police(64, 0), Outcome::Forwarded(_)));
    }
}

#[test]
fn credit_above_capacity_is_unsound() {
    for terms in SOUND {
        let capacity = with(terms, 0, 0).capacity();
        for credit in [capacity + 1, u32::MAX] {
            refuses_as_unsound(with(terms, credit, 5));
        }
    }
}

#[test]
fn terms_out_of_limits_are_unsound() {
    for terms in UNSOUND {
        for credit in [0, 1, u32::MAX] {
            refuses_as_unsound(with(terms, credit, 5));
        }
    }
}

fn refuses_as_unsound(account: Account) {
    assert_eq!(account.capacity(), 0);
    assert_eq!(account.cost(100), 0);
    for time in [0, 5, 6, u64::MAX] {
        let mut changed = account;
        changed.top_up(time);
        assert_eq!(changed, account);
        // Before the lateness, but after the size.
        for (octets, code) in [(63, 1), (64, 10), (1_518, 10), (1_519, 2)] {
            assert_eq!(changed.police(octets, time), Outcome::Refused(code));
            assert_eq!(changed, account);
        }
    }
}

#[test]
fn sizes_come_first() {
    let mut account = with((200, 0, 500, 0), 7, 100);
    let before = account;
    for (octets, code) in [(0, 1), (63, 1), (1_519, 2), (usize::MAX, 2)] {
        for time in [0, 100, u64::MAX] {
            assert_eq!(account.police(octets, time), Outcome::Refused(code));
            assert_eq!(account, before);
        }
    }
}

#[test]
fn late_changes_nothing() {
    let mut account = with((200, 0, 500, 0), 7, 100);
    let before = account;
    account.top_up(99);
    assert_eq!(account, before);
    assert_eq!(account.police(64, 99), Outcome::Late(7));
    assert_eq!(account, before);
    account.top_up(100);
    assert_eq!(account, before);
    account.top_up(101);
    assert_eq!((account.credit, account.last), (207, 101));
    assert_eq!(account.capacity(), 300_000);
    assert_eq!(account.cost(64), 64_000);
}

#[test]
fn short_is_kept() {
    let mut account = fresh(200, 0, 500, 0);
    assert_eq!(account.police(200, 0), Outcome::Forwarded(100_000));
    assert_eq!(account.police(200, 499), Outcome::Short(199_800));
    assert_eq!((account.credit, account.last), (199_800, 499));
    assert_eq!(account.police(64, 100), Outcome::Late(199_800));
    assert_eq!((account.credit, account.last), (199_800, 499));
    assert_eq!(account.police(64, 499), Outcome::Forwarded(135_800));
}

#[test]
fn a_frame_above_smax_is_a_matter_of_credit() {
    // 300,000 pays for 300 octets, though Smax is 200.
    assert_eq!(fresh(200, 0, 500, 0).police(300, 0), Outcome::Forwarded(0));
    assert_eq!(
        fresh(200, 0, 500, 0).police(301, 0),
        Outcome::Short(300_000)
    );
    assert_eq!(
        fresh(200, 0, 500, 1).police(1_518, 0),
        Outcome::Forwarded(100_000)
    );
    // With line octets 330,000 pays for 310.
    assert_eq!(fresh(200, 0, 500, 2).police(310, 0), Outcome::Forwarded(0));
    assert_eq!(
        fresh(200, 0, 500, 2).police(311, 0),
        Outcome::Short(330_000)
    );
    assert_eq!(
        fresh(200, 0, 500, 3).police(1_518, 0),
        Outcome::Forwarded(110_000)
    );
}

/// After the bench sheet's cases 2 to 10: Smax 200, BAG 1,000, jitter
/// 500, so a capacity of 330,000 and 220 for a microsecond.
#[test]
fn byte_mode_with_line_octets() {
    let mut account = fresh(200, 0, 500, 2);
    assert_eq!(account.credit, 330_000);
    for (octets, time, outcome) in [
        (200, 0, Outcome::Forwarded(110_000)),
        (200, 499, Outcome::Short(219_780)),
        (200, 500, Outcome::Forwarded(0)),
        (200, 499, Outcome::Late(0)),
        (200, 1_499, Outcome::Short(219_780)),
        (200, 1_500, Outcome::Forwarded(0)),
        (64, 1_500, Outcome::Short(0)),
        (64, 1_881, Outcome::Short(83_820)),
        (64, 1_882, Outcome::Forwarded(40)),
        (90, 2_381, Outcome::Short(109_820)),
        (90, 2_382, Outcome::Forwarded(40)),
        (200, u64::MAX, Outcome::Forwarded(110_000)),
    ] {
        assert_eq!(account.police(octets, time), outcome);
    }
}

#[test]
fn frame_mode_with_line_octets() {
    let mut account = fresh(200, 0, 500, 3);
    assert_eq!(account.credit, 330_000);
    for (octets, time, outcome) in [
        (64, 0, Outcome::Forwarded(110_000)),
        (64, 499, Outcome::Short(219_780)),
        (64, 500, Outcome::Forwarded(0)),
        (1_518, 499, Outcome::Late(0)),
        (100, 1_499, Outcome::Short(219_780)),
        (1_518, 1_500, Outcome::Forwarded(0)),
        (64, 1_500, Outcome::Short(0)),
        (200, u64::MAX, Outcome::Forwarded(110_000)),
    ] {
        assert_eq!(account.police(octets, time), outcome);
    }
}

/// A credit of exactly the cost pays; one unit less doesn't, a microsecond on
/// it does.
#[test]
fn credit_at_the_cost() {
    for (mode, octets, cost, rate) in [
        (0, 64, 64_000, 200),
        (0, 200, 200_000, 200),
        (1, 64, 200_000, 200),
        (1, 1_518, 200_000, 200),
        (2, 64, 84_000, 220),
        (2, 200, 220_000, 220),
        (2, 310, 330_000, 220),
        (3, 64, 220_000, 220),
        (3, 1_518, 220_000, 220),
    ] {
        let terms = (200, 0, 500, mode);
        assert_eq!(with(terms, 0, 7).cost(octets), cost);
        let mut account = with(terms, cost, 7);
        assert_eq!(account.police(octets, 7), Outcome::Forwarded(0));
        let mut account = with(terms, cost - 1, 7);
        assert_eq!(account.police(octets, 7), Outcome::Short(cost - 1));
        assert_eq!((account.credit, account.last), (cost - 1, 7));
        let left = (cost - 1 + rate).min(account.capacity()) - cost;
        assert_eq!(account.police(octets, 8), Outcome::Forwarded(left));
        // The refill just reaches the cost, or falls a microsecond short.
        let mut account = with(terms, cost - 60 * rate, 7);
        assert_eq!(account.police(octets, 66), Outcome::Short(cost - rate));
        assert_eq!(account.police(octets, 67), Outcome::Forwarded(0));
    }
}

/// Capacity is the most that counts as sound, in each mode its own.
#[test]
fn credit_at_the_capacity() {
    for (terms, capacity) in [
        ((200, 0, 500, 0), 300_000),
        ((200, 0, 500, 1), 300_000),
        ((200, 0, 500, 2), 330_000),
        ((200, 0, 500, 3), 330_000),
        ((1_518, 7, 10_000, 0), 209_484_000),
        ((1_518, 7, 10_000, 1), 209_484_000),
        ((1_518, 7, 10_000, 2), 212_244_000),
        ((1_518, 7, 10_000, 3), 212_244_000),
    ] {
        let mut account = with(terms, capacity, 5);
        assert_eq!(account.capacity(), capacity);
        let left = capacity - account.cost(64);
        assert_eq!(account.police(64, 5), Outcome::Forwarded(left));
        // A full account earns nothing.
        let mut account = with(terms, capacity, 5);
        assert_eq!(account.police(64, 6), Outcome::Forwarded(left));
        refuses_as_unsound(with(terms, capacity + 1, 5));
    }
}

#[test]
fn refill_stops_at_capacity_for_any_gap() {
    for terms in SOUND {
        let capacity = with(terms, 0, 0).capacity();
        let rate = u64::from(terms.0 + CHARGE[usize::from(terms.3)]);
        let needed = u64::from(capacity) / rate;
        for gap in [
            needed,
            needed + 1,
            1 << 32,
            u64::MAX / rate,
            u64::MAX / rate + 1,
            u64::MAX - 1,
            u64::MAX,
        ] {
            let mut account = with(terms, 0, 0);
            account.top_up(gap);
            assert_eq!((account.credit, account.last), (capacity, gap));
        }
        let mut account = with(terms, 0, 0);
        account.top_up(needed - 1);
        assert_eq!(u64::from(account.credit), u64::from(capacity) - rate);
        let mut account = with(terms, 3, u64::MAX - 1);
        account.top_up(u64::MAX);
        assert_eq!((account.credit, account.last), (3 + rate as u32, u64::MAX));
    }
}

/// Smax with the line octets, in wide signed numbers.
fn wide_smax(account: &Account) -> i128 {
    i128::from(account.smax) + if account.mode >= 2 { 20 } else { 0 }
}

/// BAG and capacity of a sound account, in wide signed numbers.
fn bag_and_capacity(account: &Account) -> Option<(i128, i128)> {
    if !(64..=1_518).contains(&account.smax)
        || account.k > 7
        || account.jitter > 10_000
        || account.mode > 3
    {
        return None;
    }
    let bag = 1_000 * 2i128.pow(account.k.into());
    let capacity = wide_smax(account) * (bag + i128::from(account.jitter));
    (i128::from(account.credit) <= capacity).then_some((bag, capacity))
}

/// Another spelling of the step, in wide signed numbers.
fn spelled_out(account: &Account, octets: usize, time: u64) -> (Outcome, Account) {
    if octets < 64 {
        return (Outcome::Refused(1), *account);
    }
    if octets > 1_518 {
        return (Outcome::Refused(2), *account);
    }
    let Some((bag, capacity)) = bag_and_capacity(account) else {
        return (Outcome::Refused(10), *account);
    };
    let elapsed = i128::from(time) - i128::from(account.last);
    if elapsed < 0 {
        return (Outcome::Late(account.credit), *account);
    }
    let smax = wide_smax(account);
    let full = capacity.min(i128::from(account.credit) + smax * elapsed);
    let charged = match account.mode {
        0 => octets as i128,
        2 => octets as i128 + 20,
        _ => smax,
    };
    let left = full - charged * bag;
    let kept = if left < 0 { full } else { left } as u32;
    let after = Account {
        credit: kept,
        last: time,
        ..*account
    };
    if left < 0 {
        (Outcome::Short(kept), after)
    } else {
        (Outcome::Forwarded(kept), after)
    }
}

#[test]
fn agrees_with_wide_arithmetic() {
    let mut dice = Dice(0x9E37_79B9_7F4A_7C15);
    let mut seen = [[0u32; 11]; 5];
    for _ in 0..200_000 {
        let terms = (
            dice.pick(&[63, 64, 65, 200, 1_000, 1_517, 1_518, 1_519, 0, u16::MAX]),
            dice.pick(&[0, 1, 2, 6, 7, 0, 1, 2, 6, 7, 8, 255]),
            dice.pick(&[0, 1, 500, 9_999, 10_000, 10_001]),
            dice.pick(&[0, 1, 2, 3, 0, 1, 2, 3, 4, 255]),
        );
        let last = dice.next() >> dice.below(64);
        let octets = dice.pick(&[0, 63, 64, 65, 200, 201, 1_517, 1_518, 1_519, usize::MAX]);
        let credit = any_credit(&mut dice, &with(terms, 0, 0), octets);
        let mut account = with(terms, credit, last);
        let time = match dice.below(3) {
            0 => dice.next() >> dice.below(64),
            1 => last.saturating_add(dice.next() >> (40 + dice.below(24))),
            _ => last.wrapping_add(dice.below(3)).wrapping_sub(1),
        };
        let (outcome, after) = spelled_out(&account, octets, time);
        assert_eq!(account.police(octets, time), outcome);
        assert_eq!(account, after);
        let code = match outcome {
            Outcome::Forwarded(_) => 0,
            Outcome::Short(_) => 9,
            Outcome::Late(_) => 8,
            Outcome::Refused(code) => code,
        };
        seen[usize::from(terms.3.min(4))][usize::from(code)] += 1;
    }
    for (mode, seen) in seen.iter().enumerate() {
        let codes: &[usize] = match mode {
            0..=3 => &[0, 1, 2, 8, 9, 10],
            _ => &[1, 2, 10],
        };
        for &code in codes {
            let count = seen[code];
            assert!(
                count > 500,
                "mode {mode}: code {code} came up {count} times"
            );
        }
    }
}

/// Any credit; often around the capacity or the cost of a frame.
fn any_credit(dice: &mut Dice, account: &Account, octets: usize) -> u32 {
    let near = match dice.below(6) {
        0..=1 => account.capacity(),
        2 => account.cost(octets),
        _ => return (dice.next() as u32) >> dice.below(32),
    };
    (near + dice.below(3) as u32).saturating_sub(1)
}
