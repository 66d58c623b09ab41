//! The frame call: every code, its edges, and the order of the checks.

mod common;

use common::{
    account_row, frame, frame_of, image_of, image_p, Dice, LinkRow, Switch, CONSTANT, IMAGE_P,
    LINK_7, MASK,
};
use policer::Verdict;

fn good_account() -> Vec<u8> {
    account_row(200, 0, 500, 0)
}

#[test]
fn codes_in_order() {
    // Everything is wrong at first; each fix lets the next code show.
    let mut switch = Switch::load(&IMAGE_P);
    switch.credits[0] = 300_001;
    switch.lasts[0] = 100;
    let late = 99;
    switch.expect(&frame_of(0, 8, 63), 3, late, 1);
    switch.expect(&frame_of(0, 8, 1_519), 3, late, 2);
    switch.expect(&frame_of(0, 8, 201), 3, late, 3);
    switch.expect(&frame(8, 201), 3, late, 4);
    switch.expect(&frame(7, 201), 3, late, 10);
    switch.credits[0] = 0;
    switch.expect(&frame(7, 201), 3, late, 5);
    switch.expect(&frame(7, 201), 2, late, 7);
    switch.expect(&frame(7, 200), 2, late, 8);
    switch.expect(&frame(7, 200), 2, 100, 9);
    switch.credits[0] = 200_000;
    switch.expect(&frame(7, 200), 2, 100, 0);
}

#[test]
fn smallest_size_before_late_and_after_port() {
    let link = LINK_7.smallest(100);
    let mut switch = Switch::of(&good_account(), &link);
    switch.lasts[0] = 100;
    switch.expect(&frame(7, 99), 3, 99, 5);
    switch.expect(&frame(7, 99), 2, 99, 6);
    switch.expect(&frame(7, 100), 2, 99, 8);
    switch.expect(&frame(7, 99), 2, 100, 6);
    switch.expect(&frame(7, 100), 2, 100, 9);
    // The other modes ask for the size just the same.
    for mode in 1..=3 {
        let mut switch = Switch::of(&account_row(200, 0, 500, mode), &link);
        switch.credits[0] = 300_000;
        switch.expect(&frame(7, 99), 2, 0, 6);
        switch.expect(&frame(7, 100), 2, 0, 0);
    }
}

#[test]
fn sizes_from_0_up() {
    for octets in 0..1_600 {
        let code = match octets {
            0..64 => 1,
            64..=200 => 0,
            201..=1_518 => 7,
            _ => 2,
        };
        for mode in 0..=3 {
            Switch::load(&image_p(mode)).expect(&frame(7, octets), 2, 0, code);
        }
    }
}

#[test]
fn each_bit_of_constant_and_number_counts() {
    let mut switch = Switch::load(&IMAGE_P);
    for bit in 0..32 {
        switch.expect(&frame_of(0x0300_0000 ^ (1 << bit), 7, 64), 2, 0, 3);
    }
    for bit in 0..16 {
        switch.expect(&frame(7 ^ (1 << bit), 64), 2, 0, 4);
    }
}

#[test]
fn form_of_the_constant_is_not_judged() {
    for constant in [0, 1, 0xFFFF_FFFF] {
        let mut switch = Switch::load(&IMAGE_P);
        switch.constant = constant;
        switch.expect(&frame(7, 64), 2, 0, 3);
        switch.expect(&frame_of(constant, 7, 64), 2, 0, 0);
    }
}

#[test]
fn ports_are_not_cut_short() {
    let mut switch = Switch::load(&IMAGE_P);
    for port in [0, 1, 3, 31, 32, 34, 255, 258, 65_538, 0x8000_0002, u32::MAX] {
        switch.expect(&frame(7, 64), port, 0, 5);
    }
    switch.expect(&frame(7, 64), 2, 0, 0);
    // Port 32 never gets through: its row is unsound.
    let link = LINK_7.port(32);
    Switch::of(&good_account(), &link).expect(&frame(7, 64), 32, 0, 10);
}

/// Links that keep the rules beside an account of Smax 200.
const SOUND_LINKS: [LinkRow; 8] = [
    LINK_7,
    LINK_7.port(0),
    LINK_7.port(31),
    LINK_7.mask(!(1 << 2)),
    LINK_7.mask(1),
    LINK_7.mask(1 << 31),
    LINK_7.smallest(200),
    LINK_7.largest(64),
];

/// Links that break one, account 0 being the only one.
const UNSOUND_LINKS: [LinkRow; 17] = [
    LINK_7.port(32),
    LINK_7.port(35),
    LINK_7.port(255),
    LINK_7.mask(0),
    LINK_7.mask(4),
    LINK_7.mask(u32::MAX),
    LINK_7.port(31).mask(1 << 31),
    LINK_7.port(0).mask(3),
    LINK_7.smallest(63),
    LINK_7.smallest(0),
    LINK_7.smallest(200).largest(199),
    LINK_7.smallest(201),
    LINK_7.largest(201),
    LINK_7.largest(u16::MAX),
    LINK_7.account(1),
    LINK_7.account(256),
    LINK_7.account(u16::MAX),
];

#[test]
fn link_rules() {
    for link in SOUND_LINKS {
        // On a wrong port, so the code shows that the row was found sound.
        Switch::of(&good_account(), &link).expect(&frame(7, 64), 99, 0, 5);
    }
    for link in UNSOUND_LINKS {
        for port in [2, 99, u32::from(link.port)] {
            Switch::of(&good_account(), &link).expect(&frame(7, 64), port, 0, 10);
        }
    }
}

/// A link's sizes go up to Smax in every mode, not up to Smax with line octets.
#[test]
fn line_octets_are_not_sizes() {
    for mode in 0..=3 {
        let account = account_row(200, 0, 500, mode);
        Switch::of(&account, &LINK_7.largest(200)).expect(&frame(7, 64), 99, 0, 5);
        for largest in [201, 219, 220, 221] {
            let link = LINK_7.largest(largest);
            Switch::of(&account, &link).expect(&frame(7, 64), 2, 0, 10);
        }
        Switch::of(&account, &LINK_7.smallest(44)).expect(&frame(7, 64), 2, 0, 10);
    }
}

#[test]
fn account_rules() {
    for (row, credit, code) in [
        (account_row(200, 0, 500, 0), 300_000, 5),
        (account_row(200, 7, 10_000, 1), 27_600_000, 5),
        (account_row(1_518, 7, 10_000, 1), 209_484_000, 5),
        (account_row(200, 0, 500, 2), 330_000, 5),
        (account_row(200, 7, 10_000, 3), 30_360_000, 5),
        (account_row(1_518, 7, 10_000, 2), 212_244_000, 5),
        (account_row(1_518, 7, 10_000, 3), 212_244_000, 5),
        (account_row(200, 0, 500, 2), 330_001, 10),
        (account_row(200, 7, 10_000, 3), 30_360_001, 10),
        (account_row(1_518, 7, 10_000, 2), 212_244_001, 10),
        (account_row(1_518, 7, 10_000, 3), 212_244_001, 10),
        (account_row(200, 0, 500, 0), 300_001, 10),
        (account_row(200, 7, 10_000, 1), 27_600_001, 10),
        (account_row(1_518, 7, 10_000, 1), 209_484_001, 10),
        (account_row(200, 0, 500, 0), u32::MAX, 10),
        (account_row(199, 0, 500, 0), 0, 10), // below the link's largest
        (account_row(199, 0, 500, 2), 0, 10),
        (account_row(199, 0, 500, 3), 0, 10),
        (account_row(1_519, 0, 500, 0), 0, 10),
        (account_row(1_519, 0, 500, 3), 0, 10),
        (account_row(u16::MAX, 0, 500, 0), 0, 10),
        (account_row(200, 8, 500, 0), 0, 10),
        (account_row(200, 255, 500, 0), 0, 10),
        (account_row(200, 0, 10_001, 0), 0, 10),
        (account_row(200, 0, u16::MAX, 0), 0, 10),
        (account_row(200, 0, 500, 4), 0, 10),
        (account_row(200, 0, 500, 5), 0, 10),
        (account_row(200, 0, 500, 255), 0, 10),
    ] {
        let mut switch = Switch::of(&row, &LINK_7);
        switch.credits[0] = credit;
        switch.expect(&frame(7, 64), 99, 0, code);
    }
    let link = LINK_7.largest(64);
    Switch::of(&account_row(64, 0, 0, 0), &link).expect(&frame(7, 64), 99, 0, 5);
    let link = LINK_7.smallest(63).largest(63);
    Switch::of(&account_row(63, 0, 0, 0), &link).expect(&frame(7, 64), 99, 0, 10);
}

#[test]
fn counts_beyond_the_runs() {
    for count in [1, 2, 1_000, usize::MAX] {
        let mut switch = Switch::load(&IMAGE_P);
        switch.account_count = count;
        switch.link_count = count;
        switch.expect(&frame(8, 64), 2, 0, 4);
        switch.expect(&frame(7, 64), 2, 0, 0);
    }
}

#[test]
fn rows_beyond_the_counts_are_not_seen() {
    let mut switch = Switch::load(&IMAGE_P);
    switch.link_count = 0;
    switch.expect(&frame(7, 64), 2, 0, 4);
    switch.link_count = 1;
    switch.account_count = 0;
    switch.expect(&frame(7, 64), 2, 0, 10);

    let mut switch = Switch::load(&image_of(3, 5));
    switch.expect(&frame(5, 64), 2, 0, 0);
    switch.link_count = 4;
    switch.expect(&frame(5, 64), 2, 0, 4);
    switch.expect(&frame(3, 64), 2, 0, 0);
    switch.account_count = 2;
    switch.expect(&frame(3, 64), 2, 0, 10);
    switch.expect(&frame(2, 64), 2, 0, 0);
}

#[test]
fn any_short_run_hides_an_account() {
    let whole = Switch::load(&image_of(3, 3));
    for count in [3, usize::MAX] {
        for spoil in [
            |switch: &mut Switch| switch.accounts.truncate(17),
            |switch: &mut Switch| switch.credits.truncate(2),
            |switch: &mut Switch| switch.lasts.truncate(2),
        ] {
            let mut switch = whole.clone();
            switch.account_count = count;
            switch.expect(&frame(3, 64), 2, 0, 0);
            let mut switch = whole.clone();
            switch.account_count = count;
            spoil(&mut switch);
            switch.expect(&frame(3, 64), 2, 0, 10);
            switch.expect(&frame(2, 64), 2, 0, 0);
        }
        let mut switch = whole.clone();
        switch.link_count = count;
        switch.links.truncate(38);
        switch.expect(&frame(3, 64), 2, 0, 4);
        switch.expect(&frame(2, 64), 2, 0, 0);
    }
    let mut switch = whole.clone();
    switch.accounts.clear();
    switch.credits.clear();
    switch.lasts.clear();
    switch.expect(&frame(1, 64), 2, 0, 10);
    switch.links.clear();
    switch.expect(&frame(1, 64), 2, 0, 4);
}

#[test]
fn first_row_with_the_number_counts() {
    let bad = LINK_7.mask(0);
    let other = LINK_7.mask(16);
    let mut switch = Switch::load(&IMAGE_P);
    switch.link_count = 2;
    switch.links = [bad.row(), LINK_7.row()].concat();
    switch.expect(&frame(7, 64), 2, 0, 10);
    switch.links = [LINK_7.row(), bad.row()].concat();
    assert_eq!(switch.call(&frame(7, 64), 2, 0).mask(), Some(MASK));
    switch.links = [other.row(), LINK_7.row()].concat();
    assert_eq!(switch.call(&frame(7, 64), 2, 0).mask(), Some(16));
}

#[test]
fn rows_in_any_order_and_unused_rows_unjudged() {
    let mut rows = vec![0; 13];
    rows.extend(LINK_7.number(9).row());
    rows.extend(LINK_7.number(8).mask(0).row());
    rows.extend(LINK_7.row());
    let mut switch = Switch::load(&IMAGE_P);
    switch.links = rows;
    switch.link_count = 4;
    switch.accounts.extend([0xFF; 6]);
    switch.credits.push(u32::MAX);
    switch.lasts.push(u64::MAX);
    switch.account_count = 2;
    switch.expect(&frame(7, 64), 2, 0, 0);
    switch.expect(&frame(9, 64), 2, 0, 0);
    switch.expect(&frame(8, 64), 2, 0, 10);
    switch.expect(&frame(0, 64), 2, 0, 10);
}

#[test]
fn no_image_limit_on_made_up_tables() {
    let mut switch = Switch::load(&IMAGE_P);
    switch.accounts = good_account().repeat(300);
    switch.credits = vec![300_000; 300];
    switch.lasts = vec![0; 300];
    switch.account_count = 300;
    switch.links = (0..400)
        .flat_map(|number| LINK_7.number(number).account(number % 300).row())
        .collect();
    switch.link_count = 400;
    switch.expect(&frame(299, 200), 2, 0, 0);
    assert_eq!(switch.credits[299], 100_000);
    assert_eq!(switch.credits[..299], [300_000; 299]);
    switch.expect(&frame(399, 100), 2, 0, 0);
    assert_eq!(switch.credits[99], 200_000);
}

#[test]
fn short_credit_brings_the_account_to_the_time() {
    let mut switch = Switch::load(&IMAGE_P);
    switch.expect(&frame(7, 200), 2, 0, 0);
    assert_eq!(switch.call(&frame(7, 200), 2, 499), Verdict::Short(199_800));
    assert_eq!((switch.credits[0], switch.lasts[0]), (199_800, 499));
    assert_eq!(switch.call(&frame(7, 64), 2, 100), Verdict::Late(199_800));
    assert_eq!((switch.credits[0], switch.lasts[0]), (199_800, 499));
}

/// Modes 2 and 3 of image P, whose capacity is 330,000: a frame at the cost, a
/// microsecond early, and the account after each.
#[test]
fn line_octets_are_charged() {
    for (mode, octets) in [(2, 200), (3, 200), (3, 64)] {
        let mut switch = Switch::load(&image_p(mode));
        assert_eq!((switch.credits[0], switch.lasts[0]), (330_000, 0));
        let frame = frame(7, octets);
        let forwarded = |credit| Verdict::Forwarded { mask: MASK, credit };
        for (time, verdict) in [
            (0, forwarded(110_000)),
            (499, Verdict::Short(219_780)),
            (500, forwarded(0)),
            (1_499, Verdict::Short(219_780)),
            (1_500, forwarded(0)),
            (u64::MAX, forwarded(110_000)),
        ] {
            assert_eq!(switch.call(&frame, 2, time), verdict);
            let credit = verdict.credit().unwrap();
            assert_eq!((switch.credits[0], switch.lasts[0]), (credit, time));
        }
        assert_eq!(switch.call(&frame, 2, 0), Verdict::Late(110_000));
    }
    // Frames of 64 octets, each with 20 more; then one a unit short, and one not.
    let mut switch = Switch::load(&image_p(2));
    for credit in [246_000, 162_000, 78_000] {
        assert_eq!(switch.call(&frame(7, 64), 2, 0).credit(), Some(credit));
    }
    switch.credits[0] = 83_999;
    assert_eq!(switch.call(&frame(7, 64), 2, 0), Verdict::Short(83_999));
    switch.credits[0] = 84_000;
    switch.expect(&frame(7, 64), 2, 0, 0);
    assert_eq!(switch.credits, [0]);
}

#[test]
fn accounts_keep_their_own_times() {
    let mut switch = Switch::load(&image_of(2, 4));
    switch.expect(&frame(1, 200), 2, 5_000, 0);
    assert_eq!(switch.credits, [100_000, 300_000]);
    assert_eq!(switch.lasts, [5_000, 0]);
    switch.expect(&frame(2, 200), 2, 10, 0);
    assert_eq!(switch.credits, [100_000, 100_000]);
    assert_eq!(switch.lasts, [5_000, 10]);
    // Link 3 shares the account of link 1.
    switch.expect(&frame(3, 200), 2, 4_999, 8);
    switch.expect(&frame(3, 200), 2, 5_000, 9);
    switch.expect(&frame(3, 100), 2, 5_000, 0);
    assert_eq!(switch.credits, [0, 100_000]);
}

#[test]
fn extreme_link_numbers() {
    for number in [0, 255, 256, u16::MAX] {
        let link = LINK_7.number(number);
        let mut switch = Switch::of(&good_account(), &link);
        switch.expect(&frame(number, 64), 99, 0, 5);
        switch.expect(&frame(number ^ 0x0100, 64), 99, 0, 4);
    }
}

/// A number of several octets, wide and signed.
fn number(octets: &[u8]) -> i128 {
    octets
        .iter()
        .fold(0, |n, &octet| n * 256 + i128::from(octet))
}

/// A link row and its account, in wide signed numbers.
struct Wide {
    port: i128,
    mask: i128,
    smallest: i128,
    largest: i128,
    index: usize,
    smax: i128,
    k: i128,
    jitter: i128,
    mode: i128,
    held: i128,
    last: i128,
}

impl Wide {
    /// Nothing if the row's account isn't in use.
    fn read(switch: &Switch, row: &[u8]) -> Option<Wide> {
        let used = switch
            .account_count
            .min(switch.accounts.len() / 6)
            .min(switch.credits.len())
            .min(switch.lasts.len());
        let index = number(&row[11..13]) as usize;
        if index >= used {
            return None;
        }
        let terms = &switch.accounts[6 * index..6 * index + 6];
        Some(Wide {
            port: number(&row[2..3]),
            mask: number(&row[3..7]),
            smallest: number(&row[7..9]),
            largest: number(&row[9..11]),
            index,
            smax: number(&terms[..2]),
            k: number(&terms[2..3]),
            jitter: number(&terms[3..5]),
            mode: number(&terms[5..]),
            held: switch.credits[index].into(),
            last: switch.lasts[index].into(),
        })
    }

    fn bag(&self) -> i128 {
        1_000 * 2i128.pow(self.k as u32)
    }

    /// Line octets, by the modes that have them.
    fn charge(&self) -> i128 {
        20 * (self.mode / 2)
    }

    fn capacity(&self) -> i128 {
        (self.smax + self.charge()) * (self.bag() + self.jitter)
    }

    fn unsound(&self) -> bool {
        let bad_account = !(64..=1_518).contains(&self.smax)
            || self.k > 7
            || self.jitter > 10_000
            || self.mode > 3;
        let bad_link = self.port > 31
            || self.mask == 0
            || self.mask / 2i128.pow(self.port as u32) % 2 == 1
            || self.smallest < 64
            || self.largest < self.smallest
            || self.smax < self.largest;
        bad_account || bad_link || self.held > self.capacity()
    }

    /// The verdict of a frame that isn't late.
    fn judge(&self, octets: i128, elapsed: i128) -> Verdict {
        let rate = self.smax + self.charge();
        let full = self.capacity().min(self.held + rate * elapsed);
        let octets = if self.mode % 2 == 0 {
            octets
        } else {
            self.smax
        };
        let left = full - (octets + self.charge()) * self.bag();
        if left < 0 {
            return Verdict::Short(full as u32);
        }
        Verdict::Forwarded {
            mask: self.mask as u32,
            credit: left as u32,
        }
    }
}

/// The first link row in use whose number is that of the frame.
fn first_row<'a>(switch: &'a Switch, frame: &[u8]) -> Option<&'a [u8]> {
    let mut found = None;
    for index in 0..switch.links.len() / 13 {
        let row = &switch.links[13 * index..13 * index + 13];
        if found.is_none() && index < switch.link_count && row[..2] == frame[4..6] {
            found = Some(row);
        }
    }
    found
}

/// What the policing step needs, or the first code that comes before 8.
fn filtered(switch: &Switch, frame: &[u8], port: u32) -> Result<Wide, u8> {
    let octets = frame.len() as i128;
    if octets < 64 {
        return Err(1);
    }
    if octets > 1_518 {
        return Err(2);
    }
    if number(&frame[..4]) != i128::from(switch.constant) {
        return Err(3);
    }
    let row = first_row(switch, frame).ok_or(4)?;
    let wide = Wide::read(switch, row).ok_or(10)?;
    if wide.unsound() {
        return Err(10);
    }
    if i128::from(port) != wide.port {
        return Err(5);
    }
    if octets < wide.smallest {
        return Err(6);
    }
    if octets > wide.largest {
        return Err(7);
    }
    Ok(wide)
}

/// Another spelling of the whole call, by indices and wide signed numbers. It
/// gives the verdict and, for 0 and 9, the account to change.
fn spelled_out(switch: &Switch, frame: &[u8], port: u32, time: u64) -> (Verdict, Option<usize>) {
    let wide = match filtered(switch, frame, port) {
        Ok(wide) => wide,
        Err(code) => return (Verdict::Refused(code), None),
    };
    let elapsed = i128::from(time) - wide.last;
    if elapsed < 0 {
        return (Verdict::Late(wide.held as u32), None);
    }
    let verdict = wide.judge(frame.len() as i128, elapsed);
    (verdict, Some(wide.index))
}

/// Tables made up by chance, most rows mended so that more than 4 and 10 comes
/// up.
fn made_up(dice: &mut Dice) -> Switch {
    let odd_counts = [0, 1, 2, usize::MAX, usize::MAX / 6 + 1];
    let accounts = dice.mostly(3, &[0, 1, 2]);
    let links = dice.mostly(5, &[0, 1, 2]);
    let spare = dice.below(6) as usize;
    let mut switch = Switch {
        constant: dice.mostly(CONSTANT, &[0, CONSTANT + 1]),
        accounts: dice.octets(accounts * 6 + spare),
        account_count: dice.mostly(accounts, &odd_counts),
        links: dice.octets(links * 13 + spare),
        link_count: dice.mostly(links, &odd_counts),
        credits: (0..dice.mostly(accounts, &[0, 1, 2, 9]))
            .map(|_| (dice.next() as u32) >> (10 + dice.below(22)))
            .collect(),
        lasts: (0..dice.mostly(accounts, &[0, 1, 2, 9]))
            .map(|_| dice.next() >> dice.below(64))
            .collect(),
    };
    for row in switch.accounts.chunks_exact_mut(6) {
        if dice.below(10) > 0 {
            row.copy_from_slice(&made_up_account(dice));
        }
    }
    for row in switch.links.chunks_exact_mut(13) {
        if dice.below(10) > 0 {
            row.copy_from_slice(&made_up_link(dice));
        }
    }
    switch
}

fn made_up_account(dice: &mut Dice) -> Vec<u8> {
    let smax = dice.mostly(200, &[63, 64, 199, 201, 1_518, 1_519]);
    let k = dice.mostly(0, &[1, 6, 7, 8, 255]);
    let jitter = dice.mostly(500, &[0, 10_000, 10_001]);
    let mode = dice.pick(&[0, 1, 2, 3, 0, 1, 2, 3, 0, 1, 2, 3, 4, 255]);
    account_row(smax, k, jitter, mode)
}

fn made_up_link(dice: &mut Dice) -> Vec<u8> {
    let link = LinkRow {
        number: dice.below(3) as u16,
        port: dice.mostly(1, &[0, 3, 31, 32, 255]),
        mask: dice.mostly(8, &[9, 10, 0, 1 << 31, !2, !0]),
        smallest: dice.mostly(100, &[0, 63, 64, 200, 201]),
        largest: dice.mostly(200, &[99, 100, 150, 201, 1_518]),
        account: dice.mostly(1, &[0, 2, 3, 256, u16::MAX]),
    };
    link.row()
}

/// A call made up by chance: frame, port and time.
fn made_up_call(dice: &mut Dice, switch: &Switch) -> (Vec<u8>, u32, u64) {
    let octets = dice.pick(&[
        0, 63, 64, 99, 100, 101, 150, 151, 200, 201, 1_518, 1_519, 150, 200,
    ]);
    let constant = dice.mostly(CONSTANT, &[0, CONSTANT + 1]);
    let frame = frame_of(constant, dice.below(3) as u16, octets);
    let port = dice.mostly(1, &[0, 31, 32, 257, u32::MAX]);
    let last = switch.lasts.get(1).copied().unwrap_or(0);
    let near = last.saturating_add(dice.below(1_500));
    let time = dice.pick(&[near, near, near, 0, 1 << 40, u64::MAX]);
    (frame, port, time)
}

/// Tables and calls made up by chance, sound and unsound ones.
#[test]
fn agrees_with_another_spelling() {
    let mut dice = Dice(77);
    let mut seen = [0u32; 11];
    let mut reached = [[0u32; 11]; 4];
    for _ in 0..100_000 {
        let mut switch = made_up(&mut dice);
        let (frame, port, time) = made_up_call(&mut dice, &switch);
        let (verdict, changed) = spelled_out(&switch, &frame, port, time);
        let mut after = switch.clone();
        if let Some(index) = changed {
            after.credits[index] = verdict.credit().unwrap();
            after.lasts[index] = time;
            let mode = switch.accounts[6 * index + 5];
            reached[usize::from(mode)][usize::from(verdict.code())] += 1;
        }
        assert_eq!(switch.call(&frame, port, time), verdict);
        assert_eq!(switch, after);
        seen[usize::from(verdict.code())] += 1;
    }
    for (code, count) in seen.iter().enumerate() {
        assert!(*count > 500, "code {code} came up {count} times");
    }
    for (mode, reached) in reached.iter().enumerate() {
        for code in [0, 9] {
            let count = reached[code];
            assert!(
                count > 250,
                "mode {mode}: code {code} came up {count} times"
            );
        }
    }
}
