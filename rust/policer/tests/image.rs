//! Reader and writer: every code with its offset, and the round trip.

mod common;

use common::{
    account_row, end, field, head, image_of, open_image, Dice, LinkRow, Switch, IMAGE_P, LINK_7,
};
use policer::{check, load, write, Config, Loaded, Written};

fn answer(image: &[u8]) -> (u8, usize) {
    let loaded = check(image);
    if loaded.code != 0 {
        assert_eq!((loaded.constant, loaded.accounts, loaded.links), (0, 0, 0));
    }
    // Loading into ample runs answers the same.
    let (mut accounts, mut links) = (vec![9; 65 * 6], vec![9; 257 * 13]);
    let (mut credits, mut lasts) = (vec![9; 65], vec![9; 65]);
    let same = load(image, &mut accounts, &mut credits, &mut lasts, &mut links);
    assert_eq!(same, loaded);
    if loaded.code != 0 {
        assert_eq!((accounts, links), (vec![9; 65 * 6], vec![9; 257 * 13]));
        assert_eq!((credits, lasts), (vec![9; 65], vec![9; 65]));
    }
    (loaded.code, loaded.offset)
}

fn joined(parts: &[Vec<u8>]) -> Vec<u8> {
    parts.concat()
}

fn account() -> Vec<u8> {
    field(2, &account_row(200, 0, 500, 0))
}

fn link(number: u16) -> Vec<u8> {
    field(3, &LINK_7.number(number).row())
}

#[test]
fn every_cut_of_p() {
    for length in 0..36 {
        let offset = match length {
            0..8 => 0,
            8..17 => 8,
            17..33 => 17,
            _ => 33,
        };
        assert_eq!(answer(&IMAGE_P[..length]), (20, offset), "{length}");
    }
    assert_eq!(answer(&IMAGE_P), (0, 36));
}

#[test]
fn tags() {
    // A wrong first tag needs three octets to be seen.
    assert_eq!(answer(&[7]), (20, 0));
    assert_eq!(answer(&[7, 0]), (20, 0));
    assert_eq!(answer(&[7, 0, 0]), (21, 0));
    for tag in (0..=255).filter(|&tag| tag != 1) {
        assert_eq!(answer(&[tag, 0xFF, 0xFF]), (21, 0));
    }
    assert_eq!(answer(&joined(&[head(), head()])), (21, 8));
    assert_eq!(answer(&joined(&[head(), link(7), end()])), (21, 8));
    assert_eq!(answer(&joined(&[head(), end()])), (21, 8));
    assert_eq!(answer(&joined(&[head(), account(), end()])), (21, 17));
    assert_eq!(answer(&joined(&[head(), account(), head()])), (21, 17));
    assert_eq!(
        answer(&joined(&[head(), account(), link(7), account(), end()])),
        (21, 33)
    );
    assert_eq!(
        answer(&joined(&[head(), account(), link(7), head(), end()])),
        (21, 33)
    );
    assert_eq!(
        answer(&joined(&[head(), account(), link(7), vec![4, 0, 0], end()])),
        (21, 33)
    );
}

#[test]
fn lengths() {
    for (place, offset) in [(1, 0), (9, 8), (18, 17), (34, 33)] {
        let mut image = IMAGE_P;
        image[place + 1] ^= 1;
        assert_eq!(answer(&image), (22, offset));
        let mut image = IMAGE_P;
        image[place] = 1;
        assert_eq!(answer(&image), (22, offset));
        // Wrong length before cut data, wrong tag before wrong length.
        assert_eq!(answer(&image[..place + 2]), (22, offset));
        image[place - 1] = 77;
        assert_eq!(answer(&image[..place + 2]), (21, offset));
    }
}

#[test]
fn cut_before_value() {
    let mut image = IMAGE_P;
    image[3] = 2;
    assert_eq!(answer(&image[..7]), (20, 0));
    assert_eq!(answer(&image[..8]), (23, 0));
}

#[test]
fn head_values() {
    for edition in [0, 2, 255] {
        let mut image = IMAGE_P;
        image[3] = edition;
        assert_eq!(answer(&image), (23, 0));
    }
    for first in 0..=255u8 {
        let mut image = IMAGE_P;
        image[4] = first;
        let good = first & 3 == 3;
        assert_eq!(answer(&image), if good { (0, 36) } else { (23, 0) });
        if good {
            assert_eq!(check(&image).constant, u32::from(first) << 24);
        }
    }
    let mut image = IMAGE_P;
    image[4..8].copy_from_slice(&[0xFF, 0x12, 0x34, 0x56]);
    assert_eq!(check(&image).constant, 0xFF12_3456);
}

#[test]
fn account_values() {
    for (row, good) in [
        (account_row(200, 7, 10_000, 1), true),
        (account_row(200, 7, 10_000, 2), true),
        (account_row(200, 7, 10_000, 3), true),
        (account_row(1_518, 0, 0, 0), true),
        (account_row(1_518, 0, 0, 2), true),
        (account_row(1_518, 0, 0, 3), true),
        (account_row(1_519, 0, 0, 0), false),
        (account_row(1_519, 0, 0, 3), false),
        (account_row(63, 0, 0, 0), false),
        (account_row(63, 0, 0, 2), false),
        (account_row(0, 0, 0, 0), false),
        (account_row(200, 8, 0, 0), false),
        (account_row(200, 255, 0, 0), false),
        (account_row(200, 0, 10_001, 0), false),
        (account_row(200, 0, 0, 4), false),
        (account_row(200, 0, 0, 255), false),
    ] {
        let image = joined(&[head(), account(), field(2, &row), link(7), end()]);
        assert_eq!(answer(&image), if good { (0, 45) } else { (23, 17) });
    }
    let smallest = field(2, &account_row(64, 0, 0, 0));
    let link = field(3, &LINK_7.largest(64).row());
    let image = joined(&[head(), smallest, link, end()]);
    assert_eq!(answer(&image), (0, 36));
}

/// Every mode octet, in the first and in the last account.
#[test]
fn modes() {
    let tables = Switch::load(&image_of(3, 1));
    for index in [0, 2] {
        for mode in 0..=255 {
            let place = 8 + 9 * index;
            let mut image = image_of(3, 1);
            image[place + 8] = mode;
            let mut switch = tables.clone();
            switch.accounts[6 * index + 5] = mode;
            if mode <= 3 {
                assert_eq!(answer(&image), (0, image.len()));
                round_trip(&image);
                assert_eq!(Switch::load(&image).accounts, switch.accounts);
            } else {
                assert_eq!(answer(&image), (23, place));
                refuses(&switch.config(), image.len(), 23, place);
            }
        }
    }
}

/// Links after link 5, accounts 0 and 1 having Smax 200 and 300: good or not.
const LINK_CASES: [(LinkRow, bool); 27] = [
    (LINK_7, true),
    (LINK_7.number(6), true),
    (LINK_7.number(5), false),
    (LINK_7.number(4), false),
    (LINK_7.number(0), false),
    (LINK_7.number(u16::MAX), true),
    (LINK_7.port(31), true),
    (LINK_7.port(32), false),
    (LINK_7.port(255), false),
    (LINK_7.port(3), false),
    (LINK_7.mask(0), false),
    (LINK_7.mask(!4), true),
    (LINK_7.mask(!0), false),
    (LINK_7.smallest(63), false),
    (LINK_7.smallest(200), true),
    (LINK_7.smallest(201), false),
    (LINK_7.largest(63), false),
    (LINK_7.largest(64), true),
    (LINK_7.largest(201), false),
    (LINK_7.largest(220), false),
    (LINK_7.account(1), true),
    (LINK_7.account(1).largest(300), true),
    (LINK_7.account(1).largest(301), false),
    (LINK_7.account(1).largest(320), false),
    (LINK_7.account(2), false),
    (LINK_7.account(256), false),
    (LINK_7.account(u16::MAX), false),
];

/// The accounts of these cases, in one mode.
fn case_accounts(mode: u8) -> [Vec<u8>; 2] {
    [account_row(200, 0, 500, mode), account_row(300, 0, 0, mode)]
}

#[test]
fn link_values() {
    for (index, (row, good)) in LINK_CASES.into_iter().enumerate() {
        for mode in 0..=3 {
            let [first, second] = case_accounts(mode);
            let image = joined(&[
                head(),
                field(2, &first),
                field(2, &second),
                link(5),
                field(3, &row.row()),
                end(),
            ]);
            let expected = if good { (0, 61) } else { (23, 42) };
            assert_eq!(answer(&image), expected, "case {index}, mode {mode}");
        }
    }
    // One account past the last, where the first link's number could pass for
    // an Smax.
    let astray = LINK_7.number(1_000).account(1).row();
    let image = joined(&[head(), account(), field(3, &astray), end()]);
    assert_eq!(answer(&image), (23, 17));
    // The first link may have any number, 0 too.
    let image = joined(&[head(), account(), link(0), end()]);
    assert_eq!(answer(&image), (0, 36));
}

#[test]
fn too_many_accounts() {
    assert_eq!(answer(&image_of(64, 1)), (0, 8 + 64 * 9 + 16 + 3));
    assert_eq!(answer(&image_of(65, 1)), (24, 584));
    let full = open_image(64, 0);
    let bad = field(2, &account_row(0, 9, 0, 9));
    assert_eq!(answer(&joined(&[full.clone(), bad.clone()])), (24, 584));
    assert_eq!(
        answer(&joined(&[full.clone(), bad[..8].to_vec()])),
        (20, 584)
    );
    assert_eq!(answer(&joined(&[full.clone(), vec![2, 0, 7]])), (22, 584));
    assert_eq!(answer(&joined(&[full.clone(), vec![2, 0]])), (20, 584));
    assert_eq!(answer(&joined(&[full, vec![9, 0, 0]])), (21, 584));
}

#[test]
fn too_many_links() {
    assert_eq!(answer(&image_of(64, 256)), (0, 4_683));
    assert_eq!(answer(&image_of(1, 256)), (0, 8 + 9 + 256 * 16 + 3));
    assert_eq!(answer(&image_of(64, 257)), (24, 4_680));
    let full = open_image(64, 256);
    // A 257th link with a number that doesn't rise is still one too many.
    let bad = link(1);
    assert_eq!(answer(&joined(&[full.clone(), bad.clone()])), (24, 4_680));
    assert_eq!(
        answer(&joined(&[full.clone(), bad[..15].to_vec()])),
        (20, 4_680)
    );
    assert_eq!(
        answer(&joined(&[full.clone(), vec![3, 1, 13]])),
        (22, 4_680)
    );
    assert_eq!(answer(&joined(&[full, end(), vec![0; 9_000]])), (25, 4_683));
}

#[test]
fn trailing_octets() {
    for extra in [1, 2, 3, 16, 70_000] {
        let mut image = IMAGE_P.to_vec();
        image.resize(36 + extra, 9);
        assert_eq!(answer(&image), (25, 36));
    }
    // A bad end comes first.
    let mut image = IMAGE_P.to_vec();
    image[35] = 1;
    image.push(0);
    assert_eq!(answer(&image), (22, 33));
}

#[test]
fn loading_fills_the_named_rows() {
    let mut image = open_image(0, 0);
    image.extend(field(2, &account_row(200, 0, 500, 0)));
    image.extend(field(2, &account_row(1_518, 7, 10_000, 1)));
    image.extend(field(2, &account_row(200, 0, 500, 2)));
    image.extend(field(2, &account_row(1_518, 7, 10_000, 3)));
    image.extend(link(7));
    image.extend(link(9));
    image.extend(link(11));
    image.extend(end());
    let (mut accounts, mut links) = (vec![0xEE; 32], vec![0xEE; 60]);
    let (mut credits, mut lasts) = (vec![u32::MAX; 6], vec![u64::MAX; 5]);
    let loaded = load(&image, &mut accounts, &mut credits, &mut lasts, &mut links);
    assert_eq!(
        loaded,
        Loaded {
            code: 0,
            offset: image.len(),
            constant: 0x0300_0000,
            accounts: 4,
            links: 3
        }
    );
    for index in 0..4 {
        let place = 8 + 9 * index + 3;
        assert_eq!(accounts[6 * index..6 * index + 6], image[place..place + 6]);
    }
    assert_eq!(accounts[24..], [0xEE; 8]);
    for index in 0..3 {
        let place = 8 + 36 + 16 * index + 3;
        assert_eq!(links[13 * index..13 * index + 13], image[place..place + 13]);
    }
    assert_eq!(links[39..], [0xEE; 21]);
    assert_eq!(credits[..2], [300_000, 209_484_000]);
    assert_eq!(credits[2..4], [330_000, 212_244_000]);
    assert_eq!(credits[4..], [u32::MAX; 2]);
    assert_eq!(lasts, [0, 0, 0, 0, u64::MAX]);
}

#[test]
fn short_runs() {
    let image = image_of(3, 4);
    for (a, c, t, l, code) in [
        (18, 3, 3, 52, 0),
        (17, 3, 3, 52, 26),
        (18, 2, 3, 52, 26),
        (18, 3, 2, 52, 26),
        (18, 3, 3, 51, 26),
        (0, 0, 0, 0, 26),
        (23, 4, 4, 64, 0),
    ] {
        let (mut accounts, mut links) = (vec![1; a], vec![1; l]);
        let (mut credits, mut lasts) = (vec![1; c], vec![1; t]);
        let loaded = load(&image, &mut accounts, &mut credits, &mut lasts, &mut links);
        assert_eq!((loaded.code, loaded.offset), (code, image.len()));
        if code == 26 {
            assert_eq!((loaded.constant, loaded.accounts, loaded.links), (0, 0, 0));
            assert_eq!((accounts, links), (vec![1; a], vec![1; l]));
            assert_eq!((credits, lasts), (vec![1; c], vec![1; t]));
        }
        // Any other code comes before 26.
        let (mut accounts, mut links) = (vec![1; a], vec![1; l]);
        let (mut credits, mut lasts) = (vec![1; c], vec![1; t]);
        let mut longer = image.clone();
        longer.push(0);
        let loaded = load(&longer, &mut accounts, &mut credits, &mut lasts, &mut links);
        assert_eq!((loaded.code, loaded.offset), (25, image.len()));
    }
}

fn refuses(config: &Config, room: usize, code: u8, offset: usize) {
    let mut octets = vec![0xEE; room];
    assert_eq!(write(config, &mut octets), Written { code, offset });
    assert_eq!(octets, vec![0xEE; room]);
}

fn round_trip(image: &[u8]) {
    let switch = Switch::load(image);
    let mut room = vec![0xEE; image.len() + 5];
    let written = write(&switch.config(), &mut room);
    assert_eq!((written.code, written.offset), (0, image.len()));
    assert_eq!(&room[..image.len()], image);
    assert_eq!(room[image.len()..], [0xEE; 5]);
    let mut exact = vec![0xEE; image.len()];
    assert_eq!(write(&switch.config(), &mut exact), written);
    assert_eq!(exact, image);
    for short in [image.len() - 1, 1, 0] {
        refuses(&switch.config(), short, 26, 0);
    }
}

#[test]
fn round_trips() {
    round_trip(&IMAGE_P);
    round_trip(&image_of(1, 1));
    round_trip(&image_of(64, 256));
    round_trip(&image_of(5, 9));
    let mut image = IMAGE_P;
    image[4..8].copy_from_slice(&[0xFF, 0x12, 0x34, 0x56]);
    round_trip(&image);
}

#[test]
fn writer_counts() {
    let switch = Switch::load(&image_of(2, 3));
    for (accounts, links) in [
        (0, 3),
        (2, 0),
        (0, 0),
        (3, 3),
        (2, 4),
        (usize::MAX, 3),
        (2, usize::MAX),
        (usize::MAX / 6 + 1, usize::MAX / 13 + 1),
    ] {
        for constant in [0x0300_0000, 0] {
            let config = Config {
                constant,
                account_count: accounts,
                link_count: links,
                ..switch.config()
            };
            refuses(&config, 1_000, 24, 0);
            refuses(&config, 0, 24, 0);
        }
    }
}

#[test]
fn writer_takes_a_partial_row_for_none() {
    let switch = Switch::load(&image_of(2, 3));
    let config = Config {
        accounts: &switch.accounts[..11],
        ..switch.config()
    };
    refuses(&config, 1_000, 24, 0);
    let config = Config {
        links: &switch.links[..38],
        ..switch.config()
    };
    refuses(&config, 1_000, 24, 0);
}

/// Over the limits, though the rows are there.
#[test]
fn writer_limits() {
    let many = Switch {
        constant: 0x0300_0000,
        accounts: account_row(200, 0, 500, 0).repeat(65),
        account_count: 64,
        links: (0..257)
            .flat_map(|number| LINK_7.number(number).row())
            .collect(),
        link_count: 256,
        credits: vec![],
        lasts: vec![],
    };
    let written = write(&many.config(), &mut [0; 5_000]);
    assert_eq!((written.code, written.offset), (0, 4_683));
    let config = Config {
        account_count: 65,
        ..many.config()
    };
    refuses(&config, 5_000, 24, 0);
    let config = Config {
        link_count: 257,
        ..many.config()
    };
    refuses(&config, 5_000, 24, 0);
}

/// The constant is judged first, also with no room at all.
#[test]
fn writer_constant() {
    let mut switch = Switch::load(&image_of(3, 4));
    let length = image_of(3, 4).len();
    switch.links[2] = 32;
    switch.accounts[5] = 4;
    for constant in [0, 0x0100_0000, 0x0200_0000, 0xFC00_0003, 0x00FF_FFFF] {
        switch.constant = constant;
        refuses(&switch.config(), length, 23, 0);
        refuses(&switch.config(), 0, 23, 0);
    }
}

/// Each row spoiled in turn, in image order from the back.
#[test]
fn writer_values() {
    let mut spoiled = Switch::load(&image_of(3, 4));
    let length = image_of(3, 4).len();
    for index in (0..4).rev() {
        spoiled.links[13 * index + 2] = 32;
        refuses(&spoiled.config(), length, 23, 8 + 27 + 16 * index);
        refuses(&spoiled.config(), 0, 23, 8 + 27 + 16 * index);
    }
    for index in (0..3).rev() {
        spoiled.accounts[6 * index + 5] = 4;
        refuses(&spoiled.config(), length, 23, 8 + 9 * index);
        refuses(&spoiled.config(), 0, 23, 8 + 9 * index);
    }
}

#[test]
fn writer_keeps_to_the_counts() {
    let mut switch = Switch::load(&image_of(3, 4));
    let length = image_of(3, 4).len();
    // A link's account lies below the count, not just within the rows lent.
    let config = Config {
        account_count: 2,
        ..switch.config()
    };
    refuses(&config, length, 23, 8 + 18 + 16 * 2);
    // Bad rows beyond the counts don't matter.
    switch.accounts.extend([0xFF; 7]);
    switch.links.extend([0xFF; 14]);
    let mut room = vec![0; length];
    assert_eq!(write(&switch.config(), &mut room).code, 0);
    assert_eq!(room, image_of(3, 4));
}

#[test]
fn writer_link_values() {
    for (index, (row, good)) in LINK_CASES.into_iter().enumerate() {
        for mode in 0..=3 {
            let switch = Switch {
                constant: 0x0300_0000,
                accounts: case_accounts(mode).concat(),
                account_count: 2,
                links: [LINK_7.number(5).row(), row.row()].concat(),
                link_count: 2,
                credits: vec![],
                lasts: vec![],
            };
            let written = write(&switch.config(), &mut [0; 100]);
            let written = (written.code, written.offset);
            let expected = if good { (0, 61) } else { (23, 42) };
            assert_eq!(written, expected, "case {index}, mode {mode}");
        }
    }
}

/// Every one-octet change of an image: what is accepted must be written back,
/// and what is refused as a value must be refused by the writer there too.
#[test]
fn one_octet_off() {
    let image = image_of(2, 3);
    let tables = Switch::load(&image);
    for place in 0..image.len() {
        for octet in 0..=255 {
            let mut changed = image.clone();
            changed[place] = octet;
            let (code, offset) = answer(&changed);
            if code == 0 {
                round_trip(&changed);
            } else {
                let starts = [0, 8, 17, 26, 42, 58, 74];
                assert!(starts.contains(&offset));
            }
            if code == 23 && place != 3 {
                let mut spoiled = tables.clone();
                spoiled.constant = u32::from_be_bytes(changed[4..8].try_into().unwrap());
                for index in 0..2 {
                    let row = &changed[8 + 9 * index + 3..][..6];
                    spoiled.accounts[6 * index..][..6].copy_from_slice(row);
                }
                for index in 0..3 {
                    let row = &changed[26 + 16 * index + 3..][..13];
                    spoiled.links[13 * index..][..13].copy_from_slice(row);
                }
                refuses(&spoiled.config(), 100, 23, offset);
            }
        }
    }
}

#[test]
fn garbage() {
    let mut dice = Dice(5);
    for _ in 0..20_000 {
        let length = dice.below(200) as usize;
        let octets = dice.octets(length);
        answer(&octets);
        let mut image = image_of(2, 3);
        for _ in 0..dice.below(4) {
            let place = dice.below(image.len() as u64) as usize;
            image[place] = dice.next() as u8;
        }
        image.truncate(dice.below(100) as usize);
        let (code, offset) = answer(&image);
        assert!(offset <= image.len());
        assert!(code != 0 || offset == image.len());
        let config = Config {
            constant: dice.pick(&[0x0300_0000, 0]),
            accounts: &octets,
            account_count: dice.pick(&[0, 1, 2, usize::MAX]),
            links: &image,
            link_count: dice.pick(&[0, 1, 2, usize::MAX]),
        };
        let mut room = vec![0xEE; dice.below(100) as usize];
        let before = room.clone();
        if write(&config, &mut room).code != 0 {
            assert_eq!(room, before);
        }
    }
}
