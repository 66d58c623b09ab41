//! Writing images from tables, sound or not.

use ffi::{ImageAnswer, Tables, WriteAnswer};
use trials::plan::Plan;
use trials::random::Random;
use trials::{damage, sound};

use super::lent::{Lent, ReadOnly};
use super::made::{any_count, lend_rows};
use super::rigs::Rig;
use super::runs::{Runs, ACCOUNT_ROW, LINK_ROW};
use super::{agree, agree_octets, guarded, same, same_octets, sides, Mismatch, Tally, What};

/// A plan that may have bad values, or more rows than an image has.
fn any_plan(r: &mut Random) -> Plan {
    let mut plan = match r.below(60) {
        0 => {
            let (accounts, links) = (r.count(63, 66), r.count(1, 4));
            sound::plan_of(r, accounts, links)
        }
        1 => {
            let (accounts, links) = (r.count(1, 4), r.count(255, 258));
            sound::plan_of(r, accounts, links)
        }
        _ => sound::plan(r),
    };
    if r.percent(35) {
        for _ in 0..r.within(1, 3) {
            damage::value(r, &mut plan);
        }
    }
    plan
}

fn any_room(r: &mut Random, tables: &Tables) -> Lent<u8> {
    let accounts = tables.account_count.min(300);
    let links = tables.link_count.min(300);
    let needed = 8 + 9 * accounts + 16 * links + 3;
    let octets = match r.below(20) {
        0 => 0,
        1..=2 => needed - 1,
        3 => r.count(0, needed),
        4..=9 => needed + r.count(1, 40),
        _ => needed,
    };
    Lent::garbage(r, octets, |n| n as u8)
}

/// Writes by both; the octets of the image where there is one.
pub fn write_both(tables: &Tables, room: &Lent<u8>) -> Result<(WriteAnswer, Vec<u8>), Mismatch> {
    let (mut rattle, mut rust) = (room.clone(), room.clone());
    let ours = ffi::write(tables, rattle.run_mut());
    let theirs = sides::write(policer::write(&sides::config(tables), rust.run_mut()));
    same("writing", &ours, &theirs)?;
    same_octets("rooms after writing", &rattle, &rust)?;
    if ours.code != 0 {
        agree_octets("rooms", ("after", rattle.all()), ("before", room.all()))?;
        return Ok((ours, vec![]));
    }
    Ok((ours, rattle.run()[..ours.offset].to_vec()))
}

/// What was written loads, by both, as what it was written from.
fn load_back(image: &ReadOnly, tables: &Tables, room: &Runs) -> Result<(), Mismatch> {
    let (n, m) = (tables.account_count, tables.link_count);
    let expected = ImageAnswer {
        code: 0,
        offset: image.run().len(),
        constant: tables.constant,
        accounts: n,
        links: m,
    };
    let (mut rattle, mut rust) = (room.clone(), room.clone());
    let ours = rattle.load_by_rattle(image.run());
    same("loading back", &ours, &rust.load_by_rust(image.run()))?;
    rattle.same(&rust)?;
    agree("loading back", ("loaded", &ours), ("written", &expected))?;
    let (accounts, links) = (ACCOUNT_ROW * n, LINK_ROW * m);
    let loaded = (
        &rattle.accounts.run()[..accounts],
        &rattle.links.run()[..links],
    );
    let written = (&tables.accounts[..accounts], &tables.links[..links]);
    agree_octets("account rows", ("loaded", loaded.0), ("written", written.0))?;
    agree_octets("link rows", ("loaded", loaded.1), ("written", written.1))?;
    image.stayed("the image lent for reading")
}

/// The modes that an answer is about: those of an image written, or that of the account refused for a value.
fn modes(tables: &Tables, answer: &WriteAnswer) -> Vec<u8> {
    let rows = tables.accounts.chunks_exact(ACCOUNT_ROW);
    let mut modes = rows.take(tables.account_count).map(|row| row[5]);
    match (answer.code, answer.offset.checked_sub(8)) {
        (0, _) => modes.collect(),
        (23, Some(after_head)) => modes.nth(after_head / 9).into_iter().collect(),
        _ => vec![],
    }
}

pub fn run(r: &mut Random, tally: &mut Tally) -> Result<(), Mismatch> {
    let plan = any_plan(r);
    let accounts = lend_rows(r, plan.account_rows(), ACCOUNT_ROW);
    let links = lend_rows(r, plan.link_rows(), LINK_ROW);
    let tables = Tables {
        constant: plan.constant,
        accounts: accounts.run(),
        account_count: any_count(r, plan.accounts.len()),
        links: links.run(),
        link_count: any_count(r, plan.links.len()),
    };
    let room = any_room(r, &tables);
    let with_inputs = |m: Mismatch| m.tables(&tables).octets("room lent", room.run());
    let (answer, image) = guarded(|| write_both(&tables, &room)).map_err(with_inputs)?;
    tally.count(What::Write, answer.code);
    for mode in modes(&tables, &answer) {
        tally.count_mode(What::Write, mode, answer.code);
    }
    accounts
        .stayed("the account rows lent for reading")
        .and_then(|()| links.stayed("the link rows lent for reading"))
        .map_err(with_inputs)?;
    if answer.code == 0 {
        let lent = ReadOnly::new(r, &image);
        let runs = Runs::ample(r, tables.account_count, tables.link_count);
        guarded(|| load_back(&lent, &tables, &runs)).map_err(|m| {
            with_inputs(runs.with_inputs(m)).rig(Rig::of_calls("written", &image, &[]))
        })?;
    }
    Ok(())
}
