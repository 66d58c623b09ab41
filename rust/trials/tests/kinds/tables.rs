//! Frame calls over tables that no image was loaded into.

use ffi::{CallAnswer, Tables};
use trials::plan::{AccountRow, LinkRow, Plan};
use trials::random::Random;
use trials::traffic::{self, Call, LONG_SIZES};
use trials::{damage, sound};

use super::lent::{Lent, ReadOnly};
use super::made::{any_count, lend_rows};
use super::runs::{ACCOUNT_ROW, LINK_ROW};
use super::steps::any_credit;
use super::{agree, guarded, same, sides, Mismatch, Tally, What};

const CALLS: usize = 8;

/// What the accounts stand at.
#[derive(Debug, Clone, PartialEq, Eq)]
pub struct State {
    pub credits: Lent<u32>,
    pub lasts: Lent<u64>,
}

/// Rows, each with a broken rule now and then, whose numbers repeat.
fn any_plan(r: &mut Random) -> Plan {
    let (accounts, links) = match r.below(200) {
        0 => (r.count(0, 70), r.count(0, 300)),
        1..=5 => (0, r.count(0, 4)),
        _ => (r.count(1, 5), r.count(1, 8)),
    };
    let mut plan = Plan {
        constant: r.next() as u32,
        accounts: (0..accounts).map(|_| sound::account(r)).collect(),
        links: vec![],
    };
    let pool = [0, 1, 255, 256, u16::MAX, r.next() as u16, r.next() as u16];
    for _ in 0..links {
        let number = if r.once_in(2) {
            r.pick(&pool)
        } else {
            r.next() as u16
        };
        let link = any_link(r, number, &plan);
        plan.links.push(link);
    }
    for a in &mut plan.accounts {
        if r.percent(6) {
            damage::account(r, a);
        }
    }
    plan
}

fn any_link(r: &mut Random, number: u16, plan: &Plan) -> LinkRow {
    if plan.accounts.is_empty() {
        let other = [sound::account(r)];
        return sound::link(r, number, &other);
    }
    let mut link = sound::link(r, number, &plan.accounts);
    if r.percent(10) {
        damage::link(r, &mut link, &plan.accounts);
    }
    link
}

/// Credits and last times for the accounts; a run may be shorter or longer than the rows.
fn any_state(r: &mut Random, plan: &Plan) -> State {
    let mut credits = vec![];
    let mut lasts = vec![];
    let around = traffic::wild_time(r);
    for (i, a) in plan.accounts.iter().enumerate() {
        let octets = any_size(r, plan, i);
        credits.push(any_credit(r, a, octets));
        lasts.push(match r.below(5) {
            0 => 0,
            1 => traffic::wild_time(r),
            _ => around.saturating_add(r.below(1_000_000)),
        });
    }
    let (n, m) = (any_run(r, credits.len()), any_run(r, lasts.len()));
    credits.resize(n, r.next() as u32);
    lasts.resize(m, r.next());
    State {
        credits: Lent::around(r, &credits, |n| n as u32),
        lasts: Lent::around(r, &lasts, |n| n),
    }
}

/// A size that frames for an account often have: the smallest or the largest of a link, its Smax where it has none.
fn any_size(r: &mut Random, plan: &Plan, account: usize) -> usize {
    let links = plan.links.iter();
    let links: Vec<&LinkRow> = links
        .filter(|l| usize::from(l.account) == account)
        .collect();
    let size = match damage::any_index(r, links.len()) {
        Some(i) => r.pick(&[links[i].smallest, links[i].largest]),
        None => plan.accounts[account].smax,
    };
    usize::from(size)
}

/// The account that a frame is for, where the rows lent have it.
fn account_of(tables: &Tables, frame: &[u8]) -> Option<AccountRow> {
    let number = frame.get(4..6)?;
    let mut links = tables.links.chunks_exact(LINK_ROW).take(tables.link_count);
    let link = links.find(|row| row[..2] == *number)?;
    let account = usize::from(u16::from_be_bytes([link[11], link[12]]));
    let (rows, _) = tables.accounts.as_chunks::<ACCOUNT_ROW>();
    rows.get(account).map(AccountRow::of)
}

fn any_run(r: &mut Random, right: usize) -> usize {
    match r.below(40) {
        0 => 0,
        1 => r.count(0, right),
        2 => right.saturating_sub(1),
        3 => right + r.count(1, 3),
        _ => right,
    }
}

/// A call aimed at a row and at what its account stands at.
fn any_call(r: &mut Random, plan: &Plan, state: &State) -> Call {
    let Some(i) = damage::any_index(r, plan.links.len()) else {
        return stray(r, plan);
    };
    if r.percent(2) {
        return stray(r, plan);
    }
    let number = plan.links[i].number;
    // The first row with the number counts.
    let row = plan.links.iter().find(|l| l.number == number);
    let row = row.unwrap_or(&plan.links[i]);
    let at = usize::from(row.account);
    // A long frame is aimed by its first 64 octets.
    let long = r.once_in(400).then(|| r.pick(&LONG_SIZES));
    let octets = match long {
        Some(_) => 64,
        None => traffic::size(r, row),
    };
    let stands = (
        plan.accounts.get(at),
        state.credits.run().get(at),
        state.lasts.run().get(at),
    );
    let time = match stands {
        (Some(a), Some(&credit), Some(&last)) if r.percent(92) => {
            traffic::time(r, a, credit, last, octets)
        }
        _ => traffic::wild_time(r),
    };
    let mut frame = traffic::frame(r, plan, number, octets);
    frame.resize(long.unwrap_or(octets), 0x5a);
    Call {
        frame,
        port: traffic::port(r, row.port),
        time,
    }
}

/// The code of a frame's first 64 octets.
fn code_of_start(call: &Call, tables: &Tables, before: &State) -> u8 {
    let mut state = before.clone();
    let verdict = policer::frame_call(
        &call.frame[..64],
        call.port,
        call.time,
        &sides::config(tables),
        state.credits.run_mut(),
        state.lasts.run_mut(),
    );
    verdict.code()
}

/// Any octets, port and time.
fn stray(r: &mut Random, plan: &Plan) -> Call {
    let octets = if r.once_in(2) {
        r.pick(&traffic::SIZE_EDGES)
    } else {
        r.count(0, 1_600)
    };
    let mut frame = r.octets(octets);
    if octets >= 4 && r.once_in(2) {
        frame[..4].copy_from_slice(&plan.constant.to_be_bytes());
    }
    Call {
        frame,
        port: r.below(34) as u32,
        time: traffic::wild_time(r),
    }
}

/// One call by both, from the same state; the answer, and the states after it.
pub fn call_both(
    call: &Call,
    frame: &ReadOnly,
    tables: &Tables,
    rattle: &mut State,
    rust: &mut State,
) -> Result<CallAnswer, Mismatch> {
    let before = rattle.clone();
    let ours = ffi::frame_call(
        frame.run(),
        call.port,
        call.time,
        tables,
        rattle.credits.run_mut(),
        rattle.lasts.run_mut(),
    );
    let theirs = sides::call(policer::frame_call(
        frame.run(),
        call.port,
        call.time,
        &sides::config(tables),
        rust.credits.run_mut(),
        rust.lasts.run_mut(),
    ));
    same("the answer", &ours, &theirs)?;
    same("the credits after the call", &rattle.credits, &rust.credits)?;
    same("the last times after the call", &rattle.lasts, &rust.lasts)?;
    if !matches!(ours.code, 0 | 9) {
        let what = "the state, which this code leaves alone";
        agree(
            what,
            ("after", &(ours.code, &*rattle)),
            ("before", &(ours.code, &before)),
        )?;
    }
    frame.stayed("the frame lent for reading")?;
    Ok(ours)
}

pub fn run(r: &mut Random, tally: &mut Tally) -> Result<(), Mismatch> {
    let plan = any_plan(r);
    let mut rattle = any_state(r, &plan);
    let mut rust = rattle.clone();
    let accounts = lend_rows(r, plan.account_rows(), ACCOUNT_ROW);
    let links = lend_rows(r, plan.link_rows(), LINK_ROW);
    let tables = Tables {
        constant: plan.constant,
        accounts: accounts.run(),
        account_count: any_count(r, plan.accounts.len()),
        links: links.run(),
        link_count: any_count(r, plan.links.len()),
    };
    for _ in 0..CALLS {
        let call = any_call(r, &plan, &rust);
        let frame = ReadOnly::new(r, &call.frame);
        let before = rust.clone();
        let answer = guarded(|| call_both(&call, &frame, &tables, &mut rattle, &mut rust))
            .map_err(|m| {
                m.tables(&tables)
                    .input("credits", before.credits.run())
                    .input("last times", before.lasts.run())
                    .call(&call)
            })?;
        tally.count(What::FrameCall, answer.code);
        tally.count_long(call.frame.len(), || code_of_start(&call, &tables, &before));
        if let Some(account) = account_of(&tables, &call.frame) {
            let reported = (answer.code, answer.credit);
            tally.count_frame(What::FrameCall, &account, call.frame.len(), reported);
        }
    }
    accounts
        .stayed("the account rows lent for reading")
        .and_then(|()| links.stayed("the link rows lent for reading"))
        .map_err(|m| m.tables(&tables))
}
