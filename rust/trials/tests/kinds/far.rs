//! Frame calls over tables of more rows than 16 bits count: the link's row is among the last, and so is its account.

use ffi::Tables;
use trials::plan::{LinkRow, Plan};
use trials::random::Random;
use trials::sound;
use trials::traffic::{self, Call};

use super::lent::{Lent, ReadOnly};
use super::tables::{call_both, State};
use super::{agree, guarded, Mismatch, Tally, What};

/// The rows that 16 bits count.
const COUNTED: usize = 1 << 16;

/// Accounts, all alike but the last; links of other numbers, and the last on the last account; how far it is past the rows
/// that 16 bits count.
fn any_plan(r: &mut Random) -> (Plan, usize) {
    let mut plan = sound::plan_of(r, 2, 2);
    let beyond = r.near(&[0, 0, 1, 2], 0, 300) as usize;
    let last = plan.accounts[1];
    plan.accounts.truncate(1);
    plan.accounts = plan.accounts.repeat(COUNTED - 1);
    plan.accounts.push(last);
    let link = sound::link(r, plan.links[1].number, &[last]);
    plan.links.truncate(1);
    plan.links = plan.links.repeat(COUNTED + beyond);
    plan.links.push(LinkRow {
        account: u16::MAX,
        ..link
    });
    (plan, beyond)
}

/// A call on the last link, aimed by its account.
fn any_call(r: &mut Random, plan: &Plan, state: &State) -> Call {
    let (link, account) = (plan.links.last(), plan.accounts.last());
    let (link, account) = (link.expect("a link"), account.expect("an account"));
    let octets = traffic::size(r, link);
    let (credit, last) = (
        state.credits.run()[COUNTED - 1],
        state.lasts.run()[COUNTED - 1],
    );
    let time = traffic::time(r, account, credit, last, octets);
    Call {
        frame: traffic::frame(r, plan, link.number, octets),
        port: traffic::port(r, link.port),
        time,
    }
}

pub fn run(r: &mut Random, tally: &mut Tally) -> Result<(), Mismatch> {
    let (plan, beyond) = any_plan(r);
    let full = |a: &trials::plan::AccountRow| a.capacity().map_or(0, |c| c as u32);
    let credits: Vec<u32> = plan.accounts.iter().map(full).collect();
    let mut rattle = State {
        lasts: Lent::around(r, &vec![1_000; credits.len()], |n| n),
        credits: Lent::around(r, &credits, |n| n as u32),
    };
    let mut rust = rattle.clone();
    let accounts = ReadOnly::new(r, &plan.account_rows());
    let links = ReadOnly::new(r, &plan.link_rows());
    let tables = Tables {
        constant: plan.constant,
        accounts: accounts.run(),
        account_count: plan.accounts.len(),
        links: links.run(),
        link_count: plan.links.len(),
    };
    for _ in 0..4 {
        let call = any_call(r, &plan, &rust);
        let frame = ReadOnly::new(r, &call.frame);
        let answer = guarded(|| {
            let answer = call_both(&call, &frame, &tables, &mut rattle, &mut rust)?;
            agree(
                "code 10",
                ("Rattle", &(answer.code == 10)),
                ("expected", &false),
            )?;
            Ok(answer)
        });
        let answer = answer.map_err(|m| m.tables(&tables).call(&call))?;
        tally.count(What::FrameCall, answer.code);
        if matches!(answer.code, 0 | 9) {
            tally.count(What::FarRow, u8::from(beyond > 0));
        }
    }
    accounts.stayed("the account rows lent for reading")?;
    links.stayed("the link rows lent for reading")
}
