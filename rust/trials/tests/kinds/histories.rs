//! Histories from accepted images: every answer and state by both, all codes by the judge, and one account alone.

use ffi::{CallAnswer, ImageAnswer};
use trials::plan::Plan;
use trials::random::Random;
use trials::sound::{self, ACCOUNTS_MAX, LINKS_MAX};
use trials::traffic::{Call, Traffic};

use super::lent::ReadOnly;
use super::rigs::Rig;
use super::runs::{tables, Runs};
use super::{agree, guarded, same, sides, Mismatch, Tally, What};

const LONGEST: u64 = 200;

/// A plan, and its image as it is lent.
struct Source {
    plan: Plan,
    image: ReadOnly,
}

/// What loading filled and answered, and how it stands now.
struct Loaded {
    runs: Runs,
    answer: ImageAnswer,
}

impl Loaded {
    fn by_rattle(mut runs: Runs, image: &[u8]) -> Self {
        let answer = runs.load_by_rattle(image);
        Loaded { runs, answer }
    }

    fn by_rust(mut runs: Runs, image: &[u8]) -> Self {
        let answer = runs.load_by_rust(image);
        Loaded { runs, answer }
    }

    fn rattle_call(&mut self, frame: &[u8], port: u32, time: u64) -> CallAnswer {
        let runs = &mut self.runs;
        let tables = tables(&self.answer, runs.accounts.run(), runs.links.run());
        let (credits, lasts) = (runs.credits.run_mut(), runs.lasts.run_mut());
        ffi::frame_call(frame, port, time, &tables, credits, lasts)
    }

    fn rust_call(&mut self, frame: &[u8], port: u32, time: u64) -> CallAnswer {
        let runs = &mut self.runs;
        let tables = tables(&self.answer, runs.accounts.run(), runs.links.run());
        let (credits, lasts) = (runs.credits.run_mut(), runs.lasts.run_mut());
        let config = sides::config(&tables);
        sides::call(policer::frame_call(
            frame, port, time, &config, credits, lasts,
        ))
    }
}

/// A history on both sides, as far as it has come.
struct History<'a> {
    about: &'static str,
    source: &'a Source,
    rattle: Loaded,
    rust: Loaded,
    traffic: Traffic<'a>,
    calls: Vec<Call>,
    answers: Vec<CallAnswer>,
}

impl<'a> History<'a> {
    /// Loads the image into room of its own.
    fn start(r: &mut Random, about: &'static str, source: &'a Source) -> Result<Self, Mismatch> {
        let (n, m) = if r.once_in(4) {
            (ACCOUNTS_MAX, LINKS_MAX)
        } else {
            (source.plan.accounts.len(), source.plan.links.len())
        };
        let room = Runs::ample(r, n, m);
        let image = source.image.run();
        let loaded = guarded(|| {
            let rattle = Loaded::by_rattle(room.clone(), image);
            let rust = Loaded::by_rust(room.clone(), image);
            same("loading", &rattle.answer, &rust.answer)?;
            rattle.runs.same(&rust.runs)?;
            agree("the code", ("load", &rattle.answer.code), ("expected", &0))?;
            source.image.stayed("the image lent for reading")?;
            Ok((rattle, rust))
        });
        let (rattle, rust) = loaded.map_err(|m| {
            room.with_inputs(m)
                .octets("image", image)
                .rig(Rig::of_calls(about, image, &[]))
        })?;
        Ok(History {
            about,
            source,
            rattle,
            rust,
            traffic: Traffic::new(r, &source.plan),
            calls: vec![],
            answers: vec![],
        })
    }

    /// A call aimed by how the accounts stand.
    fn next_call(&mut self, r: &mut Random) -> Call {
        let runs = &self.rust.runs;
        self.traffic.call(r, runs.credits.run(), runs.lasts.run())
    }

    /// A call that is meant for another account, or for none.
    fn other_call(&mut self, r: &mut Random, account: u16) -> Call {
        for _ in 0..4 {
            let call = self.next_call(r);
            if meant(&self.source.plan, &call.frame) != Some(account) {
                return call;
            }
        }
        let mut call = self.next_call(r);
        if call.frame.len() >= 6 {
            call.frame[4..6].copy_from_slice(&r.octets(2));
        }
        if meant(&self.source.plan, &call.frame) == Some(account) {
            call.frame.truncate(r.count(0, 5));
        }
        call
    }

    /// Sends a frame to both; the answers and everything lent are compared, and the answer is counted.
    fn send(
        &mut self,
        r: &mut Random,
        call: Call,
        what: What,
        tally: &mut Tally,
    ) -> Result<CallAnswer, Mismatch> {
        let frame = ReadOnly::new(r, &call.frame);
        let (port, time) = (call.port, call.time);
        self.calls.push(call);
        let answer = guarded(|| {
            let ours = self.rattle.rattle_call(frame.run(), port, time);
            let theirs = self.rust.rust_call(frame.run(), port, time);
            same("the answer to the last frame", &ours, &theirs)?;
            self.rattle.runs.same(&self.rust.runs)?;
            frame.stayed("the frame lent for reading")?;
            Ok(ours)
        });
        let answer = answer.map_err(|m| self.with_inputs(m, self.calls.len()))?;
        self.answers.push(answer);
        self.count(frame.run(), &answer, what, tally);
        Ok(answer)
    }

    /// Counts the answer to a frame, by the account it is meant for too.
    fn count(&self, frame: &[u8], answer: &CallAnswer, what: What, tally: &mut Tally) {
        tally.count(what, answer.code);
        let plan = &self.source.plan;
        if let Some(account) = meant(plan, frame) {
            let account = &plan.accounts[usize::from(account)];
            tally.count_frame(what, account, frame.len(), (answer.code, answer.credit));
        }
    }

    /// Adds the first so many calls to a mismatch, which is about the last of them.
    fn with_inputs(&self, mismatch: Mismatch, calls: usize) -> Mismatch {
        let image = self.source.image.run();
        let calls = &self.calls[..calls];
        let mismatch = mismatch
            .octets("image", image)
            .input("frames sent", calls.len())
            .rig(Rig::of_calls(self.about, image, calls));
        match calls.last() {
            Some(call) => mismatch.call(call),
            None => mismatch,
        }
    }

    fn end(&self, account: u16) -> (u32, u64) {
        let (runs, at) = (&self.rattle.runs, usize::from(account));
        (runs.credits.run()[at], runs.lasts.run()[at])
    }
}

/// The account that a frame is meant for.
fn meant(plan: &Plan, frame: &[u8]) -> Option<u16> {
    let number = u16::from_be_bytes([*frame.get(4)?, *frame.get(5)?]);
    let link = plan.links.iter().find(|l| l.number == number)?;
    Some(link.account)
}

fn any_plan(r: &mut Random) -> Plan {
    let (accounts, links) = match r.below(40) {
        0 => return sound::plan(r),
        1..=9 => (1, r.count(1, 4)),
        _ => (r.count(2, 4), r.count(2, 8)),
    };
    sound::plan_of(r, accounts, links)
}

/// A new history, each answer and each state compared.
fn record<'a>(
    r: &mut Random,
    source: &'a Source,
    tally: &mut Tally,
) -> Result<History<'a>, Mismatch> {
    let mut history = History::start(r, "history", source)?;
    let length = if r.once_in(50) {
        0
    } else {
        r.within(1, LONGEST)
    };
    for _ in 0..length {
        let call = history.next_call(r);
        history.send(r, call, What::FrameCall, tally)?;
    }
    Ok(history)
}

/// All codes by the rule of demand 3; 10 never.
fn judge(history: &History) -> Result<(), Mismatch> {
    let calls: Vec<judge::Call> = history
        .calls
        .iter()
        .map(|call| judge::Call {
            frame: &call.frame,
            port: call.port,
            time: call.time,
        })
        .collect();
    let judged = guarded(|| Ok(judge::codes(history.source.image.run(), &calls)))
        .map_err(|m| history.with_inputs(m, calls.len()))?;
    for (n, (answer, code)) in history.answers.iter().zip(&judged).enumerate() {
        agree("the code", ("Rattle", &answer.code), ("judge", code))
            .and_then(|()| agree("code 10", ("judge", &(*code == 10)), ("expected", &false)))
            .map_err(|m| history.with_inputs(m, n + 1))?;
    }
    agree(
        "the count of codes",
        ("Rattle", &calls.len()),
        ("judge", &judged.len()),
    )
    .map_err(|m| history.with_inputs(m, calls.len()))
}

/// An account of the history, one with frames mostly.
fn any_account(r: &mut Random, history: &History) -> u16 {
    let plan = &history.source.plan;
    let aimed = history
        .calls
        .get(r.below(history.calls.len() as u64) as usize);
    let aimed = aimed.and_then(|call| meant(plan, &call.frame));
    aimed.unwrap_or(r.below(plan.accounts.len() as u64) as u16)
}

/// One account's frames again in other room, alone or with other frames before, between and after them: its answers and
/// its end are the same.
fn isolate(r: &mut Random, whole: &History, tally: &mut Tally) -> Result<(), Mismatch> {
    let account = any_account(r, whole);
    let others = r.pick(&[0, 0, 30, 60]);
    let mut alone = History::start(r, "one account", whole.source)?;
    send_others(r, &mut alone, account, others, tally)?;
    for (n, (call, answer)) in whole.calls.iter().zip(&whole.answers).enumerate() {
        if meant(&whole.source.plan, &call.frame) != Some(account) {
            continue;
        }
        send_others(r, &mut alone, account, others, tally)?;
        let again = alone.send(r, call.clone(), What::Isolated, tally)?;
        agree(
            "Rattle's answer to the frame",
            ("whole history", answer),
            ("one account", &again),
        )
        .map_err(|m| with_both(m, account, (whole, n + 1), &alone))?;
    }
    send_others(r, &mut alone, account, others, tally)?;
    agree(
        "Rattle's end of the account",
        ("whole history", &whole.end(account)),
        ("one account", &alone.end(account)),
    )
    .map_err(|m| with_both(m, account, (whole, whole.calls.len()), &alone))
}

/// Some frames that aren't meant for the account, another one so many times in a hundred.
fn send_others(
    r: &mut Random,
    history: &mut History,
    account: u16,
    others: u64,
    tally: &mut Tally,
) -> Result<(), Mismatch> {
    while r.percent(others) {
        let call = history.other_call(r, account);
        history.send(r, call, What::FrameCall, tally)?;
    }
    Ok(())
}

/// Adds to a mismatch the calls of both histories, the first so many of the whole one.
fn with_both(
    mismatch: Mismatch,
    account: u16,
    (whole, calls): (&History, usize),
    alone: &History,
) -> Mismatch {
    let mismatch = whole.with_inputs(mismatch.input("account", account), calls);
    let image = alone.source.image.run();
    mismatch.rig(Rig::of_calls(alone.about, image, &alone.calls))
}

pub fn run(r: &mut Random, tally: &mut Tally) -> Result<(), Mismatch> {
    let plan = any_plan(r);
    let image = ReadOnly::new(r, &plan.image());
    let source = Source { plan, image };
    let history = record(r, &source, tally)?;
    judge(&history)?;
    isolate(r, &history, tally)
}
