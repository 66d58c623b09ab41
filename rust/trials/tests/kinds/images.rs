//! Reading and loading images, writing the accepted ones again, and loading through a reader.

use ffi::ImageAnswer;
use trials::random::Random;
use trials::{damage, sound};

use super::lent::{Lent, ReadOnly};
use super::rigs::Rig;
use super::runs::{tables, Runs};
use super::writer::write_both;
use super::{agree, agree_octets, guarded, same, sides, Mismatch, Tally, What};

/// Checks and loads by both; the runs as Rattle left them, with its answer.
fn read(image: &ReadOnly, before: &Runs) -> Result<(ImageAnswer, Runs), Mismatch> {
    let checked = ffi::check(image.run());
    let theirs = sides::image(policer::check(image.run()));
    same("check", &checked, &theirs)?;
    let (mut rattle, mut rust) = (before.clone(), before.clone());
    let ours = rattle.load_by_rattle(image.run());
    same("load", &ours, &rust.load_by_rust(image.run()))?;
    rattle.same(&rust)?;
    if ours.code != 26 {
        agree("the answer", ("check", &checked), ("load", &ours))?;
    }
    image.stayed("the image lent for reading")?;
    Ok((ours, rattle))
}

/// Loads through a reader that stands at a place: the answer and the runs of both loads, and the place is the offset answered.
fn read_from(
    image: &ReadOnly,
    place: usize,
    before: &Runs,
    (answer, after): (&ImageAnswer, &Runs),
) -> Result<ImageAnswer, Mismatch> {
    let (mut reader, mut rust) = (before.clone(), before.clone());
    let mut left = place;
    let ours = reader.load_by_reader(image.run(), &mut left);
    let theirs = rust.load_by_rust(image.run());
    same("load through a reader", &ours, &theirs)?;
    same("the reader's place", &left, &theirs.offset)?;
    reader.same(&rust)?;
    agree("the answer", ("reader", &ours), ("load", answer))?;
    agree("the runs", ("reader", &reader), ("load", after))?;
    image.stayed("the image lent for reading")?;
    Ok(ours)
}

/// A reader's place, and which of them it is.
fn any_place(r: &mut Random, image: usize) -> (u8, usize) {
    match r.below(5) {
        0 => (0, 0),
        1 => (1, r.below(image as u64) as usize),
        2 => (2, image),
        3 => (3, image + r.count(1, 5_000)),
        _ => (4, usize::MAX),
    }
}

/// Writes what was loaded into a room by both; where there is room, the image comes back.
fn write_again(
    image: &[u8],
    answer: &ImageAnswer,
    runs: Runs,
    room: &Lent<u8>,
) -> Result<(), Mismatch> {
    let (accounts, links) = (ReadOnly::of(runs.accounts), ReadOnly::of(runs.links));
    let tables = tables(answer, accounts.run(), links.run());
    let (answer, written) = write_both(&tables, room)?;
    accounts.stayed("the account rows lent for reading")?;
    links.stayed("the link rows lent for reading")?;
    let enough = room.run().len() >= image.len();
    let code = if enough { 0 } else { 26 };
    agree("the code", ("written", &answer.code), ("expected", &code))?;
    if enough {
        agree_octets("the octets", ("written", &written), ("image", image))?;
    }
    Ok(())
}

fn any_room(r: &mut Random, image: usize) -> Lent<u8> {
    let octets = match r.below(4) {
        0 => image + r.count(1, 40),
        1 => image - 1,
        2 => r.count(0, image),
        _ => image,
    };
    Lent::garbage(r, octets, |n| n as u8)
}

/// How many accounts and links the runs lent have room for, mostly: what the image names, or else its plan.
fn counts(image: &[u8], planned: (usize, usize)) -> (usize, usize) {
    let named = policer::check(image);
    if named.code == 0 {
        (named.accounts, named.links)
    } else {
        planned
    }
}

/// The modes that an answer is about: those of an accepted image, or that of the account refused for a value.
pub fn modes(image: &[u8], answer: &ImageAnswer) -> Vec<u8> {
    let at = answer.offset;
    match answer.code {
        0 => (0..answer.accounts).map(|i| image[8 + 9 * i + 8]).collect(),
        23 if image[at] == 2 => vec![image[at + 8]],
        _ => vec![],
    }
}

/// Reads, loads and writes again an image of so many accounts and links.
pub fn compare(
    r: &mut Random,
    octets: &[u8],
    planned: (usize, usize),
    tally: &mut Tally,
) -> Result<(), Mismatch> {
    let image = ReadOnly::new(r, octets);
    let with_inputs = |m: Mismatch| {
        m.octets("image", octets)
            .rig(Rig::of_calls("image", octets, &[]))
    };
    let (accounts, links) = guarded(|| Ok(counts(octets, planned))).map_err(with_inputs)?;
    let before = Runs::any(r, accounts, links);
    let with_inputs = |m: Mismatch| before.with_inputs(with_inputs(m));
    let (answer, runs) = guarded(|| read(&image, &before)).map_err(with_inputs)?;
    tally.count(What::Image, answer.code);
    for mode in modes(octets, &answer) {
        tally.count_mode(What::Image, mode, answer.code);
    }
    if answer.code == 0 {
        let room = any_room(r, octets.len());
        guarded(|| write_again(octets, &answer, runs.clone(), &room))
            .map_err(|m| with_inputs(m).octets("room lent", room.run()))?;
    }
    let (which, place) = any_place(r, octets.len());
    let through = guarded(|| read_from(&image, place, &before, (&answer, &runs)))
        .map_err(|m| with_inputs(m).input("the reader's place", place))?;
    tally.count(What::ReaderLoad, through.code);
    tally.count(What::ReaderPlace, which);
    Ok(())
}

pub fn run(r: &mut Random, tally: &mut Tally) -> Result<(), Mismatch> {
    let plan = sound::plan(r);
    let planned = (plan.accounts.len(), plan.links.len());
    let octets = damage::image(r, plan);
    compare(r, &octets, planned, tally)
}
