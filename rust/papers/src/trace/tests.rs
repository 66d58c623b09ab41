//! A trace of one crate, sound and broken in each way.

use super::{faults, Section, SECTIONS};
use crate::tree::Tree;

const SPECS: &str = "\
abbrev pub limit : Nat

abbrev pub Limits : Type 0

pub record Whole : Type 0 where
  pub limits : Limits
";

/// A trace without a fault, of one crate: a row for each section, then the list of theorems.
fn sound() -> String {
    let mut text = String::from(
        "# Trace\n\nSee `crates/CRATE/specs/` and `crates/frame/specs/Claims.antt`.\n",
    );
    for section in Section::all() {
        let heading = match section {
            Section::Paper(paper) => SECTIONS[paper].into(),
            Section::Request(number) => format!("Request Q-{number}: more"),
            _ => unreachable!(),
        };
        text += &format!("\n## {heading}\n\n| Rule | Run |\n|---|---|\n| the rule | – |\n");
    }
    text += "
## The library (own, D-7)

| Rule | Definition | Contract | Theorem | Edits | Run |
|---|---|---|---|---|---|
| A line `cut` (own rule, D-7) | frame `Claims`: `limit`; proofs `Claims`: `limits` \
| frame `read`, `&mut [u8]`, `Head::size`; `lib.rt`: `read` | frame `Claims`: `Limits`, `Whole` (`limits`) \
| `frame/too_long` | steps: `sizes`; rigs: `one`; kind `images`; program `cases` |

| Function | Kind |
|---|---|
| `ash_read` | `images` |

## Theorems, by subject

| Theorem | What it says |
|---|---|
| frame `Claims`: `Limits`, `Whole` | Sizes. |
";
    text
}

fn tree(trace: &str) -> Tree {
    Tree::of(&[
        (
            "crates/cases/stdout",
            "# section steps\n# sizes of frames\nstep 1\n",
        ),
        (
            "crates/exports/src/lib.rt",
            "pub extern \"C\" fn ash_read(\n",
        ),
        ("crates/frame/must-fail/too_long.edit", ""),
        (
            "crates/frame/proofs/Claims.antt",
            "pub limits : Limits\npub whole : Whole\n",
        ),
        ("crates/frame/specs/Claims.antt", SPECS),
        (
            "crates/frame/src/lib.rt",
            "pub struct Head {\nfn size(\npub fn read(frame: &mut [u8])\n",
        ),
        ("docs/TRACE.md", trace),
        ("include/ashthulgo.h", "void ash_read(void);"),
        ("rigs/one/rig.cfg", ""),
        ("rust/trials/tests/kinds/mod.rs", "name: \"images\","),
    ])
}

fn told(tree: &Tree) -> Vec<String> {
    faults(tree).into_iter().map(|fault| fault.what).collect()
}

/// The faults of the sound trace with one text for another, which it has once.
#[track_caller]
fn broken(text: &str, by: &str) -> Vec<String> {
    let sound = sound();
    assert_eq!(sound.matches(text).count(), 1, "{text}");
    told(&tree(&sound.replace(text, by)))
}

#[test]
fn a_sound_trace() {
    assert_eq!(told(&tree(&sound())), [""; 0]);
}

#[test]
fn names_that_are_not_there() {
    let said = broken("`Claims`: `limit`", "`Claims`: `lomit`");
    assert_eq!(
        said,
        ["there is no `lomit` in crates/frame/specs/Claims.antt"]
    );
    let said = broken("proofs `Claims`: `limits`", "proofs `Claims`: `limit`");
    assert_eq!(
        said,
        ["there is no `limit` in crates/frame/proofs/Claims.antt"]
    );
    assert_eq!(
        broken("frame `read`, ", "frame `write`, "),
        ["there is no `write` in crates/frame/src"]
    );
    assert_eq!(
        broken("`lib.rt`: `read`", "`lib.rt`: `write`"),
        ["there is no `write` in crates/frame/src/lib.rt"]
    );
    assert_eq!(
        broken("`lib.rt`: `read`", "`ex.rt`: `read`")
            .first()
            .unwrap(),
        "crates/frame/src has no file `ex.rt`"
    );
    assert_eq!(
        broken("`&mut [u8]`", "`&mut [u9]`"),
        ["there is no `&mut [u9]` in crates/frame/src"]
    );
    assert_eq!(
        broken("`Head::size`", "`Head::sum`"),
        ["there is no `Head::sum` in crates/frame/src"]
    );
    assert_eq!(
        broken("(`limits`)", "(`sums`)"),
        ["there is no `sums` in crates/frame/specs/Claims.antt"]
    );
    let said = broken(
        "`crates/frame/specs/Claims.antt`",
        "`crates/frame/specs/Clams.antt`",
    );
    assert_eq!(
        said,
        ["there is no file or folder `crates/frame/specs/Clams.antt`"]
    );
    assert_eq!(
        broken("crates/CRATE/specs/", "crates/CRATE/spec/"),
        ["there is no file or folder `crates/CRATE/spec/`"]
    );
}

#[test]
fn names_without_their_crate() {
    let said = broken("frame `Claims`: `limit`;", "`Claims`: `limit`;");
    assert!(
        said.contains(&"no crate is named before `limit`".into()),
        "{said:?}"
    );
    let said = broken("; `lib.rt`: `read`", "; `read`");
    assert_eq!(said, ["no crate is named between the last `;` and `read`"]);
}

#[test]
fn edits() {
    assert_eq!(
        broken("`frame/too_long`", "`too_long`").first().unwrap(),
        "the edit `too_long` is not cited as `crate/edit`"
    );
    let said = broken("`frame/too_long`", "`frame/too_short`");
    let expected = [
        "there is no crates/frame/must-fail/too_short.edit",
        "the edit `frame/too_long` is cited nowhere",
    ];
    assert_eq!(said, expected);
    assert_eq!(
        broken("`frame/too_long`", "`gone/too_long`")
            .first()
            .unwrap(),
        "`gone/too_long`: there is no crate gone"
    );
    assert_eq!(
        broken("`frame/too_long`", "–"),
        ["the edit `frame/too_long` is cited nowhere"]
    );
}

#[test]
fn runs() {
    assert_eq!(
        broken("`sizes`", "`size`"),
        ["section steps of crates/cases/stdout has no heading `size`"]
    );
    let said = broken("steps: `sizes`", "calls: `sizes`");
    assert_eq!(said, ["`sizes`: crates/cases/stdout has no section calls"]);
    assert_eq!(
        broken("steps: `sizes`", "`sizes`"),
        ["`sizes` has no section, rig, kind or program before it"]
    );
    assert_eq!(
        broken("rigs: `one`", "rigs: `two`"),
        ["there is no rigs/two"]
    );
    assert_eq!(
        broken("kind `images`", "kind `frames`"),
        ["`frames` is no kind of the differential tests"]
    );
    assert_eq!(
        broken("program `cases`", "program `frame`"),
        ["there is no crates/frame/stdout"]
    );
}

#[test]
fn the_static_library() {
    let said = broken("`ash_read`", "`ash_write`");
    let expected = [
        "`ash_write` is no function of crates/exports/src",
        "`ash_write` is not declared in include/ashthulgo.h",
        "the function `ash_read` of the static library has no row",
    ];
    assert_eq!(said, expected);
}

#[test]
fn sections() {
    let unknown = "a table under a heading that is no section of the papers and cites no decision";
    let said = broken("## The frame\n", "## Frames\n");
    assert_eq!(
        said,
        [
            unknown,
            "no row is about section \"The frame\" of document 01"
        ]
    );
    assert_eq!(
        broken("## Request Q-2: more", "## Request Q-9: more"),
        [unknown, "no row is about request Q-2"]
    );
    assert_eq!(
        broken("## The library (own, D-7)", "## The library (own)")
            .first()
            .unwrap(),
        unknown
    );
    assert_eq!(
        broken("(own rule, D-7)", "(own rule)"),
        ["a rule of the project's own cites no decision"]
    );
    let said = broken("A line `cut`", "A line `cut` (\"The box\")");
    assert_eq!(said, ["document 01 has no section \"The box\""]);
    assert_eq!(
        broken("A line `cut`", "A line `limit`"),
        ["`limit` is no word of the papers; names stand in the other columns"]
    );
}

#[test]
fn tables() {
    assert_eq!(
        broken("| Function | Kind |", "| Function | Sort |"),
        ["no column is called 'Sort'"]
    );
    assert_eq!(
        broken("| `ash_read` | `images` |", "| `ash_read` |"),
        ["a row of 1 cells in a table of 2 columns"]
    );
}

#[test]
fn theorems() {
    let lacks = "the list of theorems lacks `Whole` (crates/frame/specs/Claims.antt:5)";
    assert_eq!(
        broken("`Limits`, `Whole` | Sizes", "`Limits` | Sizes"),
        [lacks]
    );
    let said = broken(
        "`Limits`, `Whole` | Sizes",
        "`Limits`, `Whole`, `Limits` | Sizes",
    );
    assert_eq!(said, ["the list of theorems has `Limits` twice"]);
    let said = broken("`Limits`, `Whole` (`limits`)", "`Limits`, `limit`");
    assert_eq!(
        said,
        ["`limit` of crates/frame/specs/Claims.antt is no theorem"]
    );
    let unproved = tree(&sound()).with("crates/frame/proofs/Claims.antt", "pub limits : Limits\n");
    let expected = "nothing in crates/frame/proofs has `Whole` (crates/frame/specs/Claims.antt:5) for its type";
    assert_eq!(told(&unproved), [expected]);
}
