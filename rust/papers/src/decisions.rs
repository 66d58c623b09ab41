//! The decisions: each has a number of its own, those that are cited exist, and the index lists all of them.

use std::collections::BTreeSet;

use crate::markdown::{blocks, cited, Block};
use crate::tree::Tree;
use crate::{Fault, DECISIONS};

/// The heading of the index.
const INDEX: &str = "Index";

/// The numbers of the decisions, in their order, each with its line.
pub fn numbers(tree: &Tree) -> Vec<(u32, usize)> {
    let text = tree.text(DECISIONS).unwrap_or_default();
    let entries = (1..)
        .zip(text.lines())
        .filter_map(|(line, row)| Some((entry(row)?, line)));
    entries.collect()
}

/// The number of the decision that a line begins, as `**D-7. Title.** ..`.
fn entry(line: &str) -> Option<u32> {
    line.strip_prefix("**D-")?.split_once('.')?.0.parse().ok()
}

/// What is wrong with the decisions, and where a document cites one that there is not.
pub fn faults(tree: &Tree, decided: &[(u32, usize)]) -> Vec<Fault> {
    let mut faults = Vec::new();
    let mut known = BTreeSet::new();
    for &(number, line) in decided {
        if !known.insert(number) {
            faults.push(Fault::new(
                DECISIONS,
                line,
                format!("D-{number} is the number of an earlier decision"),
            ));
        }
    }
    if decided.is_empty() {
        faults.push(Fault::new(DECISIONS, 0, "there is no decision"));
    }
    for (path, text) in tree.documents() {
        for (line, row) in (1..).zip(text.lines()) {
            let missing = cited(row)
                .into_iter()
                .filter(|number| !known.contains(number));
            faults.extend(
                missing.map(|number| {
                    Fault::new(path, line, format!("there is no decision D-{number}"))
                }),
            );
        }
    }
    faults.extend(index_faults(tree, &known));
    faults
}

/// The decisions that the index leaves out. A document without an index has no such fault.
fn index_faults(tree: &Tree, known: &BTreeSet<u32>) -> Vec<Fault> {
    let mut start = None;
    let mut inside = false;
    let mut listed = BTreeSet::new();
    for block in blocks(tree.text(DECISIONS).unwrap_or_default()) {
        match block {
            Block::Heading(line, _, words) => {
                inside = words == INDEX;
                start = start.or(inside.then_some(line));
            }
            Block::Row(_, cells) if inside => {
                listed.extend(cells.iter().skip(1).flat_map(|cell| cited(cell)))
            }
            _ => {}
        }
    }
    let Some(line) = start else { return Vec::new() };
    let missing = known.difference(&listed);
    missing
        .map(|number| Fault::new(DECISIONS, line, format!("the index lists no D-{number}")))
        .collect()
}

#[cfg(test)]
mod tests {
    use super::*;

    fn told(text: &str, other: &str) -> Vec<String> {
        let tree = Tree::of(&[(DECISIONS, text), ("docs/landings/Q-01.md", other)]);
        let mut faults = faults(&tree, &numbers(&tree));
        faults.sort();
        faults.iter().map(Fault::to_string).collect()
    }

    const TWO: &str = "**D-1. One.** As in D-2.\n\n**D-2.** Two.\n";

    #[test]
    fn decisions_that_are_there() {
        assert_eq!(told(TWO, "D-1 to D-2"), [""; 0]);
    }

    #[test]
    fn one_number_twice() {
        let faults = told("**D-1. One.**\n\n**D-1. Again.**\n", "");
        assert_eq!(
            faults,
            ["docs/DECISIONS.md:3: D-1 is the number of an earlier decision"]
        );
    }

    #[test]
    fn a_decision_that_is_not_there() {
        assert_eq!(
            told(TWO, "\nby D-3's choice"),
            ["docs/landings/Q-01.md:2: there is no decision D-3"]
        );
        assert_eq!(
            told(TWO, "D-1 to D-3"),
            ["docs/landings/Q-01.md:1: there is no decision D-3"]
        );
        assert_eq!(
            told("**D-1. One.** As in D-9.", ""),
            ["docs/DECISIONS.md:1: there is no decision D-9"]
        );
        assert_eq!(told("", ""), ["docs/DECISIONS.md:0: there is no decision"]);
    }

    #[test]
    fn an_index_that_leaves_one_out() {
        let index = "## Index\n\n| Section | Decisions |\n|---|---|\n| The frame | D-1 |\n\n## Decisions\n\n";
        let faults = told(&format!("{index}{TWO}"), "");
        assert_eq!(faults, ["docs/DECISIONS.md:1: the index lists no D-2"]);
        assert_eq!(
            told(
                &format!("{}{TWO}", index.replace("| D-1 |", "| D-1, D-2 |")),
                ""
            ),
            [""; 0]
        );
    }
}
