//! The sections of the papers, and what a heading or a rule of the trace says of them.

use crate::markdown::cited;

/// The sections of document 01 that have rules. The papers are not in the repository.
pub const SECTIONS: [&str; 12] = [
    "What the box covers",
    "The frame",
    "Accounts and links",
    "Credit, in whole units",
    "Codes, in order of checking",
    "The terms of demand 3",
    "The configuration image",
    "The replay program",
    "Bench sheet",
    "Slips we have seen or fear",
    "Each place and its form",
    "How tight the contracts are",
];

/// The requests of document 02 that have landed.
const LANDED: [u32; 3] = [1, 2, 3];

/// The heading of the list of theorems, which has every theorem once.
const THEOREMS: &str = "Theorems, by subject";

/// What the heading of a table says of its rows.
#[derive(Clone, Copy, PartialEq, Eq, PartialOrd, Ord)]
pub enum Section {
    /// Rules of a section of document 01.
    Paper(usize),
    /// Rules of a request of document 02.
    Request(u32),
    /// Rules of the project's own, by a decision.
    Own,
    /// The list of theorems.
    Theorems,
    /// None of these.
    Unknown,
}

impl Section {
    pub fn of(heading: &str) -> Section {
        let paper = SECTIONS.iter().position(|title| *title == heading);
        let request = heading
            .strip_prefix("Request Q-")
            .and_then(|rest| rest.split_once(": "));
        let request = request.and_then(|(number, _)| number.parse().ok());
        if let Some(paper) = paper {
            Section::Paper(paper)
        } else if let Some(request) = request.filter(|number| LANDED.contains(number)) {
            Section::Request(request)
        } else if heading == THEOREMS {
            Section::Theorems
        } else if own(heading) == Some(true) {
            Section::Own
        } else {
            Section::Unknown
        }
    }

    pub fn all() -> impl Iterator<Item = Section> {
        let papers = (0..SECTIONS.len()).map(Section::Paper);
        papers.chain(LANDED.into_iter().map(Section::Request))
    }

    pub fn name(self) -> String {
        match self {
            Section::Paper(section) => format!("section \"{}\" of document 01", SECTIONS[section]),
            Section::Request(number) => format!("request Q-{number}"),
            Section::Own | Section::Theorems | Section::Unknown => "the project".into(),
        }
    }
}

/// Whether a rule that says that it is the project's own cites a decision there; none where it doesn't say so.
pub fn own(rule: &str) -> Option<bool> {
    let said = rule.split_once("(own")?.1;
    Some(
        said.split_once(')')
            .is_some_and(|(said, _)| !cited(said).is_empty()),
    )
}

/// The section that a rule names beside that of its heading, as `("The frame")`.
pub fn quoted_section(rule: &str) -> Option<&str> {
    Some(rule.split_once("(\"")?.1.split_once("\")")?.0)
}
