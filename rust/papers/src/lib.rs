//! Checks of the documents against the repository. docs/TRACE.md names definitions, contracts, theorems, edits and runs: each
//! must exist where its row says, and every edit and every theorem must be named. Decisions and links must exist too.
//! `docs/TRACE.md` says how its rows are read.
#![forbid(unsafe_code)]
#![warn(missing_docs)]

mod decisions;
mod links;
mod markdown;
mod sections;
mod sources;
mod trace;
mod tree;

use std::fmt;

pub use tree::Tree;

/// The document that traces each rule to what states, promises, proves and runs it.
pub const TRACE: &str = "docs/TRACE.md";

/// The document that has the decisions.
pub const DECISIONS: &str = "docs/DECISIONS.md";

/// What is wrong in a document, and on which line of it. Line 0 is said of the document as a whole.
#[derive(Debug, Clone, PartialEq, Eq, PartialOrd, Ord)]
pub struct Fault {
    /// The document.
    pub file: String,
    /// The line, counted from 1.
    pub line: usize,
    /// What is wrong there.
    pub what: String,
}

impl Fault {
    fn new(file: &str, line: usize, what: impl Into<String>) -> Fault {
        Fault {
            file: file.into(),
            line,
            what: what.into(),
        }
    }
}

impl fmt::Display for Fault {
    fn fmt(&self, f: &mut fmt::Formatter) -> fmt::Result {
        write!(f, "{}:{}: {}", self.file, self.line, self.what)
    }
}

/// All faults of the documents, in the order of their lines.
pub fn faults(tree: &Tree) -> Vec<Fault> {
    let decided = decisions::numbers(tree);
    let mut faults = trace::faults(tree);
    faults.extend(decisions::faults(tree, &decided));
    faults.extend(links::faults(tree));
    faults.sort();
    faults.dedup();
    faults
}
