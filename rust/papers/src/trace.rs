//! The check of docs/TRACE.md: names, edits, runs and sections exist where a row says, and no edit and no theorem is left out.

mod names;
#[cfg(test)]
mod tests;

use std::collections::{BTreeMap, BTreeSet};

use crate::markdown::{blocks, pieces, Block, Piece};
use crate::sections::{own, quoted_section, Section, SECTIONS};
use crate::sources::{case_headings, crates, kinds, Crates};
use crate::tree::Tree;
use crate::{Fault, TRACE};
use names::Wanted;

/// Words that the papers have in a fixed spelling. No other quoted word stands in the rules themselves.
const WORDS_OF_THE_PAPERS: [&str; 5] = ["rig.cfg", "rig.frames", "image CODE OFFSET", "cut", "-"];

/// The crate of the static library, and its header.
const EXPORTS: &str = "exports";
const HEADER: &str = "include/ashthulgo.h";

/// What a column has.
#[derive(Clone, Copy, PartialEq, Eq)]
enum Column {
    /// A rule, in words.
    Rule,
    /// What a theorem says, in words.
    Words,
    /// Names: `crate File: name, name; crate function`, files and names between backquotes.
    Names,
    /// The same, of theorems.
    Theorems,
    /// Edits, as `crate/edit`.
    Edits,
    /// Headings of worked cases, rigs, kinds of the differential tests, programs.
    Runs,
    /// Kinds of the differential tests.
    Kinds,
    /// Functions of the static library.
    Exports,
}

impl Column {
    fn of(name: &str) -> Option<Column> {
        match name {
            "Rule" | "Cases" | "Slip" | "Place" | "Sentence" => Some(Column::Rule),
            "Definition" | "Contract" | "Form" | "Where" | "What it promises" => {
                Some(Column::Names)
            }
            "What it says" => Some(Column::Words),
            "Theorem" => Some(Column::Theorems),
            "Edits" => Some(Column::Edits),
            "Run" => Some(Column::Runs),
            "Kind" => Some(Column::Kinds),
            "Function" => Some(Column::Exports),
            _ => None,
        }
    }
}

/// A trace that is being checked, beside what the repository has.
struct Check<'a> {
    tree: &'a Tree,
    crates: &'a Crates<'a>,
    headings: BTreeMap<&'a str, Vec<&'a str>>,
    kinds: BTreeSet<&'a str>,
    rigs: BTreeSet<&'a str>,
    header: &'a str,
    /// The line that is being checked; 0 for the whole document.
    line: usize,
    faults: Vec<Fault>,
    /// The edits that are cited, by crate.
    edits: BTreeSet<(&'a str, &'a str)>,
    /// The functions of the static library that have a row.
    exported: BTreeSet<&'a str>,
    /// The list of theorems: crate, file and name of each.
    listed: BTreeSet<(&'a str, &'a str, &'a str)>,
}

/// What is wrong with the trace.
pub fn faults(tree: &Tree) -> Vec<Fault> {
    let crates = crates(tree);
    let mut check = Check {
        tree,
        crates: &crates,
        headings: case_headings(tree),
        kinds: kinds(tree),
        rigs: tree.names("rigs").into_iter().collect(),
        header: tree.text(HEADER).unwrap_or_default(),
        line: 0,
        faults: Vec::new(),
        edits: BTreeSet::new(),
        exported: BTreeSet::new(),
        listed: BTreeSet::new(),
    };
    let rows = check.document(tree.text(TRACE).unwrap_or_default());
    check.line = 0;
    for section in Section::all().filter(|section| !rows.contains(section)) {
        check.fault(format!("no row is about {}", section.name()));
    }
    check.left_out();
    check.faults
}

impl<'a> Check<'a> {
    fn fault(&mut self, what: impl Into<String>) {
        self.faults.push(Fault::new(TRACE, self.line, what));
    }

    /// Checks the whole document. Returns the sections that have a row.
    fn document(&mut self, text: &'a str) -> BTreeSet<Section> {
        let mut section = Section::Unknown;
        let mut columns: Vec<Option<Column>> = Vec::new();
        let mut rows = BTreeSet::new();
        for block in blocks(text) {
            match block {
                Block::Heading(line, level, words) => {
                    self.line = line;
                    if level <= 2 {
                        section = Section::of(words);
                    }
                    self.name_all(words, Wanted::Names);
                }
                Block::Columns(line, names) => {
                    self.line = line;
                    if section == Section::Unknown {
                        self.fault("a table under a heading that is no section of the papers and cites no decision");
                    }
                    columns = names.iter().map(|name| Column::of(name)).collect();
                    for name in names.iter().filter(|name| Column::of(name).is_none()) {
                        self.fault(format!("no column is called '{name}'"));
                    }
                }
                Block::Row(line, cells) => {
                    self.line = line;
                    if cells.len() != columns.len() {
                        self.fault(format!(
                            "a row of {} cells in a table of {} columns",
                            cells.len(),
                            columns.len()
                        ));
                    }
                    rows.insert(section);
                    for (cell, column) in cells.iter().zip(&columns) {
                        self.cell(cell, *column, section == Section::Theorems);
                    }
                }
                Block::Text(line, words) => {
                    self.line = line;
                    self.name_all(words, Wanted::Names);
                }
            }
        }
        rows
    }

    fn cell(&mut self, cell: &'a str, column: Option<Column>, listed: bool) {
        match column {
            Some(Column::Rule) => self.rule(cell),
            Some(Column::Words) => self.words(cell),
            Some(Column::Names) => self.name_all(cell, Wanted::Names),
            Some(Column::Theorems) if listed => self.name_all(cell, Wanted::Listed),
            Some(Column::Theorems) => self.name_all(cell, Wanted::Theorems),
            Some(Column::Edits) => quoted(cell).for_each(|name| self.edit(name)),
            Some(Column::Runs) => self.runs(cell),
            Some(Column::Kinds) => quoted(cell).for_each(|name| self.kind(name)),
            Some(Column::Exports) => quoted(cell).for_each(|name| self.export(name)),
            None => {}
        }
    }

    /// A rule cites a decision where it is the project's own, and names no section that there is not.
    fn rule(&mut self, rule: &str) {
        if own(rule) == Some(false) {
            self.fault("a rule of the project's own cites no decision");
        }
        if let Some(section) = quoted_section(rule).filter(|section| !SECTIONS.contains(section)) {
            self.fault(format!("document 01 has no section \"{section}\""));
        }
        self.words(rule);
    }

    /// Words have no names among them, those of the papers aside.
    fn words(&mut self, words: &str) {
        for word in quoted(words).filter(|word| !WORDS_OF_THE_PAPERS.contains(word)) {
            self.fault(format!(
                "`{word}` is no word of the papers; names stand in the other columns"
            ));
        }
    }

    /// An edit, as `crate/edit`.
    fn edit(&mut self, name: &'a str) {
        let Some((owner, edit)) = name.split_once('/') else {
            return self.fault(format!("the edit `{name}` is not cited as `crate/edit`"));
        };
        match self.crates.get(owner) {
            None => self.fault(format!("`{name}`: there is no crate {owner}")),
            Some(entry) if !entry.edits.contains(edit) => {
                self.fault(format!("there is no crates/{owner}/must-fail/{edit}.edit"))
            }
            Some(_) => _ = self.edits.insert((owner, edit)),
        }
    }

    fn kind(&mut self, name: &str) {
        if !self.kinds.contains(name) {
            self.fault(format!("`{name}` is no kind of the differential tests"));
        }
    }

    /// A function of the static library, in the code and in the header.
    fn export(&mut self, name: &'a str) {
        self.exported.insert(name);
        if !self
            .crates
            .get(EXPORTS)
            .is_some_and(|exports| exports.has_item(name))
        {
            self.fault(format!("`{name}` is no function of crates/exports/src"));
        }
        if !self.declared(name) {
            self.fault(format!("`{name}` is not declared in {HEADER}"));
        }
    }

    /// Whether the header declares a function.
    fn declared(&self, name: &str) -> bool {
        self.header.contains(&format!("{name}("))
    }

    /// Runs: `section: heading, heading; rigs: rig; kind kind; program crate`, what comes after a word between backquotes.
    fn runs(&mut self, cell: &str) {
        let pieces = pieces(cell);
        let mut from = None;
        for (at, piece) in pieces.iter().enumerate() {
            let colon = pieces.get(at + 1) == Some(&Piece::Mark(':'));
            match *piece {
                Piece::Mark(';') => from = None,
                Piece::Word(word @ ("kind" | "kinds" | "program")) => from = Some(word),
                Piece::Word(word) if colon => from = Some(word),
                Piece::Quoted(name) => self.run(from, name),
                _ => {}
            }
        }
    }

    fn run(&mut self, from: Option<&str>, name: &str) {
        match from {
            Some("kind" | "kinds") => self.kind(name),
            Some("rigs") if !self.rigs.contains(name) => {
                self.fault(format!("there is no rigs/{name}"))
            }
            Some("program") if !self.tree.has(&format!("crates/{name}/stdout")) => {
                self.fault(format!("there is no crates/{name}/stdout"))
            }
            Some("rigs" | "program") => {}
            Some(section) => {
                let starts = |heading: &&str| {
                    heading
                        .strip_prefix(name)
                        .is_some_and(|rest| !rest.starts_with(char::is_alphanumeric))
                };
                match self.headings.get(section) {
                    None => self.fault(format!(
                        "`{name}`: crates/cases/stdout has no section {section}"
                    )),
                    Some(headings) if !headings.iter().any(starts) => {
                        self.fault(format!(
                            "section {section} of crates/cases/stdout has no heading `{name}`"
                        ));
                    }
                    Some(_) => {}
                }
            }
            None => self.fault(format!(
                "`{name}` has no section, rig, kind or program before it"
            )),
        }
    }

    /// Edits, theorems and functions of the static library that no row has, and theorems without a proof.
    fn left_out(&mut self) {
        let crates = self.crates;
        let exports = crates
            .get(EXPORTS)
            .into_iter()
            .flat_map(|exports| exports.items.values().flatten());
        for name in exports
            .filter(|name| self.declared(name))
            .collect::<Vec<_>>()
        {
            if !self.exported.contains(name) {
                self.fault(format!(
                    "the function `{name}` of the static library has no row"
                ));
            }
        }
        for (owner, entry) in crates {
            for edit in &entry.edits {
                if !self.edits.contains(&(*owner, *edit)) {
                    self.fault(format!("the edit `{owner}/{edit}` is cited nowhere"));
                }
            }
            for theorem in &entry.theorems {
                let at = format!(
                    "crates/{owner}/specs/{}.antt:{}",
                    theorem.file, theorem.line
                );
                if !self.listed.contains(&(*owner, theorem.file, theorem.name)) {
                    self.fault(format!(
                        "the list of theorems lacks `{}` ({at})",
                        theorem.name
                    ));
                }
                if !entry.proved.contains(theorem.name) {
                    self.fault(format!(
                        "nothing in crates/{owner}/proofs has `{}` ({at}) for its type",
                        theorem.name
                    ));
                }
            }
        }
    }
}

/// The quoted pieces of a line.
fn quoted(line: &str) -> impl Iterator<Item = &str> + use<'_> {
    pieces(line).into_iter().filter_map(|piece| match piece {
        Piece::Quoted(name) => Some(name),
        _ => None,
    })
}
