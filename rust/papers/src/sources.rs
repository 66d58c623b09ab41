//! What the crates define: names in `specs/` and `proofs/`, items in `src/`, edits in `must-fail/`, theorems.

use std::collections::{BTreeMap, BTreeSet};

use crate::tree::Tree;

/// The names that a file defines.
pub type Names<'a> = BTreeSet<&'a str>;

/// A crate of `crates/`.
#[derive(Debug, Default)]
pub struct Crate<'a> {
    /// The names of each file of `specs/` and of `proofs/`, without its ending. The fields of records are names too.
    pub specs: BTreeMap<&'a str, Names<'a>>,
    /// The same of `proofs/`.
    pub proofs: BTreeMap<&'a str, Names<'a>>,
    /// The items of each file of `src/`.
    pub items: BTreeMap<&'a str, Names<'a>>,
    /// The text of `src/`.
    pub code: Vec<&'a str>,
    /// The edits of `must-fail/`.
    pub edits: Names<'a>,
    /// The theorems: statements that are true or false by themselves, with the file and the line of each.
    pub theorems: Vec<Theorem<'a>>,
    /// The types of what `proofs/` proves.
    pub proved: Names<'a>,
}

/// A theorem of `specs/`.
#[derive(Debug, Clone, Copy, PartialEq, Eq)]
pub struct Theorem<'a> {
    /// Its name.
    pub name: &'a str,
    /// The file of `specs/`, without its ending.
    pub file: &'a str,
    /// The line that it begins on.
    pub line: usize,
}

/// The crates by their names.
pub type Crates<'a> = BTreeMap<&'a str, Crate<'a>>;

/// Reads all crates.
pub fn crates(tree: &Tree) -> Crates<'_> {
    let mut crates: Crates = tree
        .names("crates")
        .into_iter()
        .map(|name| (name, Crate::default()))
        .collect();
    let mut records = Vec::new();
    for (path, text) in tree.under("crates") {
        let Some((name, path)) = path.split_once('/') else {
            continue;
        };
        let Some(entry) = crates.get_mut(name) else {
            continue;
        };
        let Some((folder, file)) = path.split_once('/') else {
            continue;
        };
        match folder {
            "specs" => {
                let Some(file) = file.strip_suffix(".antt") else {
                    continue;
                };
                entry.specs.insert(file, defined(text));
                for (line, statement) in statements(text) {
                    let theorem = |name| Theorem { name, file, line };
                    match statement {
                        Statement::Claim(claim) => entry.theorems.push(theorem(claim)),
                        Statement::Record(record, types) => {
                            records.push((name, theorem(record), types))
                        }
                    }
                }
            }
            "proofs" => {
                entry.proved.extend(proved(text));
                let Some(file) = file.strip_suffix(".antt") else {
                    continue;
                };
                entry.proofs.insert(file, defined(text));
            }
            "src" => {
                entry.items.insert(file, items(text));
                entry.code.push(text);
            }
            "must-fail" => entry.edits.extend(file.strip_suffix(".edit")),
            _ => {}
        }
    }
    add_records(&mut crates, records);
    crates
}

/// Adds the records that are theorems: each field's type is a theorem, or an equation. A record that is one may make another one.
/// A record that is proved proves its fields.
fn add_records<'a>(crates: &mut Crates<'a>, mut records: Vec<(&'a str, Theorem<'a>, Vec<String>)>) {
    let mut added = Vec::new();
    loop {
        let known: BTreeSet<&str> = crates
            .values()
            .flat_map(|c| &c.theorems)
            .map(|t| t.name)
            .collect();
        let is_claim =
            |kind: &String| known.contains(kind.as_str()) || kind.contains(['≡', '↔', '≤', '<']);
        let (theorems, rest): (Vec<_>, Vec<_>) = records
            .into_iter()
            .partition(|(_, _, types)| types.iter().all(is_claim));
        if theorems.is_empty() {
            break;
        }
        for (name, theorem, _) in &theorems {
            crates.entry(name).or_default().theorems.push(*theorem);
        }
        added.extend(theorems);
        records = rest;
    }
    for (name, theorem, types) in added.into_iter().rev() {
        let entry = crates.entry(name).or_default();
        if entry.proved.contains(theorem.name) {
            let fields = entry
                .theorems
                .iter()
                .map(|t| t.name)
                .filter(|name| types.iter().any(|kind| kind == name));
            entry.proved.extend(fields.collect::<Vec<_>>());
        }
    }
}

/// The word that a line begins with, and what comes after it.
fn word(line: &str) -> (&str, &str) {
    let line = line.trim_start();
    line.split_once([' ', ':', '(', '<', '{', ';'])
        .map_or((line, ""), |(word, _)| {
            (word, line[word.len()..].trim_start())
        })
}

/// A line without the words that say how a definition unfolds; none where it isn't public.
fn public(line: &str) -> Option<&str> {
    let line = line.trim_start();
    let line = line
        .strip_prefix("abbrev ")
        .or(line.strip_prefix("unfoldable "))
        .unwrap_or(line);
    line.strip_prefix("pub ")
}

/// The public names of a file of definitions or proofs.
fn defined(text: &str) -> Names<'_> {
    let lines = text
        .lines()
        .filter_map(public)
        .filter(|line| !line.starts_with("mod "));
    lines
        .map(|line| word(line.strip_prefix("record ").unwrap_or(line)).0)
        .collect()
}

/// A statement that may be a theorem.
enum Statement<'a> {
    /// A name whose type is `Type`.
    Claim(&'a str),
    /// A record without parameters, and the types of its fields.
    Record(&'a str, Vec<String>),
}

/// The statements of a file of definitions, with their lines.
fn statements(text: &str) -> Vec<(usize, Statement<'_>)> {
    let mut found: Vec<(usize, Statement)> = Vec::new();
    // Whether the lines that follow are those of the record found last.
    let mut in_record = false;
    for (number, line) in (1..).zip(text.lines()) {
        let inside = line.starts_with(' ');
        let code = line.trim();
        if code.is_empty() || code.starts_with("--") {
            continue;
        }
        if inside && in_record {
            let Some((_, Statement::Record(_, types))) = found.last_mut() else {
                continue;
            };
            match public(line) {
                Some(field) => types.push(word(field).1.trim_start_matches(':').trim().into()),
                None => types
                    .last_mut()
                    .into_iter()
                    .for_each(|last| last.push_str(code)),
            }
            continue;
        }
        in_record = false;
        let Some(line) = public(line).filter(|_| !inside) else {
            continue;
        };
        if let Some(record) = line.strip_prefix("record ") {
            let (name, kind) = word(record);
            if is_type(kind.strip_suffix("where").unwrap_or(kind)) {
                found.push((number, Statement::Record(name, Vec::new())));
                in_record = true;
            }
        } else {
            let (name, kind) = word(line);
            if is_type(kind) && !is_data(text.lines().nth(number)) {
                found.push((number, Statement::Claim(name)));
            }
        }
    }
    found
}

/// Whether a definition's line gives a type of data a name, as `Found = Option ℕ` does; such a name claims nothing.
fn is_data(line: Option<&str>) -> bool {
    let value = line.and_then(|line| line.split_once(" = "));
    value.is_some_and(|(_, value)| ["Option", "Result"].contains(&word(value).0))
}

/// Whether what follows a name is `: Type` with its level.
fn is_type(kind: &str) -> bool {
    let level = kind.trim().strip_prefix(": Type").unwrap_or("none");
    level.trim().chars().all(|c| c.is_ascii_digit())
}

/// What the definitions of a file of proofs have as their whole type.
fn proved(text: &str) -> Vec<&str> {
    let lines = text.lines().filter(|line| !line.starts_with([' ', '-']));
    let types = lines
        .filter_map(|line| line.split_once(" : "))
        .map(|(_, kind)| kind.trim());
    types
        .filter(|kind| kind.chars().all(char::is_alphanumeric))
        .collect()
}

/// The functions, constants, structs, enums and traits of a file of code.
fn items(text: &str) -> Names<'_> {
    let mut items = Names::new();
    for line in text.lines() {
        let line = line.trim_start();
        let line = line
            .strip_prefix("pub(crate) ")
            .or(line.strip_prefix("pub "))
            .unwrap_or(line);
        let line = line.strip_prefix("extern \"C\" ").unwrap_or(line);
        let kinds = ["fn ", "const ", "struct ", "enum ", "trait "];
        items.extend(
            kinds
                .iter()
                .filter_map(|kind| line.strip_prefix(kind))
                .map(|line| word(line).0),
        );
    }
    items
}

impl Crate<'_> {
    /// Whether a file of the code has an item.
    pub fn has_item(&self, name: &str) -> bool {
        self.items.values().any(|items| items.contains(name))
    }

    /// Whether the code has a text.
    pub fn has_code(&self, text: &str) -> bool {
        self.code.iter().any(|code| code.contains(text))
    }
}

/// The headings of the worked cases, by their section.
pub fn case_headings(tree: &Tree) -> BTreeMap<&str, Vec<&str>> {
    let mut sections: BTreeMap<&str, Vec<&str>> = BTreeMap::new();
    let mut section = "";
    for line in tree.text("crates/cases/stdout").unwrap_or_default().lines() {
        let Some(heading) = line.strip_prefix('#') else {
            continue;
        };
        match heading.trim().strip_prefix("section ") {
            Some(name) => section = name,
            None => sections.entry(section).or_default().push(heading.trim()),
        }
    }
    sections
}

/// The kinds of the differential tests.
pub fn kinds(tree: &Tree) -> BTreeSet<&str> {
    let text = tree
        .text("rust/trials/tests/kinds/mod.rs")
        .unwrap_or_default();
    let names = text
        .lines()
        .filter_map(|line| line.trim().strip_prefix("name: \""));
    names.filter_map(|line| line.split('"').next()).collect()
}

#[cfg(test)]
mod tests {
    use super::*;

    const SPECS: &str = "\
-- Figures.
abbrev pub Limits : Type 0
Limits = (a ≡ 1)

abbrev pub Row : Type 0
Row = Option Nat

abbrev pub Kept : Nat → Type 0
unfoldable pub size : Nat → Nat

pub record Data : Type 0 where
  pub octets : List Nat

pub record Both : Type 0 where
  -- the limits
  pub limits : Limits
  pub sums : (n : Nat)
      → size n ≡ n

pub record Whole : Type 0 where
  pub both : Both

pub record Of (n : Nat) : Type 0 where
  pub same : n ≡ n
pub mod Nothing
";

    fn tree() -> Tree {
        Tree::of(&[
            ("crates/cases/stdout", "# section steps\n# sizes\nstep 1\n#   late\n# section calls\n# code 3\n"),
            ("crates/frame/must-fail/too_long.edit", ""),
            ("crates/frame/proofs/Claims.antt", "pub limits-hold : Limits\nlimits-hold = refl\npub whole : Whole\n"),
            ("crates/frame/specs/Claims.antt", SPECS),
            (
                "crates/frame/src/lib.rt",
                "pub const MOST: u8 = 1;\nimpl A {\n    pub fn at<'a>(self) {}\n}\npub extern \"C\" fn call(\nenum E {\n",
            ),
            ("rust/trials/tests/kinds/mod.rs", "    Kind {\n        name: \"images\",\n"),
        ])
    }

    #[test]
    fn names_of_a_crate() {
        let tree = tree();
        let crates = crates(&tree);
        let frame = &crates["frame"];
        let names: Vec<&str> = frame.specs["Claims"].iter().copied().collect();
        let all = [
            "Both", "Data", "Kept", "Limits", "Of", "Row", "Whole", "both", "limits", "octets",
            "same", "size", "sums",
        ];
        assert_eq!(names, all);
        let items: Vec<&str> = frame.items["lib.rt"].iter().copied().collect();
        assert_eq!(items, ["E", "MOST", "at", "call"]);
        assert!(frame.edits.contains("too_long"));
        assert!(frame.proofs["Claims"].contains("limits-hold"));
    }

    /// `Kept` and `Of` are said of values, `Data` holds some, and `Row` is a type of them: none is true or false by itself.
    #[test]
    fn theorems_of_a_crate() {
        let tree = tree();
        let crates = crates(&tree);
        let found: Vec<(&str, usize)> = crates["frame"]
            .theorems
            .iter()
            .map(|t| (t.name, t.line))
            .collect();
        assert_eq!(found, [("Limits", 2), ("Both", 14), ("Whole", 20)]);
        let proved: Vec<&str> = crates["frame"].proved.iter().copied().collect();
        assert_eq!(proved, ["Both", "Limits", "Whole"]);
    }

    #[test]
    fn headings_and_kinds() {
        let tree = tree();
        let headings = case_headings(&tree);
        assert_eq!(headings["steps"], ["sizes", "late"]);
        assert_eq!(headings["calls"], ["code 3"]);
        assert!(kinds(&tree).contains("images"));
    }
}
