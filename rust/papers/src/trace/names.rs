//! The names of the trace: each is looked for in the crate and the file that stand before it.

use super::Check;
use crate::markdown::{pieces, Piece};
use crate::sources::Crate;

/// What the names of a line are to be.
#[derive(Clone, Copy, PartialEq, Eq)]
pub enum Wanted {
    /// Any names.
    Names,
    /// Theorems.
    Theorems,
    /// Theorems, in their list.
    Listed,
}

/// A file that names stand in.
#[derive(Clone, Copy)]
enum File<'a> {
    Specs(&'a str),
    Proofs(&'a str),
    Code(&'a str),
}

/// Where a name is looked for.
#[derive(Clone, Copy, Default)]
struct Place<'a> {
    /// The crate named last.
    of: Option<&'a str>,
    /// Whether a crate or a file was named since the last `;`.
    named: bool,
    /// Whether a file is one of `proofs/`.
    proofs: bool,
    /// The file named last, since the last crate.
    file: Option<File<'a>>,
    /// How many parentheses are open: the fields of a record stand in them.
    depth: usize,
}

impl<'a> Check<'a> {
    /// Names, each in the crate and the file that stand before it.
    pub fn name_all(&mut self, text: &'a str, wanted: Wanted) {
        let pieces = pieces(text);
        let mut place = Place::default();
        for (at, piece) in pieces.iter().enumerate() {
            let rest = &pieces[at + 1..];
            match *piece {
                Piece::Mark(';') => {
                    place = Place {
                        of: place.of,
                        ..Place::default()
                    }
                }
                Piece::Mark('(') => place.depth += 1,
                Piece::Mark(')') => place.depth = place.depth.saturating_sub(1),
                Piece::Word("proofs") if leads(rest) => place.proofs = true,
                Piece::Word(word)
                    if leads(rest)
                        || (rest.first() == Some(&Piece::Word("proofs")) && leads(&rest[1..])) =>
                {
                    let word = word.trim_end_matches("'s").trim_end_matches('\'');
                    if self.crates.contains_key(word) {
                        place = Place {
                            of: Some(word),
                            named: true,
                            depth: place.depth,
                            ..Place::default()
                        };
                    }
                }
                Piece::Quoted(name) if name.contains('/') => self.path(name),
                Piece::Quoted(name) if rest.first() == Some(&Piece::Mark(':')) => {
                    self.file(&mut place, name)
                }
                Piece::Quoted(name) => self.name(place, name, wanted),
                _ => {}
            }
        }
    }

    /// An edit, or a path of the repository. CRATE in a path stands for any crate, and the last part for any file.
    fn path(&mut self, name: &'a str) {
        let first = name.split('/').next().unwrap_or_default();
        if self.crates.contains_key(first) {
            return self.edit(name);
        }
        let folder = name.rsplit_once('/').map_or(name, |(folder, _)| folder);
        let has = if name.contains("CRATE") {
            self.crates
                .keys()
                .any(|owner| self.tree.has(&folder.replace("CRATE", owner)))
        } else {
            self.tree.has(name)
        };
        if !has {
            self.fault(format!("there is no file or folder `{name}`"));
        }
    }

    /// The crate that a name or a file belongs to, by what stands before it.
    fn owner(&mut self, place: Place<'a>, name: &str) -> Option<(&'a str, &'a Crate<'a>)> {
        let owner = place.of.and_then(|of| self.crates.get_key_value(of));
        if owner.is_none() {
            self.fault(format!("no crate is named before `{name}`"));
        }
        owner.map(|(name, entry)| (*name, entry))
    }

    /// A file, which the names after it stand in.
    fn file(&mut self, place: &mut Place<'a>, name: &'a str) {
        let Some((owner, entry)) = self.owner(*place, name) else {
            return;
        };
        let (file, found, folder) = if name.ends_with(".rt") {
            (File::Code(name), entry.items.contains_key(name), "src")
        } else if place.proofs {
            (
                File::Proofs(name),
                entry.proofs.contains_key(name),
                "proofs",
            )
        } else {
            (File::Specs(name), entry.specs.contains_key(name), "specs")
        };
        if !found {
            self.fault(format!("crates/{owner}/{folder} has no file `{name}`"));
        }
        place.file = Some(file);
        place.named = true;
    }

    fn name(&mut self, place: Place<'a>, name: &'a str, wanted: Wanted) {
        let Some((owner, entry)) = self.owner(place, name) else {
            return;
        };
        if !place.named {
            return self.fault(format!(
                "no crate is named between the last `;` and `{name}`"
            ));
        }
        let (names, file) = match place.file {
            Some(File::Specs(file)) => (entry.specs.get(file), format!("specs/{file}.antt")),
            Some(File::Proofs(file)) => (entry.proofs.get(file), format!("proofs/{file}.antt")),
            Some(File::Code(file)) => (entry.items.get(file), format!("src/{file}")),
            None => (None, "src".into()),
        };
        let found = match place.file {
            Some(_) => names.is_some_and(|names| names.contains(name)),
            None => in_code(entry, name),
        };
        if !found {
            return self.fault(format!("there is no `{name}` in crates/{owner}/{file}"));
        }
        let Some(File::Specs(file)) = place.file else {
            return;
        };
        let theorem = entry
            .theorems
            .iter()
            .any(|theorem| theorem.file == file && theorem.name == name);
        if wanted != Wanted::Names && !theorem && place.depth == 0 {
            self.fault(format!(
                "`{name}` of crates/{owner}/specs/{file}.antt is no theorem"
            ));
        }
        let again = wanted == Wanted::Listed && !self.listed.insert((owner, file, name));
        if again {
            self.fault(format!("the list of theorems has `{name}` twice"));
        }
    }
}

/// Whether a name that no file stands before is an item of the code, a method with its type, a file, or a piece of the code.
fn in_code(entry: &Crate, name: &str) -> bool {
    let items = name.split("::").all(|part| entry.has_item(part));
    let file = entry.specs.contains_key(name) || entry.items.contains_key(name);
    let is_word = name.chars().all(|c| c.is_alphanumeric() || c == '_');
    items || file || (!is_word && entry.has_code(name))
}

/// Whether a quoted piece comes next, so that a crate's name before it is meant as one.
fn leads(rest: &[Piece]) -> bool {
    matches!(rest.first(), Some(Piece::Quoted(_)))
}
