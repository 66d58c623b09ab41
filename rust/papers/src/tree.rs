//! The files of the repository, read once.

use std::collections::BTreeMap;
use std::fs;
use std::io;
use std::path::Path;

/// Files by their path from the root, with `/` between the parts. Only files of text have their text.
#[derive(Debug, Default, Clone)]
pub struct Tree {
    files: BTreeMap<String, String>,
}

/// Folders of the root or of a crate that are made by building, or by git.
const NOT_READ: [&str; 2] = ["target", ".git"];

/// What files of text end with.
const TEXT: [&str; 8] = [
    ".md", ".antt", ".rt", ".rs", ".edit", ".h", "/stdout", ".txt",
];

impl Tree {
    /// Reads the repository at a root.
    pub fn read(root: &Path) -> io::Result<Tree> {
        let mut tree = Tree::default();
        tree.read_folder(root, "")?;
        Ok(tree)
    }

    fn read_folder(&mut self, folder: &Path, path: &str) -> io::Result<()> {
        for entry in fs::read_dir(folder)? {
            let entry = entry?;
            let name = entry.file_name().to_string_lossy().into_owned();
            let path = if path.is_empty() {
                name.clone()
            } else {
                format!("{path}/{name}")
            };
            if !entry.file_type()?.is_dir() {
                let text = TEXT.iter().any(|end| path.ends_with(end));
                let text = if text {
                    fs::read_to_string(entry.path())?
                } else {
                    String::new()
                };
                self.files.insert(path, text);
            } else if !NOT_READ.contains(&name.as_str()) {
                self.read_folder(&entry.path(), &path)?;
            }
        }
        Ok(())
    }

    /// A tree of these paths and texts.
    pub fn of(files: &[(&str, &str)]) -> Tree {
        let files = files
            .iter()
            .map(|(path, text)| (path.to_string(), text.to_string()));
        Tree {
            files: files.collect(),
        }
    }

    /// The same tree with another text at a path.
    pub fn with(&self, path: &str, text: &str) -> Tree {
        let mut tree = self.clone();
        tree.files.insert(path.into(), text.into());
        tree
    }

    /// The text of a file.
    pub fn text(&self, path: &str) -> Option<&str> {
        self.files.get(path).map(String::as_str)
    }

    /// Whether a path is a file, or a folder with a file somewhere in it.
    pub fn has(&self, path: &str) -> bool {
        let path = path.trim_end_matches('/');
        self.files.contains_key(path) || self.under(path).next().is_some()
    }

    /// The files under a folder, by their path from there, with their texts.
    pub fn under<'a>(&'a self, folder: &str) -> impl Iterator<Item = (&'a str, &'a str)> {
        let start = format!("{folder}/");
        let files = self.files.range(start.clone()..);
        files.map_while(move |(path, text)| Some((path.strip_prefix(&start)?, text.as_str())))
    }

    /// The documents, with their texts.
    pub fn documents(&self) -> impl Iterator<Item = (&str, &str)> {
        let documents = self.files.iter().filter(|(path, _)| path.ends_with(".md"));
        documents.map(|(path, text)| (path.as_str(), text.as_str()))
    }

    /// The names that stand directly in a folder, of files and of folders.
    pub fn names(&self, folder: &str) -> Vec<&str> {
        let mut names: Vec<&str> = self
            .under(folder)
            .filter_map(|(path, _)| path.split('/').next())
            .collect();
        names.dedup();
        names
    }
}
