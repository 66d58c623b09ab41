//! The links between the documents: each points at a file or a folder that exists and, after a `#`, at a heading of it.

use crate::markdown::{blocks, targets, Block};
use crate::tree::Tree;
use crate::Fault;

/// The links that point nowhere.
pub fn faults(tree: &Tree) -> Vec<Fault> {
    let mut faults = Vec::new();
    for (path, text) in tree.documents() {
        for (line, row) in (1..).zip(text.lines()) {
            for target in targets(row) {
                faults.extend(fault(tree, path, target).map(|what| Fault::new(path, line, what)));
            }
        }
    }
    faults
}

/// What is wrong with a link of a document.
fn fault(tree: &Tree, document: &str, target: &str) -> Option<String> {
    if target.contains("://") {
        return None;
    }
    let (file, heading) = target
        .split_once('#')
        .map_or((target, None), |(file, heading)| (file, Some(heading)));
    let path = if file.is_empty() {
        Some(document.into())
    } else {
        joined(document, file)
    };
    let Some(path) = path.filter(|path| tree.has(path)) else {
        return Some(format!("the link '{target}' points at no file"));
    };
    let anchors = |text| {
        blocks(text)
            .into_iter()
            .filter_map(|block| heading_of(&block).map(anchor))
            .collect::<Vec<_>>()
    };
    let missing = heading.is_some_and(|heading| {
        !tree
            .text(&path)
            .is_some_and(|text| anchors(text).iter().any(|a| a == heading))
    });
    missing.then(|| format!("the link '{target}' points at no heading"))
}

/// The path of a target that is given from a document's folder.
fn joined(document: &str, target: &str) -> Option<String> {
    let mut parts: Vec<&str> = document.split('/').collect();
    parts.pop();
    for part in target
        .split('/')
        .filter(|part| !part.is_empty() && *part != ".")
    {
        if part == ".." {
            parts.pop()?;
        } else {
            parts.push(part);
        }
    }
    Some(parts.join("/"))
}

fn heading_of<'a>(block: &Block<'a>) -> Option<&'a str> {
    match block {
        Block::Heading(_, _, words) => Some(words),
        _ => None,
    }
}

/// A heading as links name it: small letters, `-` for each space, no marks.
fn anchor(heading: &str) -> String {
    let kept = heading
        .chars()
        .filter(|c| c.is_alphanumeric() || matches!(c, ' ' | '-' | '_'));
    kept.flat_map(char::to_lowercase)
        .map(|c| if c == ' ' { '-' } else { c })
        .collect()
}

#[cfg(test)]
mod tests {
    use super::*;

    #[test]
    fn links_that_point_somewhere_and_nowhere() {
        let text = "[a](docs/A.md) [b](docs/landings/)\n[c](docs/B.md)\n\
            [d](docs/A.md#credit-in-units) [e](docs/A.md#no)\n[f](#here)\n";
        let inner =
            "## Credit, in units\n[up](../README.md) [out](../../x) [web](https://example.com/x)\n";
        let tree = Tree::of(&[
            ("README.md", text),
            ("docs/A.md", inner),
            ("docs/landings/Q-01.md", ""),
        ]);
        let told: Vec<String> = faults(&tree).iter().map(Fault::to_string).collect();
        let expected = [
            "README.md:2: the link 'docs/B.md' points at no file",
            "README.md:3: the link 'docs/A.md#no' points at no heading",
            "README.md:4: the link '#here' points at no heading",
            "docs/A.md:2: the link '../../x' points at no file",
        ];
        assert_eq!(told, expected);
    }
}
