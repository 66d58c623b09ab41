//! The parts of a document: headings, tables, lines of text, and the pieces of a line.

/// A part of a document, with the line that it stands on.
#[derive(Debug, PartialEq, Eq)]
pub enum Block<'a> {
    /// A heading: how many `#`, and its words.
    Heading(usize, usize, &'a str),
    /// The first line of a table: the names of its columns.
    Columns(usize, Vec<&'a str>),
    /// A row of a table.
    Row(usize, Vec<&'a str>),
    /// Any other line that isn't empty.
    Text(usize, &'a str),
}

/// The parts of a document. What stands between fences of three backquotes is left out.
pub fn blocks(text: &str) -> Vec<Block<'_>> {
    let mut blocks = Vec::new();
    let mut fenced = false;
    let mut in_table = false;
    for (line, row) in (1..).zip(text.lines()) {
        let is_row = row.starts_with('|');
        if row.trim_start().starts_with("```") {
            fenced = !fenced;
        } else if fenced || row.trim().is_empty() {
        } else if row.starts_with('#') {
            let words = row.trim_start_matches('#');
            blocks.push(Block::Heading(line, row.len() - words.len(), words.trim()));
        } else if !is_row {
            blocks.push(Block::Text(line, row));
        } else if !in_table {
            blocks.push(Block::Columns(line, cells(row)));
        } else if !is_rule(row) {
            blocks.push(Block::Row(line, cells(row)));
        }
        in_table = is_row && !fenced;
    }
    blocks
}

/// Whether a row is the line between a table's columns and its rows.
fn is_rule(row: &str) -> bool {
    row.chars().all(|c| matches!(c, '|' | '-' | ':' | ' '))
}

/// The cells of a row. A `|` between backquotes ends no cell.
fn cells(row: &str) -> Vec<&str> {
    let row = row.trim().trim_start_matches('|');
    let mut cells = Vec::new();
    let (mut start, mut quoted) = (0, false);
    for (at, c) in row.char_indices() {
        match c {
            '`' => quoted = !quoted,
            '|' if !quoted => {
                cells.push(row[start..at].trim());
                start = at + 1;
            }
            _ => {}
        }
    }
    if !row[start..].trim().is_empty() {
        cells.push(row[start..].trim());
    }
    cells
}

/// A piece of a line.
#[derive(Debug, Clone, Copy, PartialEq, Eq)]
pub enum Piece<'a> {
    /// Letters, digits, `_`, `-` and apostrophes.
    Word(&'a str),
    /// What stands between two backquotes.
    Quoted(&'a str),
    /// Any other character but a space.
    Mark(char),
}

/// The pieces of a line. A backquote without its partner is a mark.
pub fn pieces(line: &str) -> Vec<Piece<'_>> {
    let mut pieces = Vec::new();
    let mut rest = line;
    while let Some(c) = rest.chars().next() {
        let after = &rest[c.len_utf8()..];
        let closing = if c == '`' { after.find('`') } else { None };
        if let Some(end) = closing {
            pieces.push(Piece::Quoted(&after[..end]));
            rest = &after[end + 1..];
        } else if is_word(c) {
            let end = rest.find(|c| !is_word(c)).unwrap_or(rest.len());
            pieces.push(Piece::Word(&rest[..end]));
            rest = &rest[end..];
        } else {
            if !c.is_whitespace() {
                pieces.push(Piece::Mark(c));
            }
            rest = after;
        }
    }
    pieces
}

fn is_word(c: char) -> bool {
    c.is_alphanumeric() || matches!(c, '_' | '-' | '\'' | '’')
}

/// The numbers of the decisions that a line cites as D-n. `D-3 to D-6` cites all from 3 to 6.
pub fn cited(line: &str) -> Vec<u32> {
    let decision = |piece: &Piece| match piece {
        Piece::Word(word) => number_of(word),
        _ => None,
    };
    let pieces = pieces(line);
    let mut cited = Vec::new();
    for (at, piece) in pieces.iter().enumerate() {
        let Some(first) = decision(piece) else {
            continue;
        };
        let to = pieces.get(at + 1) == Some(&Piece::Word("to"));
        let last = if to {
            pieces.get(at + 2).and_then(decision)
        } else {
            None
        };
        cited.extend(first..=last.unwrap_or(first));
    }
    cited.dedup();
    cited
}

/// The number of a word such as D-7.
fn number_of(word: &str) -> Option<u32> {
    let word = word.trim_end_matches("'s").trim_end_matches('\'');
    word.strip_prefix("D-")?.parse().ok()
}

/// The targets of a line's links.
pub fn targets(line: &str) -> Vec<&str> {
    let links = line.match_indices("](");
    links
        .filter_map(|(at, _)| line[at + 2..].split_once(')').map(|(target, _)| target))
        .collect()
}

#[cfg(test)]
mod tests {
    use super::*;

    #[test]
    fn a_document_in_parts() {
        let text =
            "# One\n\ntext\n| a | b |\n|---|:--|\n| `x|y` | |\n```\n| not | read |\n```\n| c |\n";
        let expected = vec![
            Block::Heading(1, 1, "One"),
            Block::Text(3, "text"),
            Block::Columns(4, vec!["a", "b"]),
            Block::Row(6, vec!["`x|y`", ""]),
            Block::Columns(10, vec!["c"]),
        ];
        assert_eq!(blocks(text), expected);
    }

    #[test]
    fn a_line_in_pieces() {
        let expected = vec![
            Piece::Word("frame's"),
            Piece::Quoted("Claims"),
            Piece::Mark(':'),
            Piece::Quoted("&mut [u8]"),
            Piece::Mark(';'),
            Piece::Word("D-12"),
            Piece::Mark('`'),
        ];
        assert_eq!(pieces("frame's `Claims`: `&mut [u8]`; D-12 `"), expected);
    }

    #[test]
    fn decisions_and_links_of_a_line() {
        assert_eq!(
            cited("as in D-2, D-5's and D-7 to D-9; not AD-3 or D-x"),
            [2, 5, 7, 8, 9]
        );
        assert_eq!(
            targets("see [a](b.md#c), [d](e/) and [f]"),
            ["b.md#c", "e/"]
        );
    }
}
