//! Examples that stand in a page of docs/ as fenced blocks, each with a word after its fence: "```image" and so on.
//!
//! Octets are written as two hexadecimal digits, "00*8" is eight of them, and "#" starts a comment.

use std::fs;
use std::path::Path;

/// A line of a block that has something before its comment.
#[derive(Debug, Clone, PartialEq, Eq)]
pub struct Line {
    /// The line's number in the page, from 1.
    pub number: usize,
    /// What stands before the comment, with no blanks around it.
    pub text: String,
    /// What stands after the comment's "#", with no blanks around it; empty where there is no comment.
    pub comment: String,
}

/// Returns the text of a page of docs/.
pub fn page(name: &str) -> String {
    let path = Path::new(env!("CARGO_MANIFEST_DIR"))
        .join("../../docs")
        .join(name);
    fs::read_to_string(&path).unwrap_or_else(|error| panic!("{}: {error}", path.display()))
}

/// Returns the lines between the fences of the one block with this word, as they stand, each with its number.
pub fn block<'a>(page: &'a str, word: &str) -> Result<Vec<(usize, &'a str)>, String> {
    let fence = format!("```{word}");
    let mut blocks = vec![];
    let mut lines = (1..).zip(page.lines());
    while let Some((number, line)) = lines.next() {
        if line != fence {
            continue;
        }
        let mut inside = vec![];
        loop {
            match lines.next() {
                Some((_, "```")) => break,
                Some(line) => inside.push(line),
                None => return Err(format!("line {number}: the block '{word}' doesn't end")),
            }
        }
        blocks.push(inside);
    }
    match <[_; 1]>::try_from(blocks) {
        Ok([one]) if !one.is_empty() => Ok(one),
        Ok(_) => Err(format!("the block '{word}' is empty")),
        Err(blocks) => Err(format!("{} blocks '{word}', not 1", blocks.len())),
    }
}

/// Returns the lines of that block, comments set apart; lines of nothing but a comment are left out.
pub fn lines(page: &str, word: &str) -> Result<Vec<Line>, String> {
    let lines = block(page, word)?.into_iter().map(|(number, line)| {
        let (text, comment) = line.split_once('#').unwrap_or((line, ""));
        Line {
            number,
            text: text.trim().into(),
            comment: comment.trim().into(),
        }
    });
    Ok(lines.filter(|line| !line.text.is_empty()).collect())
}

/// Returns the octets of a line's text.
pub fn octets(text: &str) -> Result<Vec<u8>, String> {
    let mut octets = vec![];
    for word in text.split_whitespace() {
        let (digits, times) = word.split_once('*').unwrap_or((word, "1"));
        let octet = u8::from_str_radix(digits, 16)
            .ok()
            .filter(|_| digits.len() == 2);
        let times = times.parse::<usize>().ok().filter(|times| *times <= 65_536);
        let (Some(octet), Some(times)) = (octet, times) else {
            return Err(format!("'{word}' is neither an octet nor one repeated"));
        };
        octets.resize(octets.len() + times, octet);
    }
    Ok(octets)
}

/// Returns the octets of a whole block.
pub fn block_octets(page: &str, word: &str) -> Result<Vec<u8>, String> {
    let mut all = vec![];
    for line in lines(page, word)? {
        let octets =
            octets(&line.text).map_err(|error| format!("line {}: {error}", line.number))?;
        all.extend(octets);
    }
    Ok(all)
}

/// Checks that the comment of every line of a block begins with the offset of the line's first octet.
pub fn check_offsets(page: &str, word: &str) -> Result<(), String> {
    let mut offset = 0;
    for line in lines(page, word)? {
        let said = line.comment.split_whitespace().next().unwrap_or("");
        if said != offset.to_string() {
            return Err(format!(
                "line {}: the offset is {offset}, not '{said}'",
                line.number
            ));
        }
        offset += octets(&line.text)?.len();
    }
    Ok(())
}

/// Returns the cells of the rows of the tables of a page, each row with its line's number.
pub fn rows(page: &str) -> Vec<(usize, Vec<&str>)> {
    let rows = (1..).zip(page.lines()).filter_map(|(number, line)| {
        let cells = line.strip_prefix('|')?.strip_suffix('|')?;
        Some((number, cells.split('|').map(str::trim).collect()))
    });
    rows.collect()
}

/// Returns the number of a word such as "1,125,000", or of one that a mark follows.
fn number(word: &str) -> Option<i64> {
    let digits = word.trim_end_matches([':', ';', ',']).replace(',', "");
    digits.parse().ok()
}

/// Returns the value of a sum of products, "125,000 + 500 × 100".
fn value(sum: &str) -> Option<i64> {
    let (mut total, mut sign, mut product) = (0, 1, None);
    for word in sum.split_whitespace() {
        match (word, product) {
            ("×", Some(_)) => {}
            ("+" | "-", Some(whole)) => {
                (total, product) = (total + sign * whole, None);
                sign = if word == "+" { 1 } else { -1 };
            }
            _ => product = Some(product.unwrap_or(1) * number(word)?),
        }
    }
    product.map(|whole| total + sign * whole)
}

/// Returns both sides of a cell such as "120 × 999 = 119,880"; words may follow.
pub fn sides(cell: &str) -> Option<(i64, i64)> {
    let (sum, said) = cell.split_once(" = ")?;
    Some((value(sum)?, number(said.split_whitespace().next()?)?))
}

/// Returns the number that a cell ends with: the one after "=", or the first one.
pub fn result(cell: &str) -> Option<i64> {
    let said = cell.split_once(" = ").map_or(cell, |(_, said)| said);
    number(said.split_whitespace().next()?)
}
