//! Made-up counts and rows, as a careless caller may lend them.

use trials::random::Random;

use super::lent::ReadOnly;

/// Rows as they are mostly, else cut anywhere or with more octets after them.
pub fn lend_rows(r: &mut Random, mut rows: Vec<u8>, row: usize) -> ReadOnly {
    match r.below(80) {
        0 => rows.truncate(r.count(0, rows.len())),
        1 => rows.truncate(rows.len().saturating_sub(1)),
        2 => rows.truncate(rows.len().saturating_sub(row)),
        3..=16 => {
            let more = r.count(1, 2 * row);
            rows.extend(r.octets(more));
        }
        17 => rows.clear(),
        _ => {}
    }
    ReadOnly::new(r, &rows)
}

/// The right count mostly, else none, fewer, more or far too many.
pub fn any_count(r: &mut Random, right: usize) -> usize {
    match r.below(60) {
        0 => 0,
        1 => r.count(0, right),
        2 => right.saturating_sub(1),
        3 => right + 1,
        4 => right + r.count(1, 300),
        5 => r
            .pick(&[usize::MAX, 1 << 63, 1 << 32, 65_536, 256])
            .saturating_add(right),
        _ => right,
    }
}
