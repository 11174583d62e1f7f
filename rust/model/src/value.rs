//! Cells and columns as words, and what single words mean.

use std::cmp::Ordering;

pub(crate) const KIND_INT: u64 = 1;
pub(crate) const KIND_TEXT: u64 = 2;
pub(crate) const KIND_BINARY: u64 = 3;
const NULLABLE: u64 = 1 << 8;
const KEY: u64 = 1 << 9;
const LENGTH_BOUND: u64 = 0xffff << 16;

/// What a well formed cell word says.
#[derive(Clone, Copy, Debug, PartialEq, Eq)]
pub enum Cell {
    Null,
    Int(i32),
    Text { start: u64, length: u64 },
    Binary,
}

/// Reads a cell word; a malformed one says nothing.
pub fn decode(word: u64) -> Option<Cell> {
    let body = word & ((1 << 56) - 1);
    match word >> 56 {
        0 if body == 0 => Some(Cell::Null),
        KIND_INT if body < 1 << 32 => Some(Cell::Int(body as u32 as i32)),
        KIND_TEXT if body < 1 << 48 => {
            Some(Cell::Text { start: body >> 16, length: body & 0xffff })
        }
        KIND_BINARY if body == 0 => Some(Cell::Binary),
        _ => None,
    }
}

/// Writes a cell as its word. Bits that don't fit their field are dropped.
pub fn encode(cell: Cell) -> u64 {
    match cell {
        Cell::Null => 0,
        Cell::Int(number) => KIND_INT << 56 | number as u32 as u64,
        Cell::Text { start, length } => {
            KIND_TEXT << 56 | (start & 0xffff_ffff) << 16 | length & 0xffff
        }
        Cell::Binary => KIND_BINARY << 56,
    }
}

pub(crate) fn from_bool(truth: bool) -> u64 {
    encode(Cell::Int(truth as i32))
}

/// True where a text of this start and length reaches beyond the mark.
pub(crate) fn is_beyond(start: u64, length: u64, used: usize) -> bool {
    start + length > used as u64
}

/// The refusal number a cell word gets: 8 if malformed, else 3 if its text
/// reaches beyond `used`.
pub fn cell_fault(word: u64, used: usize) -> Option<u8> {
    match decode(word) {
        None => Some(8),
        Some(Cell::Text { start, length }) if is_beyond(start, length, used) => Some(3),
        Some(_) => None,
    }
}

/// The refusal a column's two words get, with the word (0 name, 1 rule).
pub fn column_fault(name: u64, rule: u64, used: usize) -> Option<(u8, usize)> {
    match decode(name) {
        Some(Cell::Text { start, length }) => {
            if is_beyond(start, length, used) || !is_name_length(length) {
                return Some((3, 0));
            }
        }
        _ => return Some((8, 0)),
    }
    if is_rule(rule) {
        None
    } else {
        Some((8, 1))
    }
}

pub(crate) fn is_name_length(length: u64) -> bool {
    (1..=255).contains(&length)
}

fn is_rule(rule: u64) -> bool {
    let other_bits = rule & !(0xff | NULLABLE | KEY | LENGTH_BOUND);
    let bound_fits = rule_kind(rule) == KIND_TEXT || rule & LENGTH_BOUND == 0;
    (KIND_INT..=KIND_BINARY).contains(&rule_kind(rule)) && other_bits == 0 && bound_fits
}

fn rule_kind(rule: u64) -> u64 {
    rule & 0xff
}

pub(crate) fn is_key(rule: u64) -> bool {
    rule & KEY != 0
}

/// The bytes of a text; the part outside the buffer is left out, so that any
/// word may be asked.
pub(crate) fn content(start: u64, length: u64, text: &[u8]) -> &[u8] {
    let first = start.min(text.len() as u64) as usize;
    let end = (start + length).min(text.len() as u64) as usize;
    &text[first..end]
}

/// Null < Int < text < Binary. A malformed word stands with Null.
fn rank(word: u64) -> u8 {
    match decode(word) {
        None | Some(Cell::Null) => 0,
        Some(Cell::Int(_)) => 1,
        Some(Cell::Text { .. }) => 2,
        Some(Cell::Binary) => 3,
    }
}

/// Orders two cells by kind and content.
pub fn compare(first: u64, second: u64, text: &[u8]) -> Ordering {
    match (decode(first), decode(second)) {
        (Some(Cell::Int(a)), Some(Cell::Int(b))) => a.cmp(&b),
        (
            Some(Cell::Text { start: a, length: a_length }),
            Some(Cell::Text { start: b, length: b_length }),
        ) => compare_bytes(content(a, a_length, text), content(b, b_length, text)),
        _ => rank(first).cmp(&rank(second)),
    }
}

fn compare_bytes(first: &[u8], second: &[u8]) -> Ordering {
    for (a, b) in first.iter().zip(second) {
        if a != b {
            return a.cmp(b);
        }
    }
    // A prefix comes first.
    first.len().cmp(&second.len())
}

/// True are nonzero Int, nonempty text and Binary.
pub fn to_bool(word: u64) -> bool {
    match decode(word) {
        None | Some(Cell::Null) => false,
        Some(Cell::Int(number)) => number != 0,
        Some(Cell::Text { length, .. }) => length > 0,
        Some(Cell::Binary) => true,
    }
}

/// True where the cell may stand in a column of this rule.
pub fn is_valid_value(rule: u64, word: u64) -> bool {
    let bound = (rule & LENGTH_BOUND) >> 16;
    match decode(word) {
        None => false,
        Some(Cell::Null) => rule & NULLABLE != 0,
        Some(Cell::Int(_)) => rule_kind(rule) == KIND_INT,
        Some(Cell::Text { length, .. }) => {
            rule_kind(rule) == KIND_TEXT && (bound == 0 || length <= bound)
        }
        Some(Cell::Binary) => rule_kind(rule) == KIND_BINARY,
    }
}

/// The rule with Null allowed.
pub fn but_nullable(rule: u64) -> u64 {
    rule | NULLABLE
}

/// The first column of that name.
pub fn find_column(columns: &[u64], text: &[u8], name: &[u8]) -> Option<usize> {
    columns.chunks_exact(2).position(|column| match decode(column[0]) {
        Some(Cell::Text { start, length }) => content(start, length, text) == name,
        _ => false,
    })
}
