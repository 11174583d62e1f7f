//! Column tables and rows as lent words: what is checked of them, and the
//! calls that read a row, choose between two, or join two column tables.

use crate::expression::{write_at_start, Written};
use crate::operators::Room;
use crate::value::{
    but_nullable, cell_fault, column_fault, compare, content, decode, encode, is_key, Cell,
};
use crate::Refusal;
use std::cmp::Ordering;
use std::ops::RangeInclusive;

pub(crate) const COLUMNS: RangeInclusive<usize> = 1..=32;
const MOST_ROWS: usize = 4096;
const MOST_TEXT: usize = 65_536;
const ROOM: usize = 32_768;
const MOST_NAME: usize = 255;

/// 10 for the text's length and the mark.
pub(crate) fn check_text(text: &[u8], used: usize) -> Result<(), Refusal> {
    if text.len() > MOST_TEXT || used > text.len() {
        return Err(Refusal::at(10, 0));
    }
    Ok(())
}

/// 10 where the room for new text is not there; the mark is already checked.
pub(crate) fn check_room(text: &[u8], used: usize) -> Result<(), Refusal> {
    if text.len() - used < ROOM {
        return Err(Refusal::at(10, 0));
    }
    Ok(())
}

/// The number of columns, or 8 at 0.
pub(crate) fn column_count(columns: &[u64]) -> Result<usize, Refusal> {
    let count = columns.len() / 2;
    if !columns.len().is_multiple_of(2) || !COLUMNS.contains(&count) {
        return Err(Refusal::at(8, 0));
    }
    Ok(count)
}

/// The columns of both sides of a join together, or 8 at 0.
pub(crate) fn joined_count(left: &[u64], right: &[u64]) -> Result<usize, Refusal> {
    let count = column_count(left)? + column_count(right)?;
    if !COLUMNS.contains(&count) {
        return Err(Refusal::at(8, 0));
    }
    Ok(count)
}

/// 8 at 0 for a table that is no whole number of rows, or too many.
pub(crate) fn check_row_count(rows: &[u64], columns: usize) -> Result<(), Refusal> {
    if !rows.len().is_multiple_of(columns) || rows.len() / columns > MOST_ROWS {
        return Err(Refusal::at(8, 0));
    }
    Ok(())
}

/// 8 and 3 over column words, the first of which has the place `first`.
pub(crate) fn check_columns(columns: &[u64], used: usize, first: usize) -> Result<(), Refusal> {
    for (index, column) in columns.chunks_exact(2).enumerate() {
        if let Some((number, word)) = column_fault(column[0], column[1], used) {
            return Err(Refusal::at(number, first + 2 * index + word));
        }
    }
    Ok(())
}

/// 8 and 3 over cells, the first of which has the place `first`.
pub(crate) fn check_cells(cells: &[u64], used: usize, first: usize) -> Result<(), Refusal> {
    for (index, &word) in cells.iter().enumerate() {
        if let Some(number) = cell_fault(word, used) {
            return Err(Refusal::at(number, first + index));
        }
    }
    Ok(())
}

/// One row of the table, or the empty part.
pub fn row(rows: &[u64], columns: usize, number: usize) -> &[u64] {
    if !COLUMNS.contains(&columns) || !rows.len().is_multiple_of(columns) {
        return &[];
    }
    rows.chunks_exact(columns).nth(number).unwrap_or(&[])
}

/// Which of two rows comes first by key.
#[derive(Clone, Copy, Debug, PartialEq, Eq)]
pub enum Earlier {
    Empty,
    First,
    Second,
}

pub fn earlier(
    columns: &[u64],
    text: &[u8],
    used: usize,
    first: &[u64],
    second: &[u64],
) -> Earlier {
    if check_two_rows(columns, text, used, first, second).is_err() {
        return Earlier::Empty;
    }
    match compare_keys(columns, text, first, second) {
        Ordering::Less | Ordering::Equal => Earlier::First,
        Ordering::Greater => Earlier::Second,
    }
}

fn check_two_rows(
    columns: &[u64],
    text: &[u8],
    used: usize,
    first: &[u64],
    second: &[u64],
) -> Result<(), Refusal> {
    check_text(text, used)?;
    let count = column_count(columns)?;
    if first.len() != count || second.len() != count {
        return Err(Refusal::at(8, 0));
    }
    check_columns(columns, used, 0)?;
    check_cells(first, used, 0)?;
    check_cells(second, used, 0)
}

/// Orders two rows by their key columns, in column order.
pub(crate) fn compare_keys(
    columns: &[u64],
    text: &[u8],
    first: &[u64],
    second: &[u64],
) -> Ordering {
    let rules = columns.chunks_exact(2).map(|column| column[1]);
    for (rule, (&a, &b)) in rules.zip(first.iter().zip(second)) {
        let order = compare(a, b, text);
        if is_key(rule) && order.is_ne() {
            return order;
        }
    }
    Ordering::Equal
}

/// One side of a join of column tables.
struct Side<'a> {
    name: &'a [u8],
    columns: &'a [u64],
    becomes_nullable: bool,
}

impl Side<'_> {
    /// The new name, or nothing where the name word is kept.
    fn new_name(&self, word: u64, text: &[u8]) -> Option<Vec<u8>> {
        match decode(word) {
            Some(Cell::Text { start, length }) if !self.name.is_empty() => {
                Some([self.name, b".", content(start, length, text)].concat())
            }
            _ => None,
        }
    }
}

pub fn inner_join_columns(
    left_name: &[u8],
    left_columns: &[u64],
    right_name: &[u8],
    right_columns: &[u64],
    text: &mut [u8],
    used: usize,
    output: &mut [u64],
) -> Result<Written, Refusal> {
    let left = Side { name: left_name, columns: left_columns, becomes_nullable: false };
    let right = Side { name: right_name, columns: right_columns, becomes_nullable: false };
    join_columns([left, right], text, used, output)
}

pub fn left_join_columns(
    left_name: &[u8],
    left_columns: &[u64],
    right_name: &[u8],
    right_columns: &[u64],
    text: &mut [u8],
    used: usize,
    output: &mut [u64],
) -> Result<Written, Refusal> {
    let left = Side { name: left_name, columns: left_columns, becomes_nullable: false };
    let right = Side { name: right_name, columns: right_columns, becomes_nullable: true };
    join_columns([left, right], text, used, output)
}

fn join_columns(
    sides: [Side; 2],
    text: &mut [u8],
    used: usize,
    output: &mut [u64],
) -> Result<Written, Refusal> {
    check_text(text, used)?;
    check_room(text, used)?;
    let count = joined_count(sides[0].columns, sides[1].columns)?;
    if sides.iter().any(|side| side.name.len() > MOST_NAME) {
        return Err(Refusal::at(3, 0));
    }
    check_columns(sides[0].columns, used, 0)?;
    check_columns(sides[1].columns, used, sides[0].columns.len())?;
    let mut room = Room { text, top: used };
    let mut joined: Vec<u64> = Vec::new();
    for side in &sides {
        for column in side.columns.chunks_exact(2) {
            let name = joined_name(side, column[0], &mut room);
            let name = name.map_err(|number| Refusal::at(number, joined.len() / 2))?;
            let rule = if side.becomes_nullable { but_nullable(column[1]) } else { column[1] };
            joined.extend_from_slice(&[name, rule]);
        }
    }
    if output.len() < 2 * count {
        return Err(Refusal::at(9, 2 * count));
    }
    write_at_start(&joined, output);
    Ok(Written { count: joined.len(), used: room.top })
}

/// Appends the new name and gives its word, or keeps the word.
fn joined_name(side: &Side, word: u64, room: &mut Room) -> Result<u64, u8> {
    let Some(name) = side.new_name(word, room.text) else {
        return Ok(word);
    };
    if name.len() > MOST_NAME {
        return Err(7);
    }
    let start = room.top;
    room.append(&name);
    Ok(encode(Cell::Text { start: start as u64, length: name.len() as u64 }))
}
