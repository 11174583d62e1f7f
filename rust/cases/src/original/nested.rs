//! Questions about a select over a join.

use super::domain::*;
use super::driver::{shown, shown_rows, shown_words, Driver, Pair, WAYS};
use super::rows::{joined_name, pair_words};
use crate::answer::JOINED_WORDS;
use crate::call::*;
use crate::seen::{expression_at, text_at, Expression, Seen};
use oracle::plain::{Built, JoinKind, Nested, Said};

pub fn select_over_join(driver: &Driver, call: &Call) -> Option<Vec<Seen>> {
    let text = text_of(call, true)?;
    let words = call.word_inputs();
    let nested = question(call, &text)?;
    if !is_named(call, &text) || !is_bounded(driver, &nested) {
        return None;
    }
    let (room, list) = (call.output_length(), words[4]);
    let widths = [&nested.left, &nested.right].map(|side| side.columns.len());
    let result = |pairs: Vec<Pair>| -> Vec<u64> {
        let row = |pair: Pair| pair_words([words[1], words[3]], widths, &[pair]);
        let project = |row: Vec<u64>| list.iter().map(|&n| row[n as usize]).collect();
        let rows = pairs.into_iter().map(row);
        rows.flat_map(|row| if list.is_empty() { row } else { project(row) }).collect()
    };
    let ask = |built| {
        let said = (driver.select_over_join)(&nested, built);
        let rows = shown(said, |rows| shown_rows(rows, room));
        let said = (driver.selected_pairs)(&nested, built);
        [rows, shown(said, |pairs| shown_words(result(pairs), room))]
    };
    Some(WAYS.into_iter().flat_map(ask).flatten().collect())
}

fn question(call: &Call, text: &[u8]) -> Option<Nested> {
    let (bytes, words) = (call.byte_inputs(), call.word_inputs());
    let left = table_at("L", words[0], words[1], text)?;
    let right = table_at("R", words[2], words[3], text)?;
    let count = left.columns.len() + right.columns.len();
    let longest = [&left, &right].map(|side| longest_texts(side.columns.len(), &side.rows));
    let longest = longest.concat();
    let name = joined_name(left.columns.len(), count);
    // The outer query refuses a missing column, as document 01 does; the
    // inner one looks for it only at pairs that read it.
    let any_name = |leaf: &Expression| Some(name(leaf).unwrap_or(String::from("missing")));
    let on = expression_at(bytes[2], text)?;
    let condition = match bytes[3] {
        [] => None,
        bytes => Some(expression_at(bytes, text)?),
    };
    let is_short = |condition: &Expression| joins_stay_short(condition, &longest);
    if count > MOST_COLUMNS || words[4].len() > MOST_COLUMNS {
        return None;
    }
    if !is_short(&on) || !condition.iter().all(is_short) {
        return None;
    }
    let entry = |&entry: &u64| any_name(&Expression::Number(entry.min(255) as u8));
    let on = tree_of(&on, &name)?;
    let condition = match condition {
        Some(condition) => Some(tree_of(&condition, &any_name)?),
        None => None,
    };
    let list = words[4].iter().map(entry).collect::<Option<_>>()?;
    let kind = if call.number == SELECT_LEFT_JOIN { JoinKind::Left } else { JoinKind::Inner };
    Some(Nested { kind, left, right, on, list, condition })
}

/// Whether the names of the joined columns are within document 01's bounds,
/// and leave the room that the rows need.
fn is_named(call: &Call, text: &[u8]) -> bool {
    let (names, words, lent) = (call.byte_inputs(), call.word_inputs(), call.text_input());
    let mut new = 0;
    for (name, columns) in [(names[0], words[0]), (names[1], words[2])] {
        for column in columns.chunks_exact(2) {
            let length = text_at(column[0], text).map_or(0, |name| name.len());
            let joined = if name.is_empty() { 0 } else { name.len() + 1 + length };
            if joined > 255 {
                return false;
            }
            new += joined as u64;
        }
    }
    lent.length as u64 >= lent.used + new + ROOM
}

/// Whether select may be lent what the join gives.
fn is_bounded(driver: &Driver, nested: &Nested) -> bool {
    let Nested { kind, left, right, on, .. } = nested;
    let width = left.columns.len() + right.columns.len();
    match (driver.join)(*kind, left, right, on, Built::Unfolded) {
        Said::Gave(rows) => rows.len() <= MOST_ROWS && rows.len() * width <= JOINED_WORDS,
        _ => true,
    }
}
