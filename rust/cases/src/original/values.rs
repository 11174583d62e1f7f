//! Questions about values, columns and keys.

use super::domain::*;
use super::driver::{shown, Driver};
use crate::call::Call;
use crate::seen::Seen;
use oracle::plain::{Cell, ColumnSpec, JoinKind};
use std::cmp::Ordering;

fn number(value: u64) -> Option<Vec<Seen>> {
    Some(vec![Seen::Number(value)])
}

/// Order and equality are two questions.
pub fn compare(driver: &Driver, call: &Call) -> Option<Vec<Seen>> {
    let text = text_of(call, false)?;
    let [first, second] = cells_at(&call.number_inputs(), &text)?.try_into().ok()?;
    let order = match (driver.compare)(&first, &second) {
        Ordering::Less => 0,
        Ordering::Equal => 1,
        Ordering::Greater => 2,
    };
    // 3 is no order at all: the two answers must speak alike.
    let is_equal = (driver.equal)(&first, &second);
    let by_equality = if is_equal { 1 } else { [0, 3, 2][order] };
    Some(vec![Seen::Number(order as u64), Seen::Number(by_equality)])
}

pub fn truth(driver: &Driver, call: &Call) -> Option<Vec<Seen>> {
    let cell = cell_of_word(call.number_inputs()[0])?;
    number((driver.truth)(&cell) as u64)
}

pub fn is_valid(driver: &Driver, call: &Call) -> Option<Vec<Seen>> {
    let numbers = call.number_inputs();
    let column = column_of("c".to_string(), numbers[0])?;
    let cell = cell_of_word(numbers[1])?;
    if !can_judge(driver, &column, &cell) {
        return None;
    }
    let said = (driver.valid_value)(&column, &cell);
    Some(Vec::from_iter(shown(said, |valid| Some(Seen::Number(valid as u64)))))
}

/// Whether this build has document 01's rule for such a value.
pub fn can_judge(driver: &Driver, column: &ColumnSpec, cell: &Cell) -> bool {
    let is_decided_alike = driver.has_document_columns || !is_decided_otherwise(column, cell);
    is_decided_alike && is_countable(column, cell)
}

/// A left join makes its right columns nullable.
pub fn but_nullable(driver: &Driver, call: &Call) -> Option<Vec<Seen>> {
    let column = column_of("c".to_string(), call.number_inputs()[0])?;
    let columns = [column];
    let said = (driver.joined_columns)(JoinKind::Left, "L", &columns, "R", &columns);
    let right = |joined: Vec<ColumnSpec>| joined.last().map(|last| Seen::Number(rule_of(last)));
    Some(Vec::from_iter(shown(said, right)))
}

pub fn find_column(driver: &Driver, call: &Call) -> Option<Vec<Seen>> {
    let text = text_of(call, false)?;
    let columns = columns_at(call.word_inputs()[0], &text)?;
    let name = String::from_utf8(call.byte_inputs()[0].to_vec()).ok()?;
    let said = (driver.column_number)(&columns, &name);
    let found = |found: Option<u64>| Some(Seen::Number(found.unwrap_or(columns.len() as u64)));
    Some(Vec::from_iter(shown(said, found)))
}

pub fn print(driver: &Driver, call: &Call) -> Option<Vec<Seen>> {
    let text = text_of(call, false)?;
    let cell = cell_at(call.number_inputs()[0], &text)?;
    if matches!(&cell, Cell::Text(text) if !text.is_ascii()) {
        return None;
    }
    let printed = (driver.print_cell)(&cell).into_bytes();
    (printed.len() <= call.output_length()).then(|| vec![Seen::Bytes(printed)])
}

/// Only the order of keys: that the first row is taken where keys are equal
/// is document 01's alone.
pub fn earlier(driver: &Driver, call: &Call) -> Option<Vec<Seen>> {
    let text = text_of(call, false)?;
    let words = call.word_inputs();
    let columns = columns_at(words[0], &text)?;
    let rows = [words[1], words[2]];
    if rows.iter().any(|row| row.len() != columns.len()) {
        return None;
    }
    let [first, second] = [cells_at(rows[0], &text)?, cells_at(rows[1], &text)?];
    let said = (driver.compare_keys)(&columns, &first, &second);
    let chosen = |order| match order {
        Ordering::Less => Some(Seen::Number(1)),
        Ordering::Equal => None,
        Ordering::Greater => Some(Seen::Number(2)),
    };
    Some(Vec::from_iter(shown(said, chosen)))
}
