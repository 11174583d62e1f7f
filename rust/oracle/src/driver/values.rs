//! Questions about values alone.

use super::build::build;
use super::stop::Stop;
use super::translate::{columns_of, value_of, values_of};
use crate::internal::table::Table;
use crate::internal::value::Value;
use crate::plain::{Cell, ColumnSpec, Said, Tree};
use std::cmp::Ordering;

/// The order of two values.
pub fn compare(first: &Cell, second: &Cell) -> Ordering {
    value_of(first).cmp(&value_of(second))
}

/// Whether two values are equal.
pub fn equal(first: &Cell, second: &Cell) -> bool {
    value_of(first) == value_of(second)
}

/// Whether a value counts as true.
pub fn truth(cell: &Cell) -> bool {
    value_of(cell).to_bool()
}

/// A value as it prints.
pub fn print_cell(cell: &Cell) -> String {
    value_of(cell).to_string()
}

/// The order of two rows by their keys, as insert's map orders them.
pub fn compare_keys(
    columns: &[ColumnSpec],
    first: &[Cell],
    second: &[Cell],
) -> Said<Ordering> {
    let ask = || -> Result<Ordering, Stop> {
        let table = Table::new(String::new(), columns_of(columns)?, false);
        if first.len() != columns.len() || second.len() != columns.len() {
            return Err(Stop::cannot_ask("a row of another length"));
        }
        let key = |row: &[Cell]| -> Vec<Value> {
            let values = values_of(row);
            let indices = table.primary_key_indices();
            indices.iter().map(|&index| values[index].clone()).collect()
        };
        Ok(key(first).cmp(&key(second)))
    };
    match ask() {
        Ok(order) => Said::Gave(order),
        Err(stop) => stop.at(0),
    }
}

/// Whether this build panics at an overflow, and the driver sees it. Without
/// that no answer of 5 or 6 can be trusted.
pub fn overflow_is_caught() -> bool {
    let int = |number| Box::new(Tree::Literal(Cell::Int(number)));
    let sum = Tree::Binary(38, int(i32::MAX), int(1));
    let shift = Tree::Binary(45, int(1), int(32));
    let stopped_by = |tree: &Tree, wanted: u8| match build(tree) {
        Err(Stop::BuildPanicked { panic, .. }) => panic.number == wanted,
        _ => false,
    };
    stopped_by(&sum, 5) && stopped_by(&shift, 6)
}
