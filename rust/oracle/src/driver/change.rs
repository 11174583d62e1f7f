//! Delete and update.

use super::asked::{built, fresh_names, only_first, Asked};
use super::build::Hidden;
use super::stop::{last_of_shortest, run, Stop};
use super::store::{first_rows, number_in, with_hidden, with_numbers, Store};
use super::translate::value_of;
use crate::internal::query::{Delete, Update};
use crate::plain::{Built, Cell, Row, Said, TableSpec, Tree};

/// The rows of the table after a delete.
pub fn delete(
    table: &TableSpec,
    condition: Option<&Tree>,
    built: Built,
) -> Said<Vec<Row>> {
    ask_delete(table, condition, built)
        .map(|rows| only_first(rows, table.columns.len()))
}

/// The numbers of the rows that the same delete leaves, in its order.
pub fn kept_rows(
    table: &TableSpec,
    condition: Option<&Tree>,
    built: Built,
) -> Said<Vec<u64>> {
    let name = fresh_names(table, &[], condition).make("");
    let numbered = with_numbers(table, &name);
    let column = table.columns.len();
    ask_delete(&numbered, condition, built).map(|rows| {
        rows.iter().filter_map(|row| number_in(&row[column])).collect()
    })
}

fn ask_delete(
    table: &TableSpec,
    condition: Option<&Tree>,
    built: Built,
) -> Said<Vec<Row>> {
    let asked = match Asked::new(table, &[], condition, built) {
        Ok(asked) => asked,
        Err(stop) => return stop.at(0),
    };
    match asked.run(run_delete) {
        Ok(rows) => Said::Gave(rows),
        Err(stop) => {
            let place = asked.place(&stop, run_delete);
            stop.at(place)
        }
    }
}

fn run_delete(
    table: &TableSpec,
    condition: Option<&Tree>,
) -> Result<Vec<Row>, Stop> {
    let mut query = Delete::from(table.name.as_str());
    if let Some(expr) = built(condition)? {
        query = query.with(expr);
    }
    let mut store = Store::with_table(table)?;
    run(|| query.exec(&mut store.file, &mut store.pool, &store.tables))?;
    store.rows_of(&table.name)
}

/// A set of an update: a column by name, and the cell it gets.
pub type Set = (String, Cell);

/// The rows of the table after an update.
pub fn update(
    table: &TableSpec,
    sets: &[Set],
    condition: Option<&Tree>,
    built: Built,
) -> Said<Vec<Row>> {
    ask_update(table, sets, condition, built)
        .map(|rows| only_first(rows, table.columns.len()))
}

/// The numbers of the rows that the same update changes, even where it sets
/// what was there before. One more set marks them in a hidden column.
pub fn updated_rows(
    table: &TableSpec,
    sets: &[Set],
    condition: Option<&Tree>,
    built: Built,
) -> Said<Vec<u64>> {
    let name = fresh_names(table, &names_of(sets), condition).make("");
    let mark = Hidden { name: name.clone(), cell: Cell::Int(0) };
    let marked = with_hidden(table, &[mark]);
    let mut sets = sets.to_vec();
    sets.push((name, Cell::Int(1)));
    let column = table.columns.len();
    ask_update(&marked, &sets, condition, built).map(|rows| {
        let numbered = rows.iter().enumerate();
        let changed = numbered.filter(|(_, row)| row[column] == Cell::Int(1));
        changed.map(|(number, _)| number as u64).collect()
    })
}

fn names_of(sets: &[Set]) -> Vec<String> {
    sets.iter().map(|(name, _)| name.clone()).collect()
}

fn ask_update(
    table: &TableSpec,
    sets: &[Set],
    condition: Option<&Tree>,
    built: Built,
) -> Said<Vec<Row>> {
    let names = names_of(sets);
    let asked = match Asked::new(table, &names, condition, built) {
        Ok(asked) => asked,
        Err(stop) => return stop.at(0),
    };
    let query = |table: &TableSpec, condition: Option<&Tree>| {
        run_update(table, sets, condition)
    };
    match asked.run(query) {
        Ok(rows) => Said::Gave(rows),
        Err(stop) => {
            let place = match set_place(&asked.table, sets) {
                Some(index) => index,
                None => asked.place(&stop, query),
            };
            stop.at(place)
        }
    }
}

/// The first set that is refused, if one is.
fn set_place(table: &TableSpec, sets: &[Set]) -> Option<u64> {
    let without_rows = first_rows(table, 0);
    let run = |count| run_update(&without_rows, &sets[..count], None);
    let stop = run(sets.len()).err()?;
    Some(last_of_shortest(&stop, sets.len(), run))
}

fn run_update(
    table: &TableSpec,
    sets: &[Set],
    condition: Option<&Tree>,
) -> Result<Vec<Row>, Stop> {
    let mut query = Update::table(table.name.as_str());
    for (name, cell) in sets {
        query = query.set(name.as_str(), value_of(cell));
    }
    if let Some(expr) = built(condition)? {
        query = query.with(expr);
    }
    let mut store = Store::with_table(table)?;
    run(|| query.exec(&mut store.file, &mut store.pool, &store.tables))?;
    store.rows_of(&table.name)
}
