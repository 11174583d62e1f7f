//! Insert.

use super::asked::fresh_names;
use super::stop::{last_of_shortest, run, Stop};
use super::store::{first_rows, number_in, with_numbers, Store};
use super::translate::values_of;
use crate::internal::query::Insert;
use crate::plain::{Cell, Row, Said, TableSpec};

/// The rows of the table after an insert.
pub fn insert(table: &TableSpec, new_rows: &[Row]) -> Said<Vec<Row>> {
    match run_insert(table, new_rows) {
        Ok(rows) => Said::Gave(rows),
        Err(stop) => {
            let place = place(table, new_rows, &stop);
            stop.at(place)
        }
    }
}

/// Where each row of the result comes from: the number of an old row, or the
/// count of old rows plus the number of a new one.
pub fn inserted_order(table: &TableSpec, new_rows: &[Row]) -> Said<Vec<u64>> {
    // A refusal comes from the plain insert, whose words are the caller's.
    insert(table, new_rows).and_then(|_| {
        let name = fresh_names(table, &[], None).make("");
        let numbered = with_numbers(table, &name);
        let numbers = table.rows.len() as i32..;
        let new_rows = new_rows.iter().zip(numbers).map(|(row, number)| {
            let mut row = row.clone();
            row.push(Cell::Int(number));
            row
        });
        let rows = insert(&numbered, &new_rows.collect::<Vec<Row>>());
        rows.map(|rows| {
            rows.iter().filter_map(|row| number_in(row.last()?)).collect()
        })
    })
}

fn place(table: &TableSpec, new_rows: &[Row], stop: &Stop) -> u64 {
    let new_row = || {
        last_of_shortest(stop, new_rows.len(), |count| {
            run_insert(table, &new_rows[..count])
        })
    };
    match stop {
        Stop::Refused { number: 14, .. } => {
            last_of_shortest(stop, table.rows.len(), |count| {
                run_insert(&first_rows(table, count), &[])
            })
        }
        Stop::Refused { number: 13, message } => {
            let width = table.columns.len() as u64;
            new_row() * width + column_in(table, message)
        }
        Stop::Refused { .. } => new_row(),
        _ => 0,
    }
}

/// The message of 13 ends with the column's name.
fn column_in(table: &TableSpec, message: &str) -> u64 {
    let mut columns = table.columns.iter();
    let named = columns.position(|column| {
        message.ends_with(&format!(" for column {:?}", column.name))
    });
    named.unwrap_or(0) as u64
}

fn run_insert(table: &TableSpec, new_rows: &[Row]) -> Result<Vec<Row>, Stop> {
    let new_rows = new_rows.iter().map(|row| values_of(row)).collect();
    let query = Insert::into(table.name.as_str()).rows(new_rows);
    let mut store = Store::with_table(table)?;
    run(|| query.exec(&mut store.file, &mut store.pool, &store.tables))?;
    store.rows_of(&table.name)
}
