//! Select over one table.

use super::asked::{built, fresh_names, only_first, Asked};
use super::stop::{last_of_shortest, Stop};
use super::store::{first_rows, number_in, with_numbers, Store};
use crate::internal::query::Select;
use crate::plain::{Built, Row, Said, TableSpec, Tree};

/// The rows a select gives; an empty list asks for all columns.
pub fn select(
    table: &TableSpec,
    list: &[String],
    condition: Option<&Tree>,
    built: Built,
) -> Said<Vec<Row>> {
    ask(table, list, condition, built).map(|rows| {
        if list.is_empty() {
            only_first(rows, table.columns.len())
        } else {
            rows
        }
    })
}

/// The numbers of the rows that the same select keeps, in its order.
pub fn selected_rows(
    table: &TableSpec,
    list: &[String],
    condition: Option<&Tree>,
    built: Built,
) -> Said<Vec<u64>> {
    let name = fresh_names(table, list, condition).make("");
    let numbered = with_numbers(table, &name);
    let mut list = list.to_vec();
    list.push(name);
    ask(&numbered, &list, condition, built).map(|rows| {
        rows.iter().filter_map(|row| number_in(row.last()?)).collect()
    })
}

fn ask(
    table: &TableSpec,
    list: &[String],
    condition: Option<&Tree>,
    built: Built,
) -> Said<Vec<Row>> {
    let asked = match Asked::new(table, list, condition, built) {
        Ok(asked) => asked,
        Err(stop) => return stop.at(0),
    };
    let query = |table: &TableSpec, condition: Option<&Tree>| {
        run_select(table, list, condition)
    };
    match asked.run(query) {
        Ok(rows) => Said::Gave(rows),
        Err(stop) => {
            let place = match list_place(&asked.table, list) {
                Some(index) => index,
                None => asked.place(&stop, query),
            };
            stop.at(place)
        }
    }
}

/// The first entry of the list that is no column, if there is one.
fn list_place(table: &TableSpec, list: &[String]) -> Option<u64> {
    let without_rows = first_rows(table, 0);
    let run = |count| run_select(&without_rows, &list[..count], None);
    let stop = run(list.len()).err()?;
    Some(last_of_shortest(&stop, list.len(), run))
}

fn run_select(
    table: &TableSpec,
    list: &[String],
    condition: Option<&Tree>,
) -> Result<Vec<Row>, Stop> {
    let mut query = Select::table(table.name.as_str()).columns(list);
    if let Some(expr) = built(condition)? {
        query = query.with(expr);
    }
    Store::with_table(table)?.selected(query)
}

#[cfg(test)]
mod tests {
    use super::*;
    use std::collections::HashSet;

    /// Why `first_missing` asks for each column alone: of two missing ones
    /// the Rust names now this one, now that one.
    #[test]
    fn any_missing_column_is_named() {
        let table = TableSpec {
            name: "T".to_string(),
            columns: Vec::new(),
            rows: Vec::new(),
        };
        let column = |name: &str| Box::new(Tree::Column(name.to_string()));
        let both = Tree::Binary(48, column("x"), column("y"));
        let mut named = HashSet::new();
        for _ in 0..100 {
            match run_select(&table, &[], Some(&both)) {
                Err(Stop::Refused { number: 4, message }) => {
                    named.insert(message);
                }
                _ => panic!("not refused"),
            }
        }
        assert_eq!(named.len(), 2);
    }
}
