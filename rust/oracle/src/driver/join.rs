//! Inner join and left join of two tables.

use super::build::{build, literals_as_columns, FreshNames, Hidden};
use super::stop::{last_of_shortest, Stop};
use super::store::{first_rows, number_in, with_hidden, with_numbers, Store};
use crate::internal::query::Select;
use crate::plain::{Built, JoinKind, Row, Said, TableSpec, Tree};

/// The rows of a join. The condition names its columns `Table.Column`, or
/// `Column` where the table's name is empty.
pub fn join(
    kind: JoinKind,
    left: &TableSpec,
    right: &TableSpec,
    condition: &Tree,
    built: Built,
) -> Said<Vec<Row>> {
    let pair = match Pair::new(left, right, condition, built) {
        Ok(pair) => pair,
        Err(stop) => return stop.at(0),
    };
    let hidden = left.columns.len()..pair.left.columns.len();
    pair.ask(kind).map(|mut rows| {
        for row in &mut rows {
            row.drain(hidden.clone());
        }
        rows
    })
}

/// The pairs of row numbers that the same join lists; a padded row has no
/// right one.
pub fn joined_pairs(
    kind: JoinKind,
    left: &TableSpec,
    right: &TableSpec,
    condition: &Tree,
    built: Built,
) -> Said<Vec<(u64, Option<u64>)>> {
    let mut fresh = names_of(left, right, condition);
    let numbered_left = with_numbers(left, &fresh.make(&prefix_of(left)));
    let numbered_right = with_numbers(right, &fresh.make(&prefix_of(right)));
    let column = left.columns.len();
    join(kind, &numbered_left, &numbered_right, condition, built).map(|rows| {
        let pair = |row: &Row| {
            Some((number_in(&row[column])?, number_in(row.last()?)))
        };
        rows.iter().filter_map(pair).collect()
    })
}

/// What stands before the names of a table's columns in a join.
pub fn prefix_of(table: &TableSpec) -> String {
    if table.name.is_empty() {
        String::new()
    } else {
        format!("{}.", table.name)
    }
}

fn names_of(
    left: &TableSpec,
    right: &TableSpec,
    condition: &Tree,
) -> FreshNames {
    let columns = left.columns.iter().chain(&right.columns);
    FreshNames::new(
        columns.map(|column| column.name.as_str()),
        Some(condition),
    )
}

/// Two tables and a condition as they go to the Rust. The hidden columns of
/// an unfolded condition stand behind the left table's.
struct Pair {
    left: TableSpec,
    right: TableSpec,
    condition: Tree,
}

impl Pair {
    fn new(
        left: &TableSpec,
        right: &TableSpec,
        condition: &Tree,
        built: Built,
    ) -> Result<Pair, Stop> {
        let (condition, hidden): (Tree, Vec<Hidden>) = match built {
            Built::Folding => (condition.clone(), Vec::new()),
            Built::Unfolded => {
                let mut fresh = names_of(left, right, condition);
                literals_as_columns(condition, &prefix_of(left), &mut fresh)?
            }
        };
        let left = with_hidden(left, &hidden);
        Ok(Pair { left, right: right.clone(), condition })
    }

    fn ask(&self, kind: JoinKind) -> Said<Vec<Row>> {
        match self.run(kind, &self.left, &self.right) {
            Ok(rows) => Said::Gave(rows),
            Err(stop) => {
                let place = self.place(kind, &stop);
                stop.at(place)
            }
        }
    }

    /// Left row × right rows + right row of the first pair that panics: the
    /// left row by the shortest beginning of the left rows, the right one by
    /// the shortest beginning of the right rows beside that left row alone.
    fn place(&self, kind: JoinKind, stop: &Stop) -> u64 {
        if !matches!(stop, Stop::Panicked(_)) {
            return 0;
        }
        let row = last_of_shortest(stop, self.left.rows.len(), |count| {
            self.run(kind, &first_rows(&self.left, count), &self.right)
        });
        let mut alone = first_rows(&self.left, row as usize + 1);
        alone.rows.drain(..row as usize);
        let right_rows = self.right.rows.len();
        let right_row = last_of_shortest(stop, right_rows, |count| {
            self.run(kind, &alone, &first_rows(&self.right, count))
        });
        row * right_rows as u64 + right_row
    }

    fn run(
        &self,
        kind: JoinKind,
        left: &TableSpec,
        right: &TableSpec,
    ) -> Result<Vec<Row>, Stop> {
        let condition = build(&self.condition)?;
        let mut store = Store::with_table(left)?;
        store.add(right)?;
        let first = Select::table(left.name.as_str());
        let second = Select::table(right.name.as_str());
        store.selected(match kind {
            JoinKind::Inner => first.inner_join(second, condition),
            JoinKind::Left => first.left_join(second, condition),
        })
    }
}
