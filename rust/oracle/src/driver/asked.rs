//! What select, delete and update share: a table, a condition that may be
//! built unfolded, and the search for places.

use super::build::{build, literals_as_columns, FreshNames};
use super::stop::{last_of_shortest, Stop};
use super::store::{first_rows, with_hidden};
use crate::internal::expr::Expr;
use crate::plain::{Built, Row, TableSpec, Tree};

/// A table and a condition as they go to the Rust.
pub struct Asked<'a> {
    /// The condition as the caller gave it; offsets are told in this one.
    given: Option<&'a Tree>,
    /// The table, with the hidden columns of an unfolded condition.
    pub table: TableSpec,
    pub condition: Option<Tree>,
}

impl<'a> Asked<'a> {
    /// Hides literals if that was asked. `names` are further names in use.
    pub fn new(
        table: &TableSpec,
        names: &[String],
        given: Option<&'a Tree>,
        built: Built,
    ) -> Result<Asked<'a>, Stop> {
        let as_given =
            Asked { given, table: table.clone(), condition: given.cloned() };
        match given {
            Some(tree) if built == Built::Unfolded => {
                let mut fresh = fresh_names(table, names, given);
                let (tree, hidden) =
                    literals_as_columns(tree, "", &mut fresh)?;
                let table = with_hidden(table, &hidden);
                Ok(Asked { given, table, condition: Some(tree) })
            }
            _ => Ok(as_given),
        }
    }

    /// Runs the query on what is asked.
    pub fn run<T>(
        &self,
        query: impl Fn(&TableSpec, Option<&Tree>) -> Result<T, Stop>,
    ) -> Result<T, Stop> {
        query(&self.table, self.condition.as_ref())
    }

    /// The place of a stop that the rows or the condition caused: the first
    /// row that panics, or the offset of the first column that is missing.
    pub fn place<T>(
        &self,
        stop: &Stop,
        query: impl Fn(&TableSpec, Option<&Tree>) -> Result<T, Stop>,
    ) -> u64 {
        match stop {
            Stop::Panicked(_) => {
                last_of_shortest(stop, self.table.rows.len(), |count| {
                    let fewer = first_rows(&self.table, count);
                    query(&fewer, self.condition.as_ref())
                })
            }
            Stop::Refused { .. } => self.first_missing(query).unwrap_or(0),
            Stop::BuildPanicked { .. } | Stop::CannotAsk(_) => 0,
        }
    }

    /// The Rust names some missing column, not always the first; so each one
    /// is asked for alone.
    fn first_missing<T>(
        &self,
        query: impl Fn(&TableSpec, Option<&Tree>) -> Result<T, Stop>,
    ) -> Option<u64> {
        let without_rows = first_rows(&self.table, 0);
        let columns = self.given?.bound_columns().into_iter();
        let mut missing = columns.filter(|(_, name)| {
            let alone = Tree::Column(name.to_string());
            query(&without_rows, Some(&alone)).is_err()
        });
        missing.next().map(|(offset, _)| offset)
    }
}

/// Names that neither the table nor the question uses.
pub fn fresh_names(
    table: &TableSpec,
    names: &[String],
    condition: Option<&Tree>,
) -> FreshNames {
    let columns = table.columns.iter().map(|column| column.name.as_str());
    let further = names.iter().map(String::as_str);
    FreshNames::new(columns.chain(further), condition)
}

/// The condition as an `Expr`, if there is one.
pub fn built(condition: Option<&Tree>) -> Result<Option<Expr>, Stop> {
    condition.map(build).transpose()
}

/// Rows without the hidden columns behind the first ones.
pub fn only_first(mut rows: Vec<Row>, count: usize) -> Vec<Row> {
    for row in &mut rows {
        row.truncate(count);
    }
    rows
}
