//! Questions about columns.

use super::stop::{run, Stop};
use super::store::Store;
use super::translate::{column_of, columns_of, spec_of, value_of};
use crate::internal::column::Column;
use crate::internal::expr::Expr;
use crate::internal::query::Select;
use crate::internal::table::Table;
use crate::plain::{Cell, ColumnSpec, JoinKind, Said};

fn said<T>(result: Result<T, Stop>) -> Said<T> {
    match result {
        Ok(given) => Said::Gave(given),
        Err(stop) => stop.at(0),
    }
}

/// Whether a value is valid for a column.
pub fn valid_value(column: &ColumnSpec, cell: &Cell) -> Said<bool> {
    said(
        column_of(column).map(|column| column.is_valid_value(&value_of(cell))),
    )
}

/// Whether the crate calls this a column name. No query asks that: only the
/// file layer, which is not supplied, does.
pub fn valid_column_name(name: &str) -> bool {
    Column::is_valid_name(name)
}

/// Whether the crate calls this a table name; as for column names.
pub fn valid_table_name(name: &str) -> bool {
    Table::is_valid_name(name)
}

/// The column as it comes back from the number that a file keeps for it.
/// Queries never go that way.
pub fn column_from_file(column: &ColumnSpec) -> Said<ColumnSpec> {
    said(column_of(column).and_then(|column| {
        let builder = Column::build(column.name());
        spec_of(&run(|| builder.with_bitfield(column.bitfield()))?)
    }))
}

/// The number of the column that a name stands for.
pub fn column_number(columns: &[ColumnSpec], name: &str) -> Said<Option<u64>> {
    said(columns_of(columns).map(|columns| {
        let table = Table::new(String::new(), columns, false);
        table.index_for_column_name(name).map(|index| index as u64)
    }))
}

/// The columns of a join, as it names and changes them. The join runs over no
/// rows, so any two table names can be asked, equal ones too.
pub fn joined_columns(
    kind: JoinKind,
    left_name: &str,
    left: &[ColumnSpec],
    right_name: &str,
    right: &[ColumnSpec],
) -> Said<Vec<ColumnSpec>> {
    said(columns_after_join(kind, (left_name, left), (right_name, right)))
}

fn columns_after_join(
    kind: JoinKind,
    left: (&str, &[ColumnSpec]),
    right: (&str, &[ColumnSpec]),
) -> Result<Vec<ColumnSpec>, Stop> {
    let mut store = Store::new()?;
    for (entry, (name, columns)) in [("left", left), ("right", right)] {
        let columns = columns_of(columns)?;
        let table = Table::new(name.to_string(), columns, false);
        // The store's entry may differ from the name the table itself has.
        store.tables.insert(entry.to_string(), table);
    }
    let (first, second) = (Select::table("left"), Select::table("right"));
    let query = match kind {
        JoinKind::Inner => first.inner_join(second, Expr::boolean(true)),
        JoinKind::Left => first.left_join(second, Expr::boolean(true)),
    };
    let rows =
        run(|| query.exec(&mut store.file, &store.pool, &store.tables))?;
    rows.columns().iter().map(spec_of).collect()
}
