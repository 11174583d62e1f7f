//! Between the plain types and the types of the copied files.

use super::stop::Stop;
use crate::internal::column::{Column, ColumnType};
use crate::internal::value::Value;
use crate::plain::{Cell, ColumnSpec, Row};

pub fn value_of(cell: &Cell) -> Value {
    match cell {
        Cell::Null => Value::Null,
        Cell::Int(number) => Value::Int(*number),
        Cell::Text(text) => Value::Str(text.clone()),
        Cell::Binary => Value::Binary,
    }
}

pub fn values_of(row: &[Cell]) -> Vec<Value> {
    row.iter().map(value_of).collect()
}

pub fn cell_of(value: &Value) -> Cell {
    match value {
        Value::Null => Cell::Null,
        Value::Int(number) => Cell::Int(*number),
        Value::Str(text) => Cell::Text(text.clone()),
        Value::Binary => Cell::Binary,
    }
}

/// The cells of a row that the copied files handed out.
pub fn row_of(row: &crate::internal::table::Row) -> Row {
    (0..row.len()).map(|index| cell_of(&row[index])).collect()
}

/// Document 01's Ints have 32 bits, so an Int column is an `int32` one.
pub fn column_of(spec: &ColumnSpec) -> Result<Column, Stop> {
    let mut builder = Column::build(spec.name.as_str());
    if spec.nullable {
        builder = builder.nullable();
    }
    if spec.key {
        builder = builder.primary_key();
    }
    match (spec.kind, spec.bound) {
        (1, 0) => Ok(builder.int32()),
        (2, bound) => Ok(builder.string(usize::from(bound))),
        (3, 0) => Ok(builder.binary()),
        (kind, bound) => Err(Stop::cannot_ask(format!(
            "no column has kind {kind} and bound {bound}"
        ))),
    }
}

pub fn columns_of(specs: &[ColumnSpec]) -> Result<Vec<Column>, Stop> {
    specs.iter().map(column_of).collect()
}

/// A column as the copied files describe it.
pub fn spec_of(column: &Column) -> Result<ColumnSpec, Stop> {
    let (kind, bound) = match column.coltype() {
        ColumnType::Int32 => (1, 0),
        ColumnType::Str(bound) => (2, bound),
        ColumnType::Binary => (3, 0),
        ColumnType::Int16 => {
            return Err(Stop::cannot_ask("a column of 16 bits"));
        }
    };
    Ok(ColumnSpec {
        name: column.name().to_string(),
        kind,
        nullable: column.is_nullable(),
        key: column.is_primary_key(),
        bound: u16::try_from(bound)
            .map_err(|_| Stop::cannot_ask("a bound over 65535"))?,
    })
}
