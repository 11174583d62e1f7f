//! Read with msi, decide with this crate: the adapter, and one join asked of both.
//!
//! `oracle::msi` is msi 0.10.0 as far as its files are supplied; with the crate itself the first line reads `use msi;`.

use oracle::msi;
use ruffleknoll::{Column, Expr, Table, Value};
use std::error::Error;

/// A column of msi. Its numbers are those of 32 bits here, and what else msi checks (ranges, categories, lists of
/// values) stays with it.
fn column(column: &msi::Column) -> Result<Column, Box<dyn Error>> {
    let mut builder = Column::build(column.name());
    if column.is_nullable() {
        builder = builder.nullable();
    }
    if column.is_primary_key() {
        builder = builder.primary_key();
    }
    Ok(match column.coltype() {
        msi::ColumnType::Int16 | msi::ColumnType::Int32 => builder.int32(),
        msi::ColumnType::Str(max_len) => builder.string(u16::try_from(max_len)?),
        msi::ColumnType::Binary => builder.binary(),
    })
}

fn value(value: &msi::Value) -> Value {
    match value {
        msi::Value::Null => Value::Null,
        msi::Value::Int(number) => Value::Int(*number),
        msi::Value::Str(text) => Value::Str(text.clone()),
        msi::Value::Binary => Value::Binary,
    }
}

fn row(row: &msi::Row) -> Vec<Value> {
    (0..row.len()).map(|index| value(&row[index])).collect()
}

/// A table as msi hands it out.
fn table(name: &str, rows: msi::Rows) -> Result<Table, Box<dyn Error>> {
    let columns: Result<Vec<Column>, _> = rows.columns().iter().map(column).collect();
    let rows = rows.map(|values| row(&values)).collect();
    Ok(Table::new(name, columns?).with_rows(rows)?)
}

/// Before: the join of msi.
fn asked_of_msi(package: &mut msi::Package) -> Result<Table, Box<dyn Error>> {
    let same = msi::Expr::col("Entry.Number").eq(msi::Expr::col("Clue.Number"));
    let query = msi::Select::table("Entry").left_join(msi::Select::table("Clue"), same);
    table("", package.select_rows(query)?)
}

/// After: the tables of msi, the proved join.
fn decided_here(package: &mut msi::Package) -> Result<Table, Box<dyn Error>> {
    let entries = table("Entry", package.select_rows(msi::Select::table("Entry"))?)?;
    let clues = table("Clue", package.select_rows(msi::Select::table("Clue"))?)?;
    let same = Expr::col("Entry.Number").eq(Expr::col("Clue.Number"));
    Ok(entries.left_join(&clues, &same)?)
}

/// In the place of a file: msi reads it with `msi::open`.
fn sample() -> Result<msi::Package, Box<dyn Error>> {
    let mut package = msi::Package::create()?;
    let number = || msi::Column::build("Number").primary_key().int16();
    package.create_table("Entry", vec![number(), msi::Column::build("Answer").string(15)])?;
    package
        .create_table("Clue", vec![number(), msi::Column::build("Text").nullable().string(80)])?;
    let entries = msi::Insert::into("Entry").row(vec![1.into(), "KNOLL".into()]);
    package.insert_rows(entries.row(vec![2.into(), "OMEGA".into()]))?;
    let clues = msi::Insert::into("Clue").row(vec![1.into(), msi::Value::Null]);
    package.insert_rows(clues.row(vec![4.into(), "Sung on a stage".into()]))?;
    Ok(package)
}

fn main() -> Result<(), Box<dyn Error>> {
    let mut package = sample()?;
    let rows = decided_here(&mut package)?;
    for row in rows.rows() {
        let cells: Vec<String> = row.values().iter().map(Value::to_string).collect();
        println!("{}", cells.join("  "));
    }
    if rows != asked_of_msi(&mut package)? {
        return Err("msi says something else".into());
    }
    println!("msi says the same");
    Ok(())
}

#[test]
fn both_say_the_same() -> Result<(), Box<dyn Error>> {
    let mut package = sample()?;
    let rows = decided_here(&mut package)?;
    assert_eq!(rows, asked_of_msi(&mut package)?);
    let clue = |row: usize| rows.row(row).unwrap().value("Clue.Number");
    // The first has a clue that is still Null, the second none.
    assert_eq!((clue(0)?, clue(1)?), (&Value::Int(1), &Value::Null));
    Ok(())
}
