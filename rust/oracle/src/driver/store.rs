//! Tables in the in-memory store, written and read by table.rs itself, so
//! that rows can stand in any order and keys can be double.

use super::build::Hidden;
use super::stop::{run, Stop};
use super::translate::{cell_of, columns_of, row_of, value_of};
use crate::internal::codepage::CodePage;
use crate::internal::query::Select;
use crate::internal::stringpool::{StringPool, StringPoolBuilder};
use crate::internal::table::Table;
use crate::internal::value::ValueRef;
use crate::plain::{Cell, ColumnSpec, Row, Said, TableSpec};
use std::collections::BTreeMap;
use std::io::{self, Cursor};
use std::rc::Rc;

pub type File = cfb::CompoundFile<Cursor<Vec<u8>>>;

/// All that a query runs on.
pub struct Store {
    pub file: File,
    pub pool: StringPool,
    pub tables: BTreeMap<String, Rc<Table>>,
}

impl Store {
    pub fn new() -> Result<Store, Stop> {
        Ok(Store {
            file: File::in_memory(),
            pool: empty_pool()?,
            tables: BTreeMap::new(),
        })
    }

    /// A store with one table.
    pub fn with_table(spec: &TableSpec) -> Result<Store, Stop> {
        let mut store = Store::new()?;
        store.add(spec)?;
        Ok(store)
    }

    /// Writes a table as it stands. A cell that the storage refuses, or hands
    /// back as another one, makes the question impossible.
    pub fn add(&mut self, spec: &TableSpec) -> Result<(), Stop> {
        check_shape(spec)?;
        let long = self.pool.long_string_refs();
        let columns = columns_of(&spec.columns)?;
        let table = Table::new(spec.name.clone(), columns, long);
        let name = table.stream_name();
        if self.tables.contains_key(&spec.name) || self.file.exists(&name) {
            return Err(Stop::cannot_ask("two tables of one name"));
        }
        // As in a fresh file, a table without rows has no stream.
        if !spec.rows.is_empty() {
            let pool = &mut self.pool;
            let refs = set_up(|| Ok(refs_of(&spec.rows, pool)))?;
            let stream = set_up(|| self.file.create_stream(&name))?;
            set_up(|| table.write_rows(stream, refs))?;
        }
        self.tables.insert(spec.name.clone(), table);
        self.check_kept(spec)
    }

    fn check_kept(&mut self, spec: &TableSpec) -> Result<(), Stop> {
        let kept = self.rows_of(&spec.name)?;
        for (number, (given, kept)) in spec.rows.iter().zip(&kept).enumerate()
        {
            if given != kept {
                return Err(Stop::cannot_ask(format!(
                    "row {number} reads back as {kept:?}"
                )));
            }
        }
        if kept.len() != spec.rows.len() {
            return Err(Stop::cannot_ask(format!(
                "{} rows read back",
                kept.len()
            )));
        }
        Ok(())
    }

    /// All rows of a table, as a select without anything gives them.
    pub fn rows_of(&mut self, name: &str) -> Result<Vec<Row>, Stop> {
        self.selected(Select::table(name))
    }

    /// The rows a select gives.
    pub fn selected(&mut self, query: Select) -> Result<Vec<Row>, Stop> {
        run(|| {
            let rows = query.exec(&mut self.file, &self.pool, &self.tables)?;
            Ok(rows.map(|row| row_of(&row)).collect())
        })
    }
}

/// A pool with long references, which the supplied reader makes from a pool
/// stream that says so: with short ones the pool panics at 65,536 texts.
fn empty_pool() -> Result<StringPool, Stop> {
    let utf8 = CodePage::Utf8.id() as u32;
    let header = (utf8 | 0x8000_0000).to_le_bytes();
    set_up(|| {
        let builder = StringPoolBuilder::read_from_pool(&header[..])?;
        builder.build_from_data(&[][..])
    })
}

/// A part of the preparation. Whatever stops it, the question itself was not
/// put, so nothing here may count as its answer.
fn set_up<T>(work: impl FnOnce() -> io::Result<T>) -> Result<T, Stop> {
    run(work).map_err(|stop| match stop {
        Stop::Refused { message, .. } => Stop::CannotAsk(message),
        Stop::Panicked(panic) | Stop::BuildPanicked { panic, .. } => {
            Stop::CannotAsk(panic.message)
        }
        Stop::CannotAsk(why) => Stop::CannotAsk(why),
    })
}

fn refs_of(rows: &[Row], pool: &mut StringPool) -> Vec<Vec<ValueRef>> {
    let mut ref_of = |cell| ValueRef::create(value_of(cell), pool);
    rows.iter().map(|row| row.iter().map(&mut ref_of).collect()).collect()
}

fn check_shape(spec: &TableSpec) -> Result<(), Stop> {
    if spec.rows.iter().all(|row| row.len() == spec.columns.len()) {
        Ok(())
    } else {
        Err(Stop::cannot_ask("a row of another length"))
    }
}

/// The table with its first rows only.
pub fn first_rows(spec: &TableSpec, count: usize) -> TableSpec {
    TableSpec {
        name: spec.name.clone(),
        columns: spec.columns.clone(),
        rows: spec.rows[..count].to_vec(),
    }
}

/// The table with hidden columns behind its own, the same cells in every row.
pub fn with_hidden(spec: &TableSpec, hidden: &[Hidden]) -> TableSpec {
    let mut wider = spec.clone();
    for column in hidden {
        wider.columns.push(hidden_column(&column.name, &column.cell));
        for row in &mut wider.rows {
            row.push(column.cell.clone());
        }
    }
    wider
}

/// The table with each row's number in a hidden column behind its own.
pub fn with_numbers(spec: &TableSpec, name: &str) -> TableSpec {
    let mut wider = spec.clone();
    wider.columns.push(hidden_column(name, &Cell::Int(0)));
    for (number, row) in wider.rows.iter_mut().enumerate() {
        row.push(Cell::Int(number as i32));
    }
    wider
}

fn hidden_column(name: &str, cell: &Cell) -> ColumnSpec {
    let kind = match cell {
        Cell::Null | Cell::Int(_) => 1,
        Cell::Text(_) => 2,
        Cell::Binary => 3,
    };
    ColumnSpec {
        name: name.to_string(),
        kind,
        nullable: true,
        key: false,
        bound: 0,
    }
}

/// A row number out of a hidden column; Null on the right of a padded row.
pub fn number_in(cell: &Cell) -> Option<u64> {
    match cell {
        Cell::Int(number) => u64::try_from(*number).ok(),
        _ => None,
    }
}

/// What the storage hands back for a table written as it stands, or why it
/// can't hold it.
pub fn read_back(spec: &TableSpec) -> Said<Vec<Row>> {
    let ask = || -> Result<Vec<Row>, Stop> {
        check_shape(spec)?;
        let mut store = Store::new()?;
        let columns = columns_of(&spec.columns)?;
        let long = store.pool.long_string_refs();
        let table = Table::new(spec.name.clone(), columns, long);
        let refs = set_up(|| Ok(refs_of(&spec.rows, &mut store.pool)))?;
        let name = table.stream_name();
        let stream = set_up(|| store.file.create_stream(name))?;
        set_up(|| table.write_rows(stream, refs))?;
        store.tables.insert(spec.name.clone(), table);
        store.rows_of(&spec.name)
    };
    match ask() {
        Ok(rows) => Said::Gave(rows),
        Err(stop) => stop.at(0),
    }
}

/// What texts are after the string pool was written out and read in again by
/// its own code. Each text gets its own reference, as cells would.
pub fn read_back_pool(texts: &[String]) -> Said<Vec<Cell>> {
    let ask = || -> Result<Vec<Cell>, Stop> {
        let mut pool = empty_pool()?;
        let cells = texts.iter().map(|text| Cell::Text(text.clone()));
        let refs = set_up(|| Ok(refs_of(&[cells.collect()], &mut pool)))?;
        let again = set_up(|| {
            let (mut sizes, mut data) = (Vec::new(), Vec::new());
            pool.write_pool(&mut sizes)?;
            pool.write_data(&mut data)?;
            let builder = StringPoolBuilder::read_from_pool(&sizes[..])?;
            builder.build_from_data(&data[..])
        })?;
        let cell = |text: &ValueRef| cell_of(&text.to_value(&again));
        Ok(refs[0].iter().map(cell).collect())
    };
    match ask() {
        Ok(cells) => Said::Gave(cells),
        Err(stop) => stop.at(0),
    }
}

#[cfg(test)]
mod tests {
    use super::*;

    /// Why `empty_pool` asks for long references.
    #[test]
    fn short_references_end_at_65535_texts() {
        let mut sizes = 65_001u32.to_le_bytes().to_vec();
        for _ in 0..65_535 {
            // One byte long, and used as often as can be counted.
            sizes.extend([1, 0, 255, 255]);
        }
        let data = vec![b'a'; 65_535];
        let builder = StringPoolBuilder::read_from_pool(&sizes[..]).unwrap();
        let mut pool = builder.build_from_data(&data[..]).unwrap();
        let said = run(|| Ok(pool.incref("b".to_string())));
        let Err(Stop::Panicked(panic)) = said else { panic!("no panic") };
        assert!(panic.message.starts_with("Too many strings;"));
        assert_eq!(panic.number, 0);
    }
}
