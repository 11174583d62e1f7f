//! A stand-in for the crate's `Package`, whose file is not supplied: as much
//! of it as a program that reads tables needs. Every query runs in the copied
//! files.

use super::stop::Stop;
use super::store::Store;
use crate::internal::column::Column;
use crate::internal::query::{Insert, Select};
use crate::internal::table::{Rows, Table};
use std::io;

/// Tables in memory.
pub struct Package {
    store: Store,
}

impl Package {
    /// A package without tables.
    pub fn create() -> io::Result<Package> {
        match Store::new() {
            Ok(store) => Ok(Package { store }),
            Err(Stop::CannotAsk(why)) => Err(io::Error::other(why)),
            Err(_) => Err(io::Error::other("no store can be made")),
        }
    }

    /// Adds a table without rows.
    pub fn create_table(
        &mut self,
        name: &str,
        columns: Vec<Column>,
    ) -> io::Result<()> {
        if self.store.tables.contains_key(name) {
            already_exists!("Table {:?} already exists", name);
        }
        let long = self.store.pool.long_string_refs();
        let table = Table::new(name.to_string(), columns, long);
        self.store.tables.insert(name.to_string(), table);
        Ok(())
    }

    /// Runs an insert.
    pub fn insert_rows(&mut self, query: Insert) -> io::Result<()> {
        let Store { file, pool, tables } = &mut self.store;
        query.exec(file, pool, tables)
    }

    /// Runs a select.
    pub fn select_rows(&mut self, query: Select) -> io::Result<Rows<'_>> {
        let Store { file, pool, tables } = &mut self.store;
        query.exec(file, pool, tables)
    }
}
