//! Tables in memory, written by table.rs itself.

use crate::driver::translate::{columns_of, row_of, value_of};
use crate::internal::codepage::CodePage;
use crate::internal::query::{Insert, Select};
use crate::internal::stringpool::StringPool;
use crate::internal::table::{Rows, Table};
use crate::internal::value::ValueRef;
use std::collections::BTreeMap;
use std::io::{self, Cursor};
use std::rc::Rc;
use work::TableSpec;

/// All that a query runs on.
pub struct Store {
    file: cfb::CompoundFile<Cursor<Vec<u8>>>,
    pool: StringPool,
    tables: BTreeMap<String, Rc<Table>>,
}

impl Store {
    pub fn of(specs: &[&TableSpec]) -> Store {
        let mut store = Store {
            file: cfb::CompoundFile::in_memory(),
            pool: StringPool::new(CodePage::Utf8),
            tables: BTreeMap::new(),
        };
        specs.iter().for_each(|spec| store.add(spec));
        store
    }

    fn add(&mut self, spec: &TableSpec) {
        let table = table_of(spec);
        let mut refer = |cell| ValueRef::create(value_of(cell), &mut self.pool);
        let rows = spec.rows.iter().map(|row| row.iter().map(&mut refer).collect()).collect();
        let stream = self.file.create_stream(table.stream_name()).expect("a stream");
        table.write_rows(stream, rows).expect("rows that can be stored");
        self.tables.insert(spec.name.clone(), table);
    }

    pub fn select(&mut self, query: Select) -> io::Result<Rows<'_>> {
        query.exec(&mut self.file, &self.pool, &self.tables)
    }

    /// The rows of a select by content.
    pub fn rows(&mut self, query: Select) -> Vec<work::Row> {
        self.select(query).expect("rows").map(|row| row_of(&row)).collect()
    }

    pub fn insert(&mut self, query: Insert) -> io::Result<()> {
        query.exec(&mut self.file, &mut self.pool, &self.tables)
    }
}

/// The references to texts have two bytes, the shorter of the two forms.
pub fn table_of(spec: &TableSpec) -> Rc<Table> {
    let columns = columns_of(&spec.columns).ok().expect("columns that can be built");
    Table::new(spec.name.clone(), columns, false)
}
