//! SQLite's side, through the C calls of Debian's libsqlite3-dev: a database in memory, every statement prepared off the
//! clock. Its rows are only stepped through, not read.

use std::ffi::{c_char, c_int, c_void, CStr, CString};
use std::ptr::{null, null_mut};
use std::time::Duration;
use work::{clock, Answer, Cell, Ready, Row, Side, TableSpec, Task, Tree};

#[repr(C)]
struct Database {
    _opaque: [u8; 0],
}

#[repr(C)]
struct Prepared {
    _opaque: [u8; 0],
}

extern "C" {
    fn sqlite3_libversion() -> *const c_char;
    fn sqlite3_open(path: *const c_char, database: *mut *mut Database) -> c_int;
    fn sqlite3_close(database: *mut Database) -> c_int;
    fn sqlite3_errmsg(database: *mut Database) -> *const c_char;
    fn sqlite3_prepare_v2(
        database: *mut Database,
        sql: *const c_char,
        length: c_int,
        statement: *mut *mut Prepared,
        rest: *mut *const c_char,
    ) -> c_int;
    fn sqlite3_finalize(statement: *mut Prepared) -> c_int;
    fn sqlite3_step(statement: *mut Prepared) -> c_int;
    fn sqlite3_reset(statement: *mut Prepared) -> c_int;
    fn sqlite3_bind_int(statement: *mut Prepared, index: c_int, number: c_int) -> c_int;
    fn sqlite3_bind_null(statement: *mut Prepared, index: c_int) -> c_int;
    fn sqlite3_bind_text(
        statement: *mut Prepared,
        index: c_int,
        text: *const c_char,
        length: c_int,
        free: *const c_void,
    ) -> c_int;
    fn sqlite3_column_count(statement: *mut Prepared) -> c_int;
    fn sqlite3_column_type(statement: *mut Prepared, index: c_int) -> c_int;
    fn sqlite3_column_int(statement: *mut Prepared, index: c_int) -> c_int;
    fn sqlite3_column_text(statement: *mut Prepared, index: c_int) -> *const c_char;
}

const ROW: c_int = 100;
const DONE: c_int = 101;

pub fn version() -> String {
    // SAFETY: a text that stands for ever.
    unsafe { CStr::from_ptr(sqlite3_libversion()) }.to_string_lossy().into_owned()
}

pub struct Sqlite {
    pub name: &'static str,
    pub has_automatic_index: bool,
}

impl Side for Sqlite {
    fn name(&self) -> &'static str {
        self.name
    }

    fn ready(&self, task: &Task) -> Option<Box<dyn Ready>> {
        // The index is about joins; elsewhere one of the two is enough.
        let index = self.has_automatic_index;
        match task {
            Task::LeftJoin { left, right, condition } => {
                let file = File::of(index, &[left, right]);
                let (left, right) = (quoted(&left.name), quoted(&right.name));
                let on = sql(condition);
                let query = format!("SELECT * FROM {left} LEFT JOIN {right} ON {on}");
                Some(Box::new(Queried { statement: file.prepare(&query), _file: file }))
            }
            _ if index => None,
            Task::Select { table, condition } => {
                let file = File::of(index, &[table]);
                let query =
                    format!("SELECT * FROM {} WHERE {}", quoted(&table.name), sql(condition));
                Some(Box::new(Queried { statement: file.prepare(&query), _file: file }))
            }
            Task::Evaluate { table, condition } => {
                let file = File::of(index, &[table]);
                let query = format!("SELECT {} FROM {}", sql(condition), quoted(&table.name));
                let statement = file.prepare(&query);
                Some(Box::new(Evaluated(Queried { statement, _file: file })))
            }
            Task::Insert { table, new_rows } => Some(Box::new(Inserted::of(table, new_rows))),
            Task::Fold(_) | Task::Print(_) => None,
        }
    }
}

struct File(*mut Database);

impl File {
    fn of(has_automatic_index: bool, tables: &[&TableSpec]) -> File {
        let mut database = null_mut();
        // SAFETY: here and below, the calls as SQLite's manual has them.
        assert_eq!(unsafe { sqlite3_open(c":memory:".as_ptr(), &mut database) }, 0);
        let file = File(database);
        file.run(&format!("PRAGMA automatic_index = {}", has_automatic_index as u8));
        tables.iter().for_each(|table| file.add(table));
        file
    }

    fn add(&self, table: &TableSpec) {
        let column = |column: &work::ColumnSpec| {
            let kind = if column.kind == 1 { "INTEGER" } else { "TEXT" };
            let key = if column.key { " PRIMARY KEY" } else { "" };
            format!("{} {kind}{key}", quoted(&column.name))
        };
        let columns: Vec<String> = table.columns.iter().map(column).collect();
        self.run(&format!("CREATE TABLE {} ({})", quoted(&table.name), columns.join(", ")));
        let insert = self.insertion(table);
        self.run("BEGIN");
        table.rows.iter().for_each(|row| insert.put(row));
        self.run("COMMIT");
    }

    fn insertion(&self, table: &TableSpec) -> Statement {
        let places = vec!["?"; table.columns.len()].join(", ");
        self.prepare(&format!("INSERT INTO {} VALUES ({places})", quoted(&table.name)))
    }

    fn run(&self, query: &str) {
        self.prepare(query).run();
    }

    fn prepare(&self, query: &str) -> Statement {
        let text = CString::new(query).expect("no zero byte");
        let mut statement = null_mut();
        unsafe {
            let status = sqlite3_prepare_v2(self.0, text.as_ptr(), -1, &mut statement, null_mut());
            let message = CStr::from_ptr(sqlite3_errmsg(self.0)).to_string_lossy();
            assert_eq!(status, 0, "{query}: {message}");
        }
        Statement(statement)
    }
}

impl Drop for File {
    fn drop(&mut self) {
        unsafe { sqlite3_close(self.0) };
    }
}

struct Statement(*mut Prepared);

impl Statement {
    /// Runs it to its end; the number of rows that it gave.
    fn run(&self) -> usize {
        let mut rows = 0;
        loop {
            match unsafe { sqlite3_step(self.0) } {
                ROW => rows += 1,
                DONE => break,
                status => panic!("SQLite's status {status}"),
            }
        }
        unsafe { sqlite3_reset(self.0) };
        rows
    }

    fn put(&self, row: &[Cell]) {
        for (index, cell) in (1..).zip(row) {
            let status = unsafe {
                match cell {
                    Cell::Int(number) => sqlite3_bind_int(self.0, index, *number),
                    // Not copied: the row outlives the run.
                    Cell::Text(text) => {
                        let length = text.len() as c_int;
                        sqlite3_bind_text(self.0, index, text.as_ptr().cast(), length, null())
                    }
                    Cell::Null | Cell::Binary => sqlite3_bind_null(self.0, index),
                }
            };
            assert_eq!(status, 0);
        }
        self.run();
    }

    fn rows(&self) -> Vec<Row> {
        let mut rows = Vec::new();
        while unsafe { sqlite3_step(self.0) } == ROW {
            let columns = 0..unsafe { sqlite3_column_count(self.0) };
            rows.push(columns.map(|index| self.cell(index)).collect());
        }
        unsafe { sqlite3_reset(self.0) };
        rows
    }

    fn cell(&self, index: c_int) -> Cell {
        unsafe {
            match sqlite3_column_type(self.0, index) {
                1 => Cell::Int(sqlite3_column_int(self.0, index)),
                3 => {
                    let text = CStr::from_ptr(sqlite3_column_text(self.0, index));
                    Cell::Text(text.to_string_lossy().into_owned())
                }
                _ => Cell::Null,
            }
        }
    }
}

impl Drop for Statement {
    fn drop(&mut self) {
        unsafe { sqlite3_finalize(self.0) };
    }
}

/// The statement goes before the file that it belongs to.
struct Queried {
    statement: Statement,
    _file: File,
}

impl Ready for Queried {
    fn answer(&mut self) -> Answer {
        Answer::Rows(self.statement.rows())
    }

    fn time(&mut self, runs: u32) -> Duration {
        let start = clock();
        for _ in 0..runs {
            std::hint::black_box(self.statement.run());
        }
        clock() - start
    }
}

struct Evaluated(Queried);

impl Ready for Evaluated {
    fn answer(&mut self) -> Answer {
        Answer::Cell(self.0.statement.rows().remove(0).remove(0))
    }

    fn time(&mut self, runs: u32) -> Duration {
        self.0.time(runs)
    }
}

struct Inserted {
    new_rows: Vec<Row>,
    begin: Statement,
    insert: Statement,
    commit: Statement,
    /// Takes the new rows out again, off the clock.
    remove: Statement,
    all: Statement,
    _file: File,
}

impl Inserted {
    fn of(table: &TableSpec, new_rows: &[Row]) -> Inserted {
        let file = File::of(false, &[table]);
        let name = quoted(&table.name);
        let key = table.columns.iter().find(|column| column.key).expect("a key column");
        let key = quoted(&key.name);
        let index = table.columns.iter().position(|column| column.key).expect("a key column");
        let number = |row: &Row| match &row[index] {
            Cell::Int(number) => number.to_string(),
            other => panic!("{other:?} is no Int key"),
        };
        let keys: Vec<String> = new_rows.iter().map(number).collect();
        Inserted {
            new_rows: new_rows.to_vec(),
            begin: file.prepare("BEGIN"),
            insert: file.insertion(table),
            commit: file.prepare("COMMIT"),
            remove: file
                .prepare(&format!("DELETE FROM {name} WHERE {key} IN ({})", keys.join(", "))),
            all: file.prepare(&format!("SELECT * FROM {name} ORDER BY {key}")),
            _file: file,
        }
    }

    fn put(&self) {
        self.begin.run();
        self.new_rows.iter().for_each(|row| self.insert.put(row));
        self.commit.run();
    }
}

impl Ready for Inserted {
    fn answer(&mut self) -> Answer {
        self.put();
        let rows = self.all.rows();
        self.remove.run();
        Answer::Rows(rows)
    }

    fn time(&mut self, runs: u32) -> Duration {
        let mut total = Duration::ZERO;
        for _ in 0..runs {
            let start = clock();
            self.put();
            total += clock() - start;
            self.remove.run();
        }
        total
    }
}

/// A name, each part of it quoted.
fn quoted(name: &str) -> String {
    let parts: Vec<String> = name.split('.').map(|part| format!("\"{part}\"")).collect();
    parts.join(".")
}

/// A condition with all its parentheses.
fn sql(tree: &Tree) -> String {
    const SIGNS: [&str; 18] = [
        "=", "!=", "<", "<=", ">", ">=", "+", "-", "*", "/", "&", "|", "^", "<<", ">>", "", "AND",
        "OR",
    ];
    match tree {
        Tree::Literal(Cell::Int(number)) => number.to_string(),
        Tree::Literal(Cell::Text(text)) => format!("'{}'", text.replace('\'', "''")),
        Tree::Literal(_) => "NULL".to_string(),
        Tree::Column(name) => quoted(name),
        Tree::Unary(kind, operand) => {
            format!("({} {})", ["-", "~", "NOT"][*kind as usize - 16], sql(operand))
        }
        Tree::Binary(kind, left, right) => {
            format!("({} {} {})", sql(left), SIGNS[*kind as usize - 32], sql(right))
        }
    }
}
