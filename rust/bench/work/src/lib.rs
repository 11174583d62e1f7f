//! What is measured, in terms that each side translates into its own.

pub use oracle::plain::{self, Cell, ColumnSpec, Row, TableSpec, Tree};
use std::time::Duration;

/// The time that this thread has had of a processor. Unlike the time of day it stands still while others are served.
pub fn clock() -> Duration {
    /// Linux's `struct timespec` and its number for this clock, on processors of 64 bits.
    #[repr(C)]
    struct Time {
        seconds: i64,
        nanoseconds: i64,
    }
    const THREAD: i32 = 3;
    extern "C" {
        fn clock_gettime(clock: i32, time: *mut Time) -> i32;
    }
    let mut time = Time { seconds: 0, nanoseconds: 0 };
    // SAFETY: it writes the struct that it is lent.
    assert_eq!(unsafe { clock_gettime(THREAD, &mut time) }, 0);
    Duration::new(time.seconds as u64, time.nanoseconds as u32)
}

/// One piece of work.
pub enum Task {
    Select { table: TableSpec, condition: Tree },
    LeftJoin { left: TableSpec, right: TableSpec, condition: Tree },
    Insert { table: TableSpec, new_rows: Vec<Row> },
    Evaluate { table: TableSpec, condition: Tree },
    Fold(Tree),
    Print(Tree),
}

/// What comes out, by content, so that all sides can be held to one answer.
#[derive(Debug, PartialEq)]
pub enum Answer {
    Rows(Vec<Row>),
    Cell(Cell),
    /// A condition, or a folded one, as it prints.
    Printed(String),
}

/// A task made ready on one side.
pub trait Ready {
    fn answer(&mut self) -> Answer;

    /// The time that so many runs take; what a run needs anew is made off the clock.
    fn time(&mut self, runs: u32) -> Duration;
}

/// One of those compared.
pub trait Side {
    fn name(&self) -> &'static str;

    /// Nothing where this side has no such work.
    fn ready(&self, task: &Task) -> Option<Box<dyn Ready>>;
}
