//! The questions that both builds of the oracle take, and how their answers
//! are shown.

use super::domain::value_of;
use crate::seen::{Seen, Value};
use oracle::plain::{Built, Cell, ColumnSpec, JoinKind, Nested, Row, Said, TableSpec, Tree};
use std::cmp::Ordering;

type Set = (String, Cell);
/// The numbers of a left row and of its right one; a padded row has none.
pub type Pair = (u64, Option<u64>);

// Questions that are put in two ways: for rows by content, and for the numbers of rows.
type Select<T> = fn(&TableSpec, &[String], Option<&Tree>, Built) -> Said<Vec<T>>;
type Delete<T> = fn(&TableSpec, Option<&Tree>, Built) -> Said<Vec<T>>;
type Update<T> = fn(&TableSpec, &[Set], Option<&Tree>, Built) -> Said<Vec<T>>;
type Join<T> = fn(JoinKind, &TableSpec, &TableSpec, &Tree, Built) -> Said<Vec<T>>;
type Insert<T> = fn(&TableSpec, &[Row]) -> Said<Vec<T>>;
type SelectOverJoin<T> = fn(&Nested, Built) -> Said<Vec<T>>;

type CompareKeys = fn(&[ColumnSpec], &[Cell], &[Cell]) -> Said<Ordering>;
type JoinedColumns =
    fn(JoinKind, &str, &[ColumnSpec], &str, &[ColumnSpec]) -> Said<Vec<ColumnSpec>>;

/// The driver's functions in one build.
pub struct Driver {
    pub source: u8,
    /// False where column.rs is the original, which decides otherwise than
    /// document 01's added rules do.
    pub has_document_columns: bool,
    pub compare: fn(&Cell, &Cell) -> Ordering,
    pub equal: fn(&Cell, &Cell) -> bool,
    pub truth: fn(&Cell) -> bool,
    pub print_cell: fn(&Cell) -> String,
    pub compare_keys: CompareKeys,
    pub valid_value: fn(&ColumnSpec, &Cell) -> Said<bool>,
    pub column_number: fn(&[ColumnSpec], &str) -> Said<Option<u64>>,
    pub joined_columns: JoinedColumns,
    pub evaluate: fn(&[String], &[Cell], &Tree, Built) -> Said<Cell>,
    pub fold: fn(&Tree) -> Said<Tree>,
    pub print_with: fn(Option<&Tree>, &Tree, Built) -> Said<String>,
    pub print_unfolded: fn(&Tree) -> Said<String>,
    pub select: Select<Row>,
    pub delete: Delete<Row>,
    pub update: Update<Row>,
    pub join: Join<Row>,
    pub insert: Insert<Row>,
    pub selected_rows: Select<u64>,
    pub kept_rows: Delete<u64>,
    pub updated_rows: Update<u64>,
    pub joined_pairs: Join<Pair>,
    pub inserted_order: Insert<u64>,
    pub select_over_join: SelectOverJoin<Row>,
    pub selected_pairs: SelectOverJoin<Pair>,
}

macro_rules! driver {
    ($build:ident, $source:expr, $has_document_columns:expr) => {
        Driver {
            source: $source,
            has_document_columns: $has_document_columns,
            compare: $build::driver::compare,
            equal: $build::driver::equal,
            truth: $build::driver::truth,
            print_cell: $build::driver::print_cell,
            compare_keys: $build::driver::compare_keys,
            valid_value: $build::driver::valid_value,
            column_number: $build::driver::column_number,
            joined_columns: $build::driver::joined_columns,
            evaluate: $build::driver::evaluate,
            fold: $build::driver::fold,
            print_with: $build::driver::print_with,
            print_unfolded: $build::driver::print_unfolded,
            select: $build::driver::select,
            delete: $build::driver::delete,
            update: $build::driver::update,
            join: $build::driver::join,
            insert: $build::driver::insert,
            selected_rows: $build::driver::selected_rows,
            kept_rows: $build::driver::kept_rows,
            updated_rows: $build::driver::updated_rows,
            joined_pairs: $build::driver::joined_pairs,
            inserted_order: $build::driver::inserted_order,
            select_over_join: $build::driver::select_over_join,
            selected_pairs: $build::driver::selected_pairs,
        }
    };
}

/// All files as they were supplied.
pub fn unchanged() -> Driver {
    driver!(oracle, 2, false)
}

/// With document 01's rules for columns.
pub fn changed() -> Driver {
    driver!(oracle_document, 4, true)
}

/// The two ways to put a condition.
pub const WAYS: [Built; 2] = [Built::Folding, Built::Unfolded];

/// What was said, shown; nothing where the question couldn't be put.
pub fn shown<T>(said: Said<T>, show: impl FnOnce(T) -> Option<Seen>) -> Option<Seen> {
    match said {
        Said::Gave(given) => show(given),
        Said::Refused { number, place } => Some(Seen::Refused { number, place: Some(place) }),
        // The builders fold. What stops them needn't stop an evaluation, and
        // so nothing was asked. A panic with number 0 agrees with no answer.
        Said::Panicked { place: None, number: 5 | 6, .. } => None,
        Said::Panicked { number, place, .. } => Some(Seen::Refused { number, place }),
        Said::CannotAsk(_) => None,
    }
}

/// Rows, if the output has room for them: the Rust knows no outputs.
pub fn shown_rows(rows: Vec<Row>, room: usize) -> Option<Seen> {
    let words: usize = rows.iter().map(Vec::len).sum();
    let values = |row: &Row| -> Vec<Value> { row.iter().map(value_of).collect() };
    (words <= room).then(|| Seen::Rows(rows.iter().map(values).collect()))
}

/// The very words of a result whose rows are known by number.
pub fn shown_words(words: Vec<u64>, room: usize) -> Option<Seen> {
    (words.len() <= room).then_some(Seen::Words(words))
}
