//! Words and bytes into the oracle's plain types, where the call lies in the
//! domain of the runs, and nothing elsewhere.

use crate::call::Call;
use crate::seen::{text_at, value_at, Expression, Value};
use oracle::plain::{Cell, ColumnSpec, Row, TableSpec, Tree};

const MOST_TEXT: u64 = 65_536;
pub const ROOM: u64 = 32_768;
pub const MOST_ROWS: usize = 4096;
const MOST_JOINED_TEXT: usize = 1024;
pub const MOST_COLUMNS: usize = 32;
/// What folding and `with` need as output.
pub const CONDITION_OUTPUT: usize = 448;

/// The stored text, where no refusal 10 is due.
pub fn text_of(call: &Call, needs_room: bool) -> Option<Vec<u8>> {
    let text = call.text_input();
    let length = text.length as u64;
    let above = length.checked_sub(text.used)?;
    let is_sound = length <= MOST_TEXT && (!needs_room || above >= ROOM);
    is_sound.then_some(text.stored)
}

pub fn plain_cell(value: Value) -> Option<Cell> {
    Some(match value {
        Value::Null => Cell::Null,
        Value::Int(number) => Cell::Int(number),
        Value::Text(bytes) => Cell::Text(String::from_utf8(bytes).ok()?),
        Value::Binary => Cell::Binary,
    })
}

pub fn value_of(cell: &Cell) -> Value {
    match cell {
        Cell::Null => Value::Null,
        Cell::Int(number) => Value::Int(*number),
        Cell::Text(text) => Value::Text(text.clone().into_bytes()),
        Cell::Binary => Value::Binary,
    }
}

pub fn cell_at(word: u64, text: &[u8]) -> Option<Cell> {
    plain_cell(value_at(word, text)?)
}

pub fn cells_at(words: &[u64], text: &[u8]) -> Option<Vec<Cell>> {
    words.iter().map(|&word| cell_at(word, text)).collect()
}

/// A cell where only the word is known: any text of that length stands for
/// its content.
pub fn cell_of_word(word: u64) -> Option<Cell> {
    Some(match model::decode(word)? {
        model::Cell::Text { length, .. } => Cell::Text("x".repeat(length as usize)),
        _ => cell_at(word, &[])?,
    })
}

/// A column of a well formed rule.
pub fn column_of(name: String, rule: u64) -> Option<ColumnSpec> {
    // Any sound name does; only the rule is in question.
    let name_word = 2 << 56 | 1;
    model::column_fault(name_word, rule, 1).is_none().then_some(ColumnSpec {
        name,
        kind: rule as u8,
        nullable: rule >> 8 & 1 == 1,
        key: rule >> 9 & 1 == 1,
        bound: (rule >> 16) as u16,
    })
}

pub fn rule_of(column: &ColumnSpec) -> u64 {
    let flags = (column.nullable as u64) << 8 | (column.key as u64) << 9;
    column.kind as u64 | flags | (column.bound as u64) << 16
}

/// Well formed columns with distinct UTF-8 names.
pub fn columns_at(words: &[u64], text: &[u8]) -> Option<Vec<ColumnSpec>> {
    let count = words.len() / 2;
    if !words.len().is_multiple_of(2) || !(1..=MOST_COLUMNS).contains(&count) {
        return None;
    }
    let mut columns: Vec<ColumnSpec> = Vec::new();
    for word in words.chunks_exact(2) {
        let name = String::from_utf8(text_at(word[0], text)?).ok()?;
        let is_new = columns.iter().all(|column| column.name != name);
        if !(1..=255).contains(&name.len()) || !is_new {
            return None;
        }
        columns.push(column_of(name, word[1])?);
    }
    Some(columns)
}

/// The name that a row call's conditions, lists and sets have for a column.
pub fn number_name(number: u64) -> String {
    format!("c{number}")
}

/// A table for a row call, which knows its columns by number only.
pub fn table_at(name: &str, columns: &[u64], rows: &[u64], text: &[u8]) -> Option<TableSpec> {
    let mut columns = columns_at(columns, text)?;
    for (number, column) in columns.iter_mut().enumerate() {
        column.name = number_name(number as u64);
    }
    let rows = rows_at(&columns, rows, text)?;
    Some(TableSpec { name: name.to_string(), columns, rows })
}

/// Whole rows, in columns with a length bound only ASCII.
pub fn rows_at(columns: &[ColumnSpec], words: &[u64], text: &[u8]) -> Option<Vec<Row>> {
    if !words.len().is_multiple_of(columns.len()) || words.len() / columns.len() > MOST_ROWS {
        return None;
    }
    let row = |words: &[u64]| -> Option<Row> {
        let row = cells_at(words, text)?;
        columns.iter().zip(&row).all(|(column, cell)| is_countable(column, cell)).then_some(row)
    };
    words.chunks_exact(columns.len()).map(row).collect()
}

/// The Rust counts characters where document 01 counts bytes.
pub fn is_countable(column: &ColumnSpec, cell: &Cell) -> bool {
    match cell {
        Cell::Text(text) => column.bound == 0 || text.is_ascii(),
        _ => true,
    }
}

/// True where document 01's added rules and column.rs decide differently.
pub fn is_decided_otherwise(column: &ColumnSpec, cell: &Cell) -> bool {
    match cell {
        Cell::Int(number) => column.kind == 1 && *number == i32::MIN,
        Cell::Null => column.kind == 3 && column.nullable,
        _ => false,
    }
}

/// A condition with its columns named by the caller, who may refuse one.
pub fn tree_of<F>(expression: &Expression, name: &F) -> Option<Tree>
where
    F: Fn(&Expression) -> Option<String>,
{
    Some(match expression {
        Expression::Literal(value) => Tree::Literal(plain_cell(value.clone())?),
        Expression::Name(_) | Expression::Number(_) => Tree::Column(name(expression)?),
        Expression::Unary(kind, operand) => Tree::Unary(*kind, Box::new(tree_of(operand, name)?)),
        Expression::Binary(kind, left, right) => {
            let left = Box::new(tree_of(left, name)?);
            Tree::Binary(*kind, left, Box::new(tree_of(right, name)?))
        }
    })
}

/// Whether no text that the condition can join is too long, if the texts in
/// each column are at most so long. The Rust has no such limit.
pub fn joins_stay_short(expression: &Expression, longest: &[usize]) -> bool {
    match expression {
        Expression::Unary(_, operand) => joins_stay_short(operand, longest),
        Expression::Binary(_, left, right) => {
            joins_stay_short(left, longest)
                && joins_stay_short(right, longest)
                && longest_text(expression, longest) <= MOST_JOINED_TEXT
        }
        _ => true,
    }
}

fn longest_text(expression: &Expression, longest: &[usize]) -> usize {
    match expression {
        Expression::Literal(Value::Text(text)) => text.len(),
        Expression::Number(number) => longest.get(*number as usize).copied().unwrap_or(0),
        Expression::Binary(38, left, right) => {
            longest_text(left, longest) + longest_text(right, longest)
        }
        _ => 0,
    }
}

/// The length of the longest text in each column.
pub fn longest_texts(columns: usize, rows: &[Row]) -> Vec<usize> {
    let length = |cell: &Cell| match cell {
        Cell::Text(text) => text.len(),
        _ => 0,
    };
    let longest = |column| rows.iter().map(|row: &Row| length(&row[column])).max().unwrap_or(0);
    (0..columns).map(longest).collect()
}
