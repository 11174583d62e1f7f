//! Short names for writing tables and conditions in tests.

#![allow(dead_code)]

use oracle::plain::{Cell, ColumnSpec, Row, Said, TableSpec, Tree};

pub fn int(number: i32) -> Tree {
    Tree::Literal(Cell::Int(number))
}

pub fn text(text: &str) -> Tree {
    Tree::Literal(Cell::Text(text.to_string()))
}

pub fn null() -> Tree {
    Tree::Literal(Cell::Null)
}

pub fn col(name: &str) -> Tree {
    Tree::Column(name.to_string())
}

/// A unary operator by its sign.
pub fn un(sign: &str, operand: Tree) -> Tree {
    let signs = ["-", "~", "NOT"];
    let index = signs.iter().position(|&known| known == sign);
    Tree::Unary(16 + index.unwrap() as u8, Box::new(operand))
}

/// The signs of the two-sided operators with their kinds.
pub const SIGNS: [(&str, u8); 17] = [
    ("=", 32),
    ("!=", 33),
    ("<", 34),
    ("<=", 35),
    (">", 36),
    (">=", 37),
    ("+", 38),
    ("-", 39),
    ("*", 40),
    ("/", 41),
    ("&", 42),
    ("|", 43),
    ("^", 44),
    ("<<", 45),
    (">>", 46),
    ("AND", 48),
    ("OR", 49),
];

/// A two-sided operator by its sign.
pub fn two(left: Tree, sign: &str, right: Tree) -> Tree {
    let known = SIGNS.iter().find(|(known, _)| *known == sign);
    Tree::Binary(known.unwrap().1, Box::new(left), Box::new(right))
}

pub fn cell(text: &str) -> Cell {
    Cell::Text(text.to_string())
}

/// A row of Ints.
pub fn ints(numbers: &[i32]) -> Row {
    numbers.iter().map(|&number| Cell::Int(number)).collect()
}

pub fn column(name: &str, kind: u8) -> ColumnSpec {
    ColumnSpec {
        name: name.to_string(),
        kind,
        nullable: true,
        key: false,
        bound: 0,
    }
}

pub fn key(name: &str, kind: u8) -> ColumnSpec {
    ColumnSpec { key: true, ..column(name, kind) }
}

pub fn table(
    name: &str,
    columns: Vec<ColumnSpec>,
    rows: Vec<Row>,
) -> TableSpec {
    TableSpec { name: name.to_string(), columns, rows }
}

pub fn names(names: &[&str]) -> Vec<String> {
    names.iter().map(|name| name.to_string()).collect()
}

/// What was given; any other answer fails the test and is shown.
pub fn given<T: std::fmt::Debug>(said: Said<T>) -> T {
    match said {
        Said::Gave(given) => given,
        other => panic!("nothing was given: {other:?}"),
    }
}

/// The message of a panic that is neither 5 nor 6.
pub fn other_panic<T: std::fmt::Debug>(said: Said<T>) -> String {
    match said {
        Said::Panicked { number: 0, message, .. } => message,
        other => panic!("no other panic: {other:?}"),
    }
}

/// Why a question can't be asked.
pub fn reason<T: std::fmt::Debug>(said: Said<T>) -> String {
    match said {
        Said::CannotAsk(why) => why,
        other => panic!("it was asked: {other:?}"),
    }
}
