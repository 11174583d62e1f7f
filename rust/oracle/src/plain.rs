//! The plain types in which questions are put and answers come back. They
//! hold content only: no starts, no words, nothing of the copied files.

/// A cell by its content.
#[derive(Clone, Debug, Eq, Hash, PartialEq)]
pub enum Cell {
    Null,
    Int(i32),
    Text(String),
    Binary,
}

/// A row is its cells in column order.
pub type Row = Vec<Cell>;

/// A column and its rule.
#[derive(Clone, Debug, Eq, PartialEq)]
pub struct ColumnSpec {
    pub name: String,
    /// 1 Int, 2 text, 3 Binary.
    pub kind: u8,
    pub nullable: bool,
    pub key: bool,
    /// The greatest text length, 0 for none.
    pub bound: u16,
}

/// A table given: its name, its columns and its rows in any order.
#[derive(Clone, Debug, Eq, PartialEq)]
pub struct TableSpec {
    pub name: String,
    pub columns: Vec<ColumnSpec>,
    pub rows: Vec<Row>,
}

/// A condition. Operators go by the kind numbers of document 01.
#[derive(Clone, Debug, Eq, PartialEq)]
pub enum Tree {
    Literal(Cell),
    Column(String),
    /// 16 `-`, 17 `~`, 18 `NOT`.
    Unary(u8, Box<Tree>),
    /// 32 to 46 `= != < <= > >= + - * / & | ^ << >>`, 48 `AND`, 49 `OR`.
    Binary(u8, Box<Tree>, Box<Tree>),
}

/// How a condition gets into the Rust.
#[derive(Clone, Copy, Debug, Eq, PartialEq)]
pub enum Built {
    /// Through the public builders, which fold as they build.
    Folding,
    /// With every literal held by a hidden column, so that nothing folds.
    Unfolded,
}

/// The two joins.
#[derive(Clone, Copy, Debug, Eq, PartialEq)]
pub enum JoinKind {
    Inner,
    Left,
}

/// A select over a join. Its list and both conditions name columns as the
/// join does.
#[derive(Clone, Debug)]
pub struct Nested {
    pub kind: JoinKind,
    pub left: TableSpec,
    pub right: TableSpec,
    pub on: Tree,
    pub list: Vec<String>,
    pub condition: Option<Tree>,
}

/// What the Rust said.
#[derive(Clone, Debug, Eq, PartialEq)]
pub enum Said<T> {
    Gave(T),
    /// An error that document 01 has a number for.
    Refused {
        number: u8,
        place: u64,
    },
    /// A panic: 5 for overflow, 6 for a shift amount, 0 for any other. There
    /// is no place if the panic came while the condition was being built for
    /// a row call or an evaluation, before any row was read.
    Panicked {
        number: u8,
        place: Option<u64>,
        message: String,
    },
    /// The question can't be put to the Rust, or the answer has no number.
    CannotAsk(String),
}

impl<T> Said<T> {
    /// The same answer with what was given changed.
    pub fn map<U>(self, change: impl FnOnce(T) -> U) -> Said<U> {
        self.and_then(|given| Said::Gave(change(given)))
    }

    /// A second question, put only if the first was answered.
    pub fn and_then<U>(self, next: impl FnOnce(T) -> Said<U>) -> Said<U> {
        match self {
            Said::Gave(given) => next(given),
            Said::Refused { number, place } => Said::Refused { number, place },
            Said::Panicked { number, place, message } => {
                Said::Panicked { number, place, message }
            }
            Said::CannotAsk(why) => Said::CannotAsk(why),
        }
    }

    /// Number and place as document 01 would give them, if the Rust stopped
    /// with 5, 6 or a refusal whose place is known.
    pub fn stop(&self) -> Option<(u8, u64)> {
        match self {
            Said::Refused { number, place } => Some((*number, *place)),
            Said::Panicked { number, place: Some(place), .. }
                if *number != 0 =>
            {
                Some((*number, *place))
            }
            _ => None,
        }
    }
}

impl Tree {
    /// The columns of the condition in postfix order, each with its byte
    /// offset in the bound form (a column takes two bytes there).
    pub fn bound_columns(&self) -> Vec<(u64, &str)> {
        let mut columns = Vec::new();
        self.walk(&mut 0, &mut columns);
        columns
    }

    fn walk<'a>(&'a self, offset: &mut u64, found: &mut Vec<(u64, &'a str)>) {
        match self {
            Tree::Literal(_) => {}
            Tree::Column(name) => found.push((*offset, name)),
            Tree::Unary(_, operand) => operand.walk(offset, found),
            Tree::Binary(_, left, right) => {
                left.walk(offset, found);
                right.walk(offset, found);
            }
        }
        *offset += self.own_bytes();
    }

    fn own_bytes(&self) -> u64 {
        match self {
            Tree::Literal(Cell::Int(_)) => 5,
            Tree::Literal(Cell::Text(_)) => 7,
            Tree::Column(_) => 2,
            // A Binary literal has no byte form, and no call asks for one.
            Tree::Literal(_) | Tree::Unary(..) | Tree::Binary(..) => 1,
        }
    }
}
