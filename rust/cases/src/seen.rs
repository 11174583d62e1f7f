//! What another implementation can show of an answer. The original Rust has
//! no words, no starts and no buffers, so answers are compared by content.

use crate::answer::{Answer, ANY_START};
use crate::call::*;
use model::{Cell, Node, Tree};

/// A second answerer.
pub trait SecondOpinion {
    /// The bit that it has in a case's source byte.
    fn source(&self) -> u8;
    /// One answer for each way in which the call can be put to it, none for
    /// a call outside its domain.
    fn answers(&self, call: &Call) -> Vec<Seen>;
}

#[derive(Clone, Debug, PartialEq, Eq)]
pub enum Value {
    Null,
    Int(i32),
    Text(Vec<u8>),
    Binary,
}

/// A condition by content; operators have their node kinds.
#[derive(Clone, Debug, PartialEq, Eq)]
pub enum Expression {
    Literal(Value),
    Name(Vec<u8>),
    Number(u8),
    Unary(u8, Box<Expression>),
    Binary(u8, Box<Expression>, Box<Expression>),
}

#[derive(Clone, Debug, PartialEq, Eq)]
pub enum Seen {
    /// A refusal; a second answerer may not know its place.
    Refused {
        number: u8,
        place: Option<u64>,
    },
    /// A number with the meaning that docs/CASES.md gives it for the call.
    Number(u64),
    Value(Value),
    Bytes(Vec<u8>),
    Words(Vec<u64>),
    Condition(Expression),
    /// A condition that is known only as it prints.
    Printed(Vec<u8>),
    /// Name and rule of each column.
    Columns(Vec<(Vec<u8>, u64)>),
    Rows(Vec<Vec<Value>>),
}

/// The stored text, and after it what the call appended.
fn whole_text(call: &Call, answer: &Answer) -> Vec<u8> {
    let mut text = call.text_input().stored;
    text.extend_from_slice(&answer.text);
    text
}

/// The bytes of a text; nothing where they are not stored.
pub fn text_at(word: u64, text: &[u8]) -> Option<Vec<u8>> {
    match model::decode(word)? {
        Cell::Text { start, length } => {
            Some(text.get(start as usize..(start + length) as usize)?.to_vec())
        }
        _ => None,
    }
}

pub fn value_at(word: u64, text: &[u8]) -> Option<Value> {
    Some(match model::decode(word)? {
        Cell::Null => Value::Null,
        Cell::Int(number) => Value::Int(number),
        Cell::Text { .. } => Value::Text(text_at(word, text)?),
        Cell::Binary => Value::Binary,
    })
}

/// A condition of sound form by content.
pub fn expression_at(condition: &[u8], text: &[u8]) -> Option<Expression> {
    expression_of(&model::read_tree(condition, text.len())?, text)
}

fn expression_of(tree: &Tree, text: &[u8]) -> Option<Expression> {
    let operand = |index: usize| expression_of(&tree.operands[index], text).map(Box::new);
    Some(match tree.node {
        Node::Null => Expression::Literal(Value::Null),
        Node::Int(number) => Expression::Literal(Value::Int(number)),
        Node::Text(word) => Expression::Literal(Value::Text(text_at(word, text)?)),
        Node::Name(word) => Expression::Name(text_at(word, text)?),
        Node::Number(number) => Expression::Number(number),
        Node::Unary(kind) => Expression::Unary(kind, operand(0)?),
        Node::Binary(kind) => Expression::Binary(kind, operand(0)?, operand(1)?),
    })
}

/// The columns of a table by content.
pub fn columns_at(columns: &[u64], text: &[u8]) -> Option<Vec<(Vec<u8>, u64)>> {
    columns.chunks_exact(2).map(|column| Some((text_at(column[0], text)?, column[1]))).collect()
}

/// The rows of a table by content; an accepted result has whole rows.
pub fn rows_at(words: &[u64], width: usize, text: &[u8]) -> Option<Vec<Vec<Value>>> {
    let row = |row: &[u64]| row.iter().map(|&word| value_at(word, text)).collect();
    words.chunks_exact(width.max(1)).map(row).collect()
}

/// What can be seen of an answer; nothing where it speaks of text that the
/// case doesn't hold.
pub fn seen(call: &Call, answer: &Answer) -> Option<Seen> {
    if answer.number != 0 {
        return Some(Seen::Refused { number: answer.number as u8, place: Some(answer.place) });
    }
    let text = whole_text(call, answer);
    let bytes = || answer.output.iter().map(|&element| element as u8).collect::<Vec<u8>>();
    match call.number {
        PRINT_VALUE | PRINT => Some(Seen::Bytes(bytes())),
        COMPARE..=FIND_COLUMN | EARLIER => Some(Seen::Number(answer.value)),
        ROW => Some(Seen::Words(answer.output.clone())),
        EVALUATE if is_any_start(answer.value) => {
            Some(Seen::Value(Value::Text(answer.text.clone())))
        }
        EVALUATE => value_at(answer.value, &text).map(Seen::Value),
        FOLD..=WITH => expression_at(&bytes(), &text).map(Seen::Condition),
        INNER_JOIN_COLUMNS | LEFT_JOIN_COLUMNS => {
            columns_at(&answer.output, &text).map(Seen::Columns)
        }
        _ => {
            let width = answer.output.len().checked_div(answer.value as usize).unwrap_or(1);
            rows_at(&answer.output, width, &text).map(Seen::Rows)
        }
    }
}

/// True for the cell that stands for a computed text, wherever it starts.
pub fn is_any_start(word: u64) -> bool {
    matches!(model::decode(word), Some(Cell::Text { start, .. }) if start == ANY_START)
}

/// True where all that a second answerer shows is as the answer has it.
pub fn agrees(call: &Call, answer: &Answer, second: &Seen) -> bool {
    match second {
        // Known by row numbers: the very words, starts of texts included.
        Seen::Words(words) => answer.number == 0 && *words == answer.output,
        _ => seen(call, answer).is_some_and(|first| shows(&first, second)),
    }
}

fn shows(first: &Seen, second: &Seen) -> bool {
    match (first, second) {
        (Seen::Refused { number, place }, Seen::Refused { number: other, place: known }) => {
            number == other && (known.is_none() || known == place)
        }
        (Seen::Condition(condition), Seen::Printed(line)) => {
            printed(condition).as_ref() == Some(line)
        }
        _ => first == second,
    }
}

/// How a column is called in `printed`; a number gets a name of its own.
pub fn label(leaf: &Expression) -> Option<Vec<u8>> {
    match leaf {
        Expression::Name(name) => Some(name.clone()),
        Expression::Number(number) => Some(format!("#{number}").into_bytes()),
        _ => None,
    }
}

/// A condition as it prints, column numbers too; nothing where printing
/// refuses it.
pub fn printed(expression: &Expression) -> Option<Vec<u8>> {
    let (mut condition, mut text) = (Vec::new(), Vec::new());
    put_named(expression, &mut condition, &mut text)?;
    let mut line = vec![0; 70_000];
    let length = model::print(&condition, &text, text.len(), &mut line).ok()?;
    line.truncate(length);
    Some(line)
}

fn put_named(expression: &Expression, condition: &mut Vec<u8>, text: &mut Vec<u8>) -> Option<()> {
    let mut put_text = |kind: u8, part: &[u8]| {
        condition.push(kind);
        condition.extend_from_slice(&(text.len() as u32).to_le_bytes());
        condition.extend_from_slice(&(part.len() as u16).to_le_bytes());
        text.extend_from_slice(part);
    };
    match expression {
        Expression::Literal(Value::Null) => condition.push(0),
        Expression::Literal(Value::Int(number)) => {
            condition.push(1);
            condition.extend_from_slice(&number.to_le_bytes());
        }
        Expression::Literal(Value::Text(part)) => put_text(2, part),
        Expression::Literal(Value::Binary) => return None,
        Expression::Name(_) | Expression::Number(_) => put_text(3, &label(expression)?),
        Expression::Unary(kind, operand) => {
            put_named(operand, condition, text)?;
            condition.push(*kind);
        }
        Expression::Binary(kind, left, right) => {
            put_named(left, condition, text)?;
            put_named(right, condition, text)?;
            condition.push(*kind);
        }
    }
    Some(())
}
