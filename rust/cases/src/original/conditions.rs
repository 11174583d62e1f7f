//! Questions about conditions, and about one row.

use super::domain::*;
use super::driver::{shown, Driver, WAYS};
use crate::call::Call;
use crate::seen::{expression_at, label, printed, Expression, Seen, Value};
use oracle::plain::{Built, Said, Tree};
use std::slice::from_ref;

/// The name of a column number, if there are more columns than that.
pub fn numbered(columns: usize) -> impl Fn(&Expression) -> Option<String> {
    move |leaf| match leaf {
        Expression::Number(number) if (*number as usize) < columns => {
            Some(number_name(*number as u64))
        }
        _ => None,
    }
}

pub fn evaluate(driver: &Driver, call: &Call) -> Option<Vec<Seen>> {
    let text = text_of(call, true)?;
    let row = cells_at(call.word_inputs()[0], &text)?;
    if !(1..=MOST_COLUMNS).contains(&row.len()) {
        return None;
    }
    let expression = expression_at(call.byte_inputs()[0], &text)?;
    let tree = tree_of(&expression, &numbered(row.len()))?;
    if !joins_stay_short(&expression, &longest_texts(row.len(), from_ref(&row))) {
        return None;
    }
    let names: Vec<String> = (0..row.len() as u64).map(number_name).collect();
    let ask = |built| {
        let said = (driver.evaluate)(&names, &row, &tree, built);
        shown(said, |cell| Some(Seen::Value(value_of(&cell))))
    };
    Some(WAYS.into_iter().filter_map(ask).collect())
}

/// Names and numbers get different first letters, so that the folded tree
/// tells them apart.
fn marked(leaf: &Expression) -> Option<String> {
    match leaf {
        Expression::Name(name) => Some(format!("n{}", std::str::from_utf8(name).ok()?)),
        Expression::Number(number) => Some(format!("k{number}")),
        _ => None,
    }
}

fn unmarked(name: &str) -> Option<Expression> {
    match name.split_at_checked(1)? {
        ("n", name) => Some(Expression::Name(name.as_bytes().to_vec())),
        ("k", number) => Some(Expression::Number(number.parse().ok()?)),
        _ => None,
    }
}

fn expression_of(tree: &Tree) -> Option<Expression> {
    Some(match tree {
        Tree::Literal(cell) => Expression::Literal(value_of(cell)),
        Tree::Column(name) => unmarked(name)?,
        Tree::Unary(kind, operand) => Expression::Unary(*kind, Box::new(expression_of(operand)?)),
        Tree::Binary(kind, left, right) => {
            let left = Box::new(expression_of(left)?);
            Expression::Binary(*kind, left, Box::new(expression_of(right)?))
        }
    })
}

pub fn fold(driver: &Driver, call: &Call) -> Option<Vec<Seen>> {
    let text = text_of(call, true)?;
    let condition = call.byte_inputs()[0];
    let expression = expression_at(condition, &text)?;
    let is_bounded = joins_stay_short(&expression, &[]);
    if !is_bounded || call.output_length() < CONDITION_OUTPUT {
        return None;
    }
    let said = match (driver.fold)(&tree_of(&expression, &marked)?) {
        // The driver tells the node, document 01 its offset.
        Said::Panicked { number, place: Some(node), message } => {
            let place = offset_of(condition, &text, node);
            Said::Panicked { number, place, message }
        }
        other => other,
    };
    Some(Vec::from_iter(shown(said, |tree| expression_of(&tree).map(Seen::Condition))))
}

fn offset_of(condition: &[u8], text: &[u8], node: u64) -> Option<u64> {
    let tree = model::read_tree(condition, text.len())?;
    tree.in_order().get(node as usize).map(|node| node.offset as u64)
}

fn labelled(leaf: &Expression) -> Option<String> {
    String::from_utf8(label(leaf)?).ok()
}

/// The Rust shows the joined condition only as it prints.
pub fn with(driver: &Driver, call: &Call) -> Option<Vec<Seen>> {
    let text = text_of(call, false)?;
    let [old, new]: [&[u8]; 2] = call.byte_inputs().try_into().ok()?;
    let and: &[u8] = if old.is_empty() { &[] } else { &[48] };
    let whole = expression_at(&[old, new, and].concat(), &text)?;
    printed(&whole)?;
    if call.output_length() < CONDITION_OUTPUT {
        return None;
    }
    let tree = |part: &[u8]| tree_of(&expression_at(part, &text)?, &labelled);
    let old_tree = if old.is_empty() { None } else { Some(tree(old)?) };
    let said = (driver.print_with)(old_tree.as_ref(), &tree(new)?, Built::Unfolded);
    Some(Vec::from_iter(shown(said, |line| Some(Seen::Printed(line.into_bytes())))))
}

pub fn print(driver: &Driver, call: &Call) -> Option<Vec<Seen>> {
    let text = text_of(call, false)?;
    let expression = expression_at(call.byte_inputs()[0], &text)?;
    if !is_ascii(&expression) {
        return None;
    }
    let named = |leaf: &Expression| match leaf {
        Expression::Name(name) => String::from_utf8(name.clone()).ok(),
        _ => None,
    };
    let said = (driver.print_unfolded)(&tree_of(&expression, &named)?);
    let fits = |line: String| (line.len() <= call.output_length()).then(|| line.into_bytes());
    Some(Vec::from_iter(shown(said, |line| fits(line).map(Seen::Bytes))))
}

/// Whether printing has no text literal to refuse.
fn is_ascii(expression: &Expression) -> bool {
    match expression {
        Expression::Literal(Value::Text(text)) => text.is_ascii(),
        Expression::Unary(_, operand) => is_ascii(operand),
        Expression::Binary(_, left, right) => is_ascii(left) && is_ascii(right),
        _ => true,
    }
}
