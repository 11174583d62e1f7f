//! The calls on conditions: evaluate, fold, bind, `with`.

use crate::condition::{check_numbers, check_whole, scan, write_tree, Columns, Node, Tree};
use crate::operators::{binary, unary, Room};
use crate::table::{check_cells, check_columns, check_room, check_text, column_count, COLUMNS};
use crate::value::{content, decode, encode, find_column, from_bool, to_bool, Cell};
use crate::Refusal;

const CONDITION_OUTPUT: usize = 448;

/// How much a call wrote, and the mark after it.
#[derive(Clone, Copy, Debug, PartialEq, Eq)]
pub struct Written {
    pub count: usize,
    pub used: usize,
}

/// 10 where the output can't hold every condition there is.
fn check_condition_output(output: &[u8]) -> Result<(), Refusal> {
    if output.len() < CONDITION_OUTPUT {
        return Err(Refusal::at(10, 0));
    }
    Ok(())
}

/// Writes at the start of an output that was checked to be large enough.
pub(crate) fn write_at_start<T: Copy>(result: &[T], output: &mut [T]) {
    for (place, &element) in output.iter_mut().zip(result) {
        *place = element;
    }
}

/// The cell a condition gives on one row.
pub fn evaluate(
    condition: &[u8],
    row: &[u64],
    text: &mut [u8],
    used: usize,
) -> Result<u64, Refusal> {
    check_text(text, used)?;
    check_room(text, used)?;
    if !COLUMNS.contains(&row.len()) {
        return Err(Refusal::at(8, 0));
    }
    check_cells(row, used, 0)?;
    let tree = scan(condition, Columns::Bound, used)?;
    check_numbers(&tree, row.len())?;
    let mut room = Room { text, top: used };
    value_of(&tree, row, &mut room).map_err(|number| Refusal::at(number, 0))
}

/// The cell of a tree on a row, or a refusal's number.
pub(crate) fn value_of(tree: &Tree, row: &[u64], room: &mut Room) -> Result<u64, u8> {
    match tree.node {
        Node::Null => Ok(encode(Cell::Null)),
        Node::Int(number) => Ok(encode(Cell::Int(number))),
        Node::Text(word) | Node::Name(word) => Ok(word),
        Node::Number(number) => Ok(row.get(number as usize).copied().unwrap_or(0)),
        Node::Unary(kind) => {
            let operand = value_of(&tree.operands[0], row, room)?;
            unary(kind, operand)
        }
        Node::Binary(kind) => {
            let left = value_of(&tree.operands[0], row, room)?;
            if decides(kind, left) {
                return Ok(from_bool(to_bool(left)));
            }
            let right = value_of(&tree.operands[1], row, room)?;
            if is_logical(kind) {
                return Ok(from_bool(to_bool(right)));
            }
            binary(kind, left, right, room)
        }
    }
}

fn is_logical(kind: u8) -> bool {
    kind == 48 || kind == 49
}

/// A false left operand decides AND, a true one OR.
fn decides(kind: u8, left: u64) -> bool {
    (kind == 48 && !to_bool(left)) || (kind == 49 && to_bool(left))
}

/// Replaces operators over literals by their values, in postfix order.
pub fn fold(
    condition: &[u8],
    text: &mut [u8],
    used: usize,
    output: &mut [u8],
) -> Result<Written, Refusal> {
    check_text(text, used)?;
    check_room(text, used)?;
    check_condition_output(output)?;
    let tree = scan(condition, Columns::Mixed, used)?;
    let mut room = Room { text, top: used };
    let folded = folded(&tree, &mut room)?;
    let mut bytes = Vec::new();
    write_tree(&folded, &mut bytes);
    write_at_start(&bytes, output);
    Ok(Written { count: bytes.len(), used: room.top })
}

fn folded(tree: &Tree, room: &mut Room) -> Result<Tree, Refusal> {
    let mut operands = Vec::new();
    for operand in &tree.operands {
        operands.push(folded(operand, room)?);
    }
    let literals: Option<Vec<u64>> = operands.iter().map(|operand| literal(operand.node)).collect();
    let value = match (tree.node, literals.as_deref()) {
        (Node::Unary(kind), Some(&[word])) => unary(kind, word),
        (Node::Binary(kind), Some(&[left, right])) if !is_logical(kind) => {
            binary(kind, left, right, room)
        }
        _ => return Ok(Tree { offset: tree.offset, node: tree.node, operands }),
    };
    let word = value.map_err(|number| Refusal::at(number, tree.offset))?;
    Ok(Tree { offset: tree.offset, node: literal_node(word), operands: Vec::new() })
}

fn literal(node: Node) -> Option<u64> {
    match node {
        Node::Null => Some(encode(Cell::Null)),
        Node::Int(number) => Some(encode(Cell::Int(number))),
        Node::Text(word) => Some(word),
        _ => None,
    }
}

/// No operator gives Binary, so three kinds are all there are.
fn literal_node(word: u64) -> Node {
    match decode(word) {
        Some(Cell::Int(number)) => Node::Int(number),
        Some(Cell::Text { .. }) => Node::Text(word),
        _ => Node::Null,
    }
}

/// Replaces column names by column numbers.
pub fn bind(
    condition: &[u8],
    columns: &[u64],
    text: &[u8],
    used: usize,
    output: &mut [u8],
) -> Result<usize, Refusal> {
    check_text(text, used)?;
    check_room(text, used)?;
    check_condition_output(output)?;
    column_count(columns)?;
    check_columns(columns, used, 0)?;
    let tree = scan(condition, Columns::Named, used)?;
    let bound = bound(&tree, columns, text)?;
    let mut bytes = Vec::new();
    write_tree(&bound, &mut bytes);
    write_at_start(&bytes, output);
    Ok(bytes.len())
}

fn bound(tree: &Tree, columns: &[u64], text: &[u8]) -> Result<Tree, Refusal> {
    let mut operands = Vec::new();
    for operand in &tree.operands {
        operands.push(bound(operand, columns, text)?);
    }
    let node = match tree.node {
        Node::Name(word) => {
            let name = content(word >> 16 & 0xffff_ffff, word & 0xffff, text);
            let number = find_column(columns, text, name);
            Node::Number(number.ok_or(Refusal::at(4, tree.offset))? as u8)
        }
        other => other,
    };
    Ok(Tree { offset: tree.offset, node, operands })
}

/// AND of the old and the new condition, or the new one where there is no old.
pub fn with(
    old: &[u8],
    new: &[u8],
    text: &[u8],
    used: usize,
    output: &mut [u8],
) -> Result<usize, Refusal> {
    check_text(text, used)?;
    check_condition_output(output)?;
    let mut whole = old.to_vec();
    whole.extend_from_slice(new);
    let moved = |refusal: Refusal| Refusal { place: old.len() as u64 + refusal.place, ..refusal };
    if old.is_empty() {
        scan(new, Columns::Mixed, used)?;
    } else {
        let old_tree = scan(old, Columns::Mixed, used)?;
        let new_tree = scan(new, Columns::Mixed, used).map_err(moved)?;
        check_whole(&old_tree, &new_tree, old.len(), whole.len())?;
        whole.push(48);
    }
    write_at_start(&whole, output);
    Ok(whole.len())
}
