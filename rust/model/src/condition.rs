//! Conditions as postfix bytes: their form, and the tree they stand for.

use crate::value::{decode, encode, is_beyond, is_name_length, Cell};
use crate::Refusal;

const MOST_NODES: usize = 64;
const MOST_DEPTH: usize = 16;

/// One node. Texts, names and their places in the buffer are cell words.
#[derive(Clone, Copy, Debug, PartialEq, Eq)]
pub enum Node {
    Null,
    Int(i32),
    Text(u64),
    Name(u64),
    Number(u8),
    /// Kinds 16 to 18.
    Unary(u8),
    /// Kinds 32 to 46, and 48 and 49 for AND and OR.
    Binary(u8),
}

/// A node with its operands, and the offset of its kind byte.
#[derive(Clone, Debug, PartialEq, Eq)]
pub struct Tree {
    pub offset: usize,
    pub node: Node,
    pub operands: Vec<Tree>,
}

impl Tree {
    /// A leaf has depth 1.
    pub fn depth(&self) -> usize {
        1 + self.operands.iter().map(Tree::depth).max().unwrap_or(0)
    }

    /// The nodes in postfix order, which is the order of the bytes.
    pub fn in_order(&self) -> Vec<&Tree> {
        let mut nodes: Vec<&Tree> = self.operands.iter().flat_map(Tree::in_order).collect();
        nodes.push(self);
        nodes
    }
}

/// Which columns a condition may speak of.
#[derive(Clone, Copy)]
pub(crate) enum Columns {
    Named,
    Bound,
    Mixed,
}

impl Columns {
    /// The body's length, or nothing for a kind unknown or forbidden.
    fn body_length(self, kind: u8) -> Option<usize> {
        match kind {
            0 | 16..=18 | 32..=46 | 48 | 49 => Some(0),
            1 => Some(4),
            2 => Some(6),
            3 if !matches!(self, Columns::Bound) => Some(6),
            4 if !matches!(self, Columns::Named) => Some(1),
            _ => None,
        }
    }
}

/// Reads a node whose body has the length its kind fixes.
fn read_node(kind: u8, body: &[u8]) -> Node {
    let number = |part: &[u8]| part.iter().rev().fold(0u64, |sum, &byte| sum << 8 | byte as u64);
    let reference =
        |body: &[u8]| encode(Cell::Text { start: number(&body[..4]), length: number(&body[4..]) });
    match kind {
        0 => Node::Null,
        1 => Node::Int(number(body) as u32 as i32),
        2 => Node::Text(reference(body)),
        3 => Node::Name(reference(body)),
        4 => Node::Number(body[0]),
        16..=18 => Node::Unary(kind),
        _ => Node::Binary(kind),
    }
}

fn has_text_fault(node: Node, used: usize) -> bool {
    match node {
        Node::Text(word) => reaches_beyond(word, used),
        Node::Name(word) => reaches_beyond(word, used) || !is_name_length(word & 0xffff),
        _ => false,
    }
}

fn reaches_beyond(word: u64, used: usize) -> bool {
    matches!(decode(word), Some(Cell::Text { start, length }) if is_beyond(start, length, used))
}

fn operand_count(node: Node) -> usize {
    match node {
        Node::Unary(_) => 1,
        Node::Binary(_) => 2,
        _ => 0,
    }
}

/// Checks the form in one scan; at each node count, kind, body, text,
/// operands, depth, and after the last node that there is one result.
pub(crate) fn scan(bytes: &[u8], columns: Columns, used: usize) -> Result<Tree, Refusal> {
    let mut stack: Vec<Tree> = Vec::new();
    let mut count = 0;
    let mut offset = 0;
    while offset < bytes.len() {
        let refusal = |number| Refusal::at(number, offset);
        if count == MOST_NODES {
            return Err(refusal(2));
        }
        let length = columns.body_length(bytes[offset]).ok_or(refusal(1))?;
        let body = bytes.get(offset + 1..offset + 1 + length).ok_or(refusal(1))?;
        let node = read_node(bytes[offset], body);
        if has_text_fault(node, used) {
            return Err(refusal(3));
        }
        if stack.len() < operand_count(node) {
            return Err(refusal(1));
        }
        let operands = stack.split_off(stack.len() - operand_count(node));
        let tree = Tree { offset, node, operands };
        if tree.depth() > MOST_DEPTH {
            return Err(refusal(2));
        }
        stack.push(tree);
        count += 1;
        offset += 1 + length;
    }
    let result = stack.pop().filter(|_| stack.is_empty());
    result.ok_or(Refusal::at(1, bytes.len()))
}

/// 2 for two conditions with an AND after them, each sound alone: the 65th
/// node's offset, or the AND's where only the depth is too great.
pub(crate) fn check_whole(
    old: &Tree,
    new: &Tree,
    new_at: usize,
    and: usize,
) -> Result<(), Refusal> {
    let mut offsets: Vec<usize> = old.in_order().iter().map(|tree| tree.offset).collect();
    offsets.extend(new.in_order().iter().map(|tree| new_at + tree.offset));
    offsets.push(and);
    if let Some(&offset) = offsets.get(MOST_NODES) {
        return Err(Refusal::at(2, offset));
    }
    if old.depth().max(new.depth()) >= MOST_DEPTH {
        return Err(Refusal::at(2, and));
    }
    Ok(())
}

/// 4 for the first column number that is no column.
pub(crate) fn check_numbers(tree: &Tree, columns: usize) -> Result<(), Refusal> {
    for part in tree.in_order() {
        if let Node::Number(number) = part.node {
            if number as usize >= columns {
                return Err(Refusal::at(4, part.offset));
            }
        }
    }
    Ok(())
}

/// Writes a tree as postfix bytes.
pub(crate) fn write_tree(tree: &Tree, bytes: &mut Vec<u8>) {
    for part in tree.in_order() {
        write_node(part.node, bytes);
    }
}

fn write_node(node: Node, bytes: &mut Vec<u8>) {
    let mut reference = |kind: u8, word: u64| {
        bytes.push(kind);
        bytes.extend_from_slice(&((word >> 16) as u32).to_le_bytes());
        bytes.extend_from_slice(&(word as u16).to_le_bytes());
    };
    match node {
        Node::Text(word) => reference(2, word),
        Node::Name(word) => reference(3, word),
        Node::Null => bytes.push(0),
        Node::Int(number) => {
            bytes.push(1);
            bytes.extend_from_slice(&number.to_le_bytes());
        }
        Node::Number(number) => bytes.extend_from_slice(&[4, number]),
        Node::Unary(kind) | Node::Binary(kind) => bytes.push(kind),
    }
}

/// The tree of a condition that may speak of columns both ways, if its form
/// is sound under this mark.
pub fn read_tree(bytes: &[u8], used: usize) -> Option<Tree> {
    scan(bytes, Columns::Mixed, used).ok()
}

/// The kind of the last node, which decides whether an evaluation can hand
/// back a computed text.
pub fn last_kind(bytes: &[u8]) -> Option<u8> {
    let mut offset = 0;
    let mut last = None;
    while offset < bytes.len() {
        last = Some(bytes[offset]);
        offset += 1 + Columns::Mixed.body_length(bytes[offset])?;
    }
    last
}
