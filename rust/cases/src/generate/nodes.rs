//! The nodes of conditions as bytes, and conditions of a given size.

use model::Cell;

pub const NOT: u8 = 18;
pub const EQUAL: u8 = 32;
pub const LESS: u8 = 34;
pub const PLUS: u8 = 38;
pub const BITS_AND: u8 = 42;
pub const SHIFT_LEFT: u8 = 45;
pub const AND: u8 = 48;
pub const OR: u8 = 49;

pub const ROOM: usize = 32_768;
pub const CONDITION_OUTPUT: usize = 448;

/// Names for as many columns as there may be, and one more.
pub const LETTERS: &[u8] = b"abcdefghijklmnopqrstuvwxyzABCDEFG";

/// So many columns of one rule, each named by a letter of `LETTERS`.
pub fn letter_columns(count: usize, rule: u64) -> Vec<u64> {
    (0..count).flat_map(|index| [text_word(index, 1), rule]).collect()
}

/// A condition of 15 nodes that joins `LONG_LETTERS` eight times, which is
/// over 1,024 bytes in small.
pub fn too_long_joined() -> Vec<u8> {
    let mut level = vec![text(0, LONG_LETTERS); 8];
    while level.len() > 1 {
        level = level.chunks(2).map(|pair| binary(PLUS, &pair[0], &pair[1])).collect();
    }
    level.remove(0)
}

pub const LONG_LETTERS: usize = 129;

pub fn int(number: i32) -> Vec<u8> {
    [&[1][..], &number.to_le_bytes()].concat()
}

fn reference(kind: u8, start: usize, length: usize) -> Vec<u8> {
    let start = (start as u32).to_le_bytes();
    [&[kind][..], &start, &(length as u16).to_le_bytes()].concat()
}

pub fn text(start: usize, length: usize) -> Vec<u8> {
    reference(2, start, length)
}

pub fn name(start: usize, length: usize) -> Vec<u8> {
    reference(3, start, length)
}

pub fn column(number: u8) -> Vec<u8> {
    vec![4, number]
}

pub fn unary(kind: u8, operand: &[u8]) -> Vec<u8> {
    [operand, &[kind]].concat()
}

pub fn binary(kind: u8, left: &[u8], right: &[u8]) -> Vec<u8> {
    [left, right, &[kind]].concat()
}

/// 32 leaves and 31 operators, 63 nodes of depth 6.
pub fn full_tree(leaf: &[u8], kind: u8) -> Vec<u8> {
    let mut level = vec![leaf.to_vec(); 32];
    while level.len() > 1 {
        level = level.chunks(2).map(|pair| binary(kind, &pair[0], &pair[1])).collect();
    }
    level.remove(0)
}

/// So many unary operators over a leaf; the depth is one more.
pub fn chain(leaf: &[u8], kind: u8, count: usize) -> Vec<u8> {
    [leaf, &vec![kind; count]].concat()
}

/// So many two-sided operators, each the left operand of the next.
pub fn left_chain(leaf: &[u8], kind: u8, count: usize) -> Vec<u8> {
    let tail = [leaf, &[kind]].concat();
    [leaf, &tail.repeat(count)].concat()
}

/// So many two-sided operators, each the right operand of the next.
pub fn right_chain(leaf: &[u8], kind: u8, count: usize) -> Vec<u8> {
    [&leaf.repeat(count + 1)[..], &vec![kind; count]].concat()
}

pub fn int_word(number: i32) -> u64 {
    model::encode(Cell::Int(number))
}

pub fn text_word(start: usize, length: usize) -> u64 {
    model::encode(Cell::Text { start: start as u64, length: length as u64 })
}

pub fn binary_word() -> u64 {
    model::encode(Cell::Binary)
}
