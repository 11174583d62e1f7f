//! Every operator over all pairs of interesting values, evaluated.

use super::nodes::{self, binary_word, int_word, text_word, ROOM};
use super::scene::plain_text;
use crate::call::{Call, EVALUATE};
use crate::random::Random;
use model::Cell;

const INTS: [i32; 9] = [0, 1, -1, 2, 31, 32, -7, i32::MAX, i32::MIN];
const SHORT: &str = "abB\u{e9}";
const PLUS: u8 = nodes::PLUS;

/// Two texts, one byte apart, that join to just not too much, or too much.
/// Only joining looks at such lengths, so the other operators do without.
const LONG: [usize; 2] = [512, 513];

fn interesting_words() -> Vec<u64> {
    let mut words = vec![0, binary_word()];
    words.extend(INTS.map(int_word));
    words.extend([(0, 0), (0, 1), (0, 2), (2, 1), (3, 2)].map(|(s, l)| text_word(s, l)));
    words
}

pub fn calls(_: &mut Random) -> Vec<Call> {
    let short = interesting_words();
    let long = LONG.map(|length| text_word(0, length));
    let all = [&short[..], &long].concat();
    let mut calls = Vec::new();
    for kind in 32..=46 {
        calls.extend(pairs(kind, if kind == PLUS { &all } else { &short }));
    }
    calls.extend(short.iter().flat_map(|&word| alone(word)));
    calls
}

/// AND and OR over the same pairs: evaluation decides them, not an operator.
pub fn deciding() -> Vec<Call> {
    let short = interesting_words();
    [nodes::AND, nodes::OR].iter().flat_map(|&kind| pairs(kind, &short)).collect()
}

fn pairs(kind: u8, words: &[u64]) -> Vec<Call> {
    let mut calls = Vec::new();
    for (i, &left) in words.iter().enumerate() {
        for (j, &right) in words.iter().enumerate() {
            calls.push(two_sided(kind, left, right, i + j));
        }
    }
    calls
}

/// One value as it is, and under each unary operator.
fn alone(word: u64) -> Vec<Call> {
    let mut operands = vec![(nodes::column(0), word)];
    operands.extend(literal(word).map(|node| (node, 0)));
    let mut calls = Vec::new();
    for (node, cell) in operands {
        calls.push(evaluated(node.clone(), &[cell], &[word]));
        for kind in 16..=18 {
            calls.push(evaluated(nodes::unary(kind, &node), &[cell], &[word]));
        }
    }
    calls
}

/// Operands stand as literals or in the row by turns.
fn two_sided(kind: u8, left: u64, right: u64, turn: usize) -> Call {
    let mut row = Vec::new();
    let mut node = |word: u64, as_literal: bool| match literal(word) {
        Some(node) if as_literal => node,
        _ => {
            row.push(word);
            nodes::column(row.len() as u8 - 1)
        }
    };
    let left_node = node(left, turn.is_multiple_of(2));
    let right_node = node(right, turn % 4 < 2);
    if row.is_empty() {
        row.push(0);
    }
    evaluated(nodes::binary(kind, &left_node, &right_node), &row, &[left, right])
}

/// Binary is no literal.
fn literal(word: u64) -> Option<Vec<u8>> {
    match model::decode(word)? {
        Cell::Null => Some(vec![0]),
        Cell::Int(number) => Some(nodes::int(number)),
        Cell::Text { start, length } => Some(nodes::text(start as usize, length as usize)),
        Cell::Binary => None,
    }
}

/// Evaluates over as much text as the longest operand needs.
fn evaluated(condition: Vec<u8>, row: &[u64], operands: &[u64]) -> Call {
    let mut text = SHORT.as_bytes().to_vec();
    for &word in operands {
        if let Some(Cell::Text { length, .. }) = model::decode(word) {
            text.resize(text.len().max(length as usize), b'x');
        }
    }
    Call::new(EVALUATE).bytes(condition).words(row).text(plain_text(&text, ROOM))
}
