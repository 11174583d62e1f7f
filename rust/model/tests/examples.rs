//! Document 01's checked examples and the printed ones.

use model::{
    bind, compare, encode, evaluate, fold, insert, left_join, print, print_value, select, with,
    Cell, Join, Refusal, Written,
};
use std::cmp::Ordering;

const NULL: &[u8] = &[0];
const ROOM: usize = 32_768;

fn int(number: i32) -> Vec<u8> {
    [&[1][..], &number.to_le_bytes()].concat()
}

fn reference(kind: u8, start: u32, length: u16) -> Vec<u8> {
    [&[kind][..], &start.to_le_bytes(), &length.to_le_bytes()].concat()
}

fn word(number: i32) -> u64 {
    encode(Cell::Int(number))
}

fn binary_word() -> u64 {
    encode(Cell::Binary)
}

/// Evaluates nodes on a row of one Binary, over a text of which all is used.
fn value(text: &str, nodes: &[&[u8]]) -> Result<u64, Refusal> {
    let mut buffer = text.as_bytes().to_vec();
    buffer.resize(text.len() + ROOM, 0xaa);
    evaluate(&nodes.concat(), &[binary_word()], &mut buffer, text.len())
}

fn refusal(number: u8, place: u64) -> Refusal {
    Refusal { number, place }
}

#[test]
fn comparisons() {
    assert_eq!(value("", &[NULL, NULL, &[32]]), Ok(word(1)));
    assert_eq!(value("", &[NULL, &int(i32::MIN), &[34]]), Ok(word(1)));
    assert_eq!(value("", &[&int(7), &reference(2, 0, 0), &[34]]), Ok(word(1)));
    let b_before_a = [&reference(2, 0, 1)[..], &reference(2, 1, 1), &[34]];
    assert_eq!(value("Ba", &b_before_a), Ok(word(1)));
    assert_eq!(value("z", &[&reference(2, 0, 1), &[4, 0], &[34]]), Ok(word(1)));
}

#[test]
fn numbers() {
    assert_eq!(value("", &[&int(-7), &int(2), &[41]]), Ok(word(-3)));
    assert_eq!(value("a", &[&reference(2, 0, 1), &int(0), &[41]]), Ok(0));
    assert_eq!(value("", &[&int(i32::MIN), &int(-1), &[41]]), Err(refusal(5, 0)));
    assert_eq!(value("", &[&int(1), &int(31), &[45]]), Ok(word(i32::MIN)));
    assert_eq!(value("", &[&int(1), &int(32), &[45]]), Err(refusal(6, 0)));
    assert_eq!(value("", &[&int(-8), &int(1), &[46]]), Ok(word(-4)));
    assert_eq!(value("", &[NULL, &[18]]), Ok(word(1)));
    assert_eq!(value("", &[NULL, &[17]]), Ok(0));
}

#[test]
fn folding() {
    let overflow = [&int(0)[..], &int(i32::MAX), &int(1), &[38], &[48]].concat();
    assert_eq!(value("", &[&overflow]), Ok(word(0)));
    let mut buffer = vec![0; ROOM];
    let mut output = [0xaa; 448];
    assert_eq!(fold(&overflow, &mut buffer, 0, &mut output), Err(refusal(5, 15)));
    assert_eq!(output, [0xaa; 448]);
    let written = fold(&[0, 0, 32], &mut buffer, 0, &mut output);
    assert_eq!(written, Ok(Written { count: 5, used: 0 }));
    assert_eq!(output[..6], [1, 1, 0, 0, 0, 0xaa]);
}

#[test]
fn folding_joins_at_the_mark() {
    let mut buffer = b"ab".to_vec();
    buffer.resize(2 + ROOM, 0);
    let mut output = [0; 448];
    let joined = [reference(2, 0, 1), reference(2, 1, 1), vec![38], reference(2, 0, 2), vec![38]];
    let written = fold(&joined.concat(), &mut buffer, 2, &mut output);
    assert_eq!(written, Ok(Written { count: 7, used: 8 }));
    assert_eq!(output[..7], reference(2, 4, 4));
    assert_eq!(&buffer[..8], b"abababab");
}

#[test]
fn a_left_join() {
    let column = [encode(Cell::Text { start: 0, length: 1 }), 1];
    let left: Vec<u64> = [1, 2, 3].map(word).to_vec();
    let right: Vec<u64> = [3, 1, 1].map(word).to_vec();
    let mut buffer = b"c".to_vec();
    buffer.resize(1 + ROOM, 0);
    let mut output = [7; 9];
    let equality = [4, 0, 4, 1, 32];
    let join = Join {
        left_columns: &column,
        left_rows: &left,
        right_columns: &column,
        right_rows: &right,
        condition: &equality,
    };
    let mut joined = |output: &mut [u64]| left_join(&join, &mut buffer, 1, output);
    assert_eq!(joined(&mut output), Ok(4));
    let expected = [word(1), word(1), word(1), word(1), word(2), 0, word(3), word(3), 7];
    assert_eq!(output, expected);
    assert_eq!(joined(&mut output[..7]), Err(refusal(9, 8)));
}

fn name(text: &str, name: &str) -> Vec<u8> {
    reference(3, text.find(name).unwrap() as u32, name.len() as u16)
}

fn printed(text: &str, nodes: &[&[u8]]) -> String {
    let mut output = [0; 200];
    let count = print(&nodes.concat(), text.as_bytes(), text.len(), &mut output).unwrap();
    String::from_utf8(output[..count].to_vec()).unwrap()
}

#[test]
fn printed_examples() {
    let text = "abcq\"";
    let (a, b, c) = (&name(text, "a")[..], &name(text, "b")[..], &name(text, "c")[..]);
    assert_eq!(printed(text, &[a, b, c, &[39], &[39]]), "a - (b - c)");
    assert_eq!(printed(text, &[a, b, &[39], c, &[39]]), "a - b - c");
    assert_eq!(printed(text, &[a, b, &[32], &[18]]), "NOT (a = b)");
    assert_eq!(printed(text, &[a, b, &[49], c, &[48]]), "(a OR b) AND c");
    let quoted = &reference(2, 3, 2)[..];
    let expected = "a AND b OR c = \"q\\\"\"";
    assert_eq!(printed(text, &[a, b, &[48], c, quoted, &[32], &[49]]), expected);
    assert_eq!(printed(text, &[&int(-5), &[16]]), "--5");
}

/// 32 leaves, 31 operators and one NOT.
fn sixty_four_nodes() -> Vec<u8> {
    let mut level = vec![vec![0u8]; 32];
    while level.len() > 1 {
        level = level.chunks(2).map(|pair| [&pair[0][..], &pair[1], &[48]].concat()).collect();
    }
    [&level[0][..], &[18]].concat()
}

#[test]
fn counts_of_nodes_and_depth() {
    let full = sixty_four_nodes();
    assert_eq!(full.len(), 64);
    assert_eq!(value("", &[&full]), Ok(word(1)));
    assert_eq!(value("", &[&full, &[99]]), Err(refusal(2, 64)));
    let chain = vec![17; 15];
    assert_eq!(value("", &[NULL, &chain]), Ok(0));
    assert_eq!(value("", &[NULL, &chain, &[17]]), Err(refusal(2, 16)));
}

#[test]
fn joined_text_of_1024() {
    let text = "x".repeat(1025);
    let first = reference(2, 0, 1000);
    let fits = value(&text, &[&first, &reference(2, 0, 24), &[38]]);
    assert_eq!(fits, Ok(encode(Cell::Text { start: 1025, length: 1024 })));
    let over = value(&text, &[&first, &reference(2, 0, 25), &[38]]);
    assert_eq!(over, Err(refusal(7, 0)));
}

#[test]
fn joined_conditions() {
    let mut output = [0; 448];
    assert_eq!(with(&[], NULL, &[], 0, &mut output), Ok(1));
    assert_eq!(with(NULL, NULL, &[], 0, &mut output), Ok(3));
    assert_eq!(output[..3], [0, 0, 48]);
    assert_eq!(with(NULL, &[], &[], 0, &mut output), Err(refusal(1, 1)));
    assert_eq!(with(NULL, &[18], &[], 0, &mut output), Err(refusal(1, 1)));
    let full = sixty_four_nodes();
    assert_eq!(with(&full, NULL, &[], 0, &mut output), Err(refusal(2, 64)));
    assert_eq!(with(&full[..63], NULL, &[], 0, &mut output), Err(refusal(2, 64)));
    let deep = [NULL, &[17; 15]].concat();
    assert_eq!(with(&deep, NULL, &[], 0, &mut output), Err(refusal(2, 17)));
}

#[test]
fn binding_takes_the_first_of_equal_names() {
    let text = b"ab";
    let mut buffer = text.to_vec();
    buffer.resize(2 + ROOM, 0);
    let column = |start| [encode(Cell::Text { start, length: 1 }), 1];
    let columns = [column(0), column(1), column(1)].concat();
    let mut output = [0; 448];
    let condition = [reference(3, 1, 1), reference(3, 0, 1), vec![32]].concat();
    assert_eq!(bind(&condition, &columns, &buffer, 2, &mut output), Ok(5));
    assert_eq!(output[..5], [4, 1, 4, 0, 32]);
    let unknown = [reference(3, 1, 1), reference(3, 0, 2), vec![32]].concat();
    assert_eq!(bind(&unknown, &columns, &buffer, 2, &mut output), Err(refusal(4, 7)));
}

#[test]
fn a_prefix_comes_first() {
    let text = b"abc";
    let cell = |start, length| encode(Cell::Text { start, length });
    assert_eq!(compare(cell(0, 2), cell(0, 3), text), Ordering::Less);
    assert_eq!(compare(cell(1, 0), cell(2, 0), text), Ordering::Equal);
}

#[test]
fn texts_are_quoted_as_rust_does_it() {
    for byte in 0..128u8 {
        let text = [b'a', byte];
        let mut output = [0; 20];
        let cell = encode(Cell::Text { start: 0, length: 2 });
        let count = print_value(cell, &text, &mut output).unwrap();
        let expected = format!("{:?}", std::str::from_utf8(&text).unwrap());
        assert_eq!(&output[..count], expected.as_bytes());
    }
    let cell = encode(Cell::Text { start: 0, length: 1 });
    assert_eq!(print_value(cell, &[128], &mut [0; 20]), Err(refusal(15, 0)));
}

#[test]
fn tables_of_4096_and_4097_rows() {
    let column = [encode(Cell::Text { start: 0, length: 1 }), 1 | 1 << 9];
    let rows: Vec<u64> = (0..4097).map(word).collect();
    let mut output = vec![0; 4098];
    let mut text = b"c".to_vec();
    let all = select(&column, &rows[..4096], &[], &[], &mut text, 1, &mut output);
    assert_eq!(all, Ok(4096));
    assert_eq!(output[..4096], rows[..4096]);
    let over = select(&column, &rows, &[], &[], &mut text, 1, &mut output);
    assert_eq!(over, Err(refusal(8, 0)));
    let first = insert(&column, &rows[1..4097], &rows[..1], &text, 1, &mut output);
    assert_eq!(first, Ok(4097));
    assert_eq!(output[..4097], rows[..]);
    let double = insert(&column, &rows[1..4097], &rows[4096..], &text, 1, &mut output);
    assert_eq!(double, Err(refusal(11, 0)));
}
