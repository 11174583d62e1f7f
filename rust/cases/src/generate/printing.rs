//! Printing of named conditions and of single values.

use super::conditions::most_forms;
use super::nodes::{self, *};
use super::scene::{fit_output, plain_text, texts_at_bounds, Scene, Want};
use super::spoil;
use super::values::{interesting_cells, TEXT};
use crate::call::{Call, PRINT, PRINT_VALUE};
use crate::random::Random;

const RANDOM: usize = 240;
const VALUES: usize = 80;

pub fn calls(random: &mut Random) -> Vec<Call> {
    let mut calls: Vec<Call> = most_forms().iter().map(|form| print(form, b"abc", 100)).collect();
    calls.extend(nested());
    calls.extend(literals());
    calls.push(document_example());
    calls.extend(outputs());
    for _ in 0..RANDOM {
        calls.push(random_print(random));
    }
    calls.extend(printed_values());
    for _ in 0..VALUES {
        calls.push(random_value(random));
    }
    calls
}

fn print(condition: &[u8], text: &[u8], room: usize) -> Call {
    Call::new(PRINT).bytes(condition).text(plain_text(text, 1)).bytes_out(room)
}

/// Every operator under every operator, on each side.
fn nested() -> Vec<Call> {
    let [a, b, c] = [0, 1, 2].map(|start| nodes::name(start, 1));
    let kinds: Vec<u8> = (32..=46).chain([48, 49]).collect();
    let mut calls = Vec::new();
    for &outer in &kinds {
        for &inner in &kinds {
            let part = binary(inner, &a, &b);
            calls.push(print(&binary(outer, &part, &c), b"abc", 40));
            calls.push(print(&binary(outer, &c, &part), b"abc", 40));
        }
        for sign in 16..=18 {
            calls.push(print(&unary(sign, &binary(outer, &a, &b)), b"abc", 40));
            calls.push(print(&binary(outer, &a, &unary(sign, &b)), b"abc", 40));
            calls.push(print(&binary(outer, &unary(sign, &a), &b), b"abc", 40));
        }
    }
    for first in 16..=18 {
        calls.extend((16..=18).map(|second| print(&unary(first, &unary(second, &a)), b"abc", 40)));
    }
    calls
}

/// Document 01's `a AND b OR c = "q\""`; its other three are among the nested ones and the outputs.
fn document_example() -> Call {
    let [a, b, c] = [0, 1, 2].map(|start| nodes::name(start, 1));
    let quoted = binary(EQUAL, &c, &nodes::text(3, 2));
    print(&binary(OR, &binary(AND, &a, &b), &quoted), b"abcq\"", 40)
}

/// All that can be quoted, and some bytes that can't.
fn quoted_bytes() -> impl Iterator<Item = u8> {
    (0..=128).chain([129, 159, 160, 191, 192, 223, 224, 239, 240, 247, 248, 254, 255])
}

fn literals() -> Vec<Call> {
    let mut calls = Vec::new();
    for number in [0, 1, -1, 9, 10, -10, 1_000_000_007, i32::MAX, i32::MIN] {
        calls.push(print(&nodes::int(number), b"", 40));
        calls.push(print(&unary(16, &nodes::int(number)), b"", 40));
    }
    for byte in quoted_bytes() {
        calls.push(print(&nodes::text(0, 2), &[byte, b'z'], 40));
    }
    // A name is printed as it is.
    for byte in [0, 9, 10, 13, 31, 32, b'"', b'\\', b'a', 127, 128, 255] {
        calls.push(print(&nodes::name(0, 2), &[byte, b'z'], 40));
    }
    for name in ["\u{e9}", "a\u{65e5}", "NOT a"] {
        calls.push(print(&nodes::name(0, name.len()), name.as_bytes(), 40));
        calls.push(print(&unary(NOT, &nodes::name(0, name.len())), name.as_bytes(), 40));
    }
    let all: Vec<u8> = (0..=127).collect();
    calls.push(print(&nodes::text(0, 128), &all, 400));
    let bad = binary(EQUAL, &nodes::text(0, 1), &nodes::text(1, 1));
    calls.push(print(&bad, &[b'a', 128], 0));
    calls.push(print(&bad, &[200, 128], 0));
    calls.push(print(&binary(AND, &bad, &[77]), &[200, 128], 0));
    calls.push(print(&binary(AND, &bad, &nodes::text(2, 1)), &[200, 128], 0));
    let long_name = vec![b'n'; 256];
    for length in [0, 1, 255, 256] {
        calls.push(print(&nodes::name(0, length), &long_name, 300));
    }
    calls.push(print(&nodes::text(0, 1000), &vec![b'v'; 1000], 1002));
    calls
}

fn outputs() -> Vec<Call> {
    let sum = binary(39, &nodes::name(0, 1), &binary(39, &nodes::name(1, 1), &nodes::name(2, 1)));
    let widest = unary(NOT, &full_tree(&nodes::text(0, 1), 39));
    let mut calls = Vec::new();
    for room in [0, 1, 10, 11, 12, 447, 448] {
        calls.push(print(&sum, b"abc", room));
        calls.push(print(&widest, b"abc", room));
    }
    for text in texts_at_bounds(b"abc") {
        calls.push(Call::new(PRINT).bytes(&sum[..]).text(text.clone()).bytes_out(11));
        calls.push(Call::new(PRINT).bytes([77]).text(text).bytes_out(0));
    }
    calls
}

pub fn random_print(random: &mut Random) -> Call {
    let quoted = random.one_in(2);
    let mut scene = if quoted { Scene::quoted(random) } else { Scene::new(random) };
    let leaves = scene.columns(4).1;
    let depth = scene.random.pick(&[1, 2, 3, 4]);
    let condition = scene.condition(Want::Any, &leaves, depth);
    let text = scene.text_input(scene.text.len() % 2);
    let mut call = Call::new(PRINT).bytes(condition).text(text).bytes_out(0);
    spoil::sometimes(random, &mut call);
    fit_output(random, &mut call);
    call
}

fn print_value(word: u64, text: &[u8], room: usize) -> Call {
    Call::new(PRINT_VALUE).number(word).text(plain_text(text, 2)).bytes_out(room)
}

fn printed_values() -> Vec<Call> {
    let mut calls = Vec::new();
    for byte in quoted_bytes() {
        calls.push(print_value(text_word(1, 1), &[b'x', byte, b'y'], 20));
    }
    let cells = interesting_cells();
    calls.extend(cells.iter().map(|&word| print_value(word, TEXT.as_bytes(), 40)));
    for room in [0, 4, 5] {
        calls.push(print_value(text_word(0, 3), b"abc", room));
        calls.push(print_value(binary_word(), b"", 8 + room));
        calls.push(print_value(int_word(i32::MIN), b"", 6 + room));
    }
    calls
}

pub fn random_value(random: &mut Random) -> Call {
    let mut scene = Scene::quoted(random);
    let kind = scene.random.pick(&[1, 2, 2, 2]);
    let word = scene.cell(kind);
    let mut call = print_value(word, &scene.text, 0);
    fit_output(scene.random, &mut call);
    call
}
