//! Binding names to columns.

use super::conditions::most_forms;
use super::faults;
use super::nodes::{self, *};
use super::scene::{condition_output, plain_text, texts_at_bounds, Scene, Want};
use super::spoil;
use crate::call::{Call, BIND};
use crate::random::Random;

const RANDOM: usize = 160;

pub fn calls(random: &mut Random) -> Vec<Call> {
    let two = [text_word(0, 1), 1, text_word(1, 2), 2];
    let mut calls: Vec<Call> = most_forms().iter().map(|form| bind(form, &two, b"abc")).collect();
    calls.extend(column_tables());
    calls.extend(names());
    calls.extend(buffers());
    for _ in 0..RANDOM {
        calls.push(random_bind(random));
    }
    calls
}

fn bind(condition: &[u8], columns: &[u64], text: &[u8]) -> Call {
    let call = Call::new(BIND).bytes(condition).words(columns);
    call.text(plain_text(text, ROOM)).bytes_out(CONDITION_OUTPUT)
}

/// Column tables on both sides of their bounds, and with faulty words.
fn column_tables() -> Vec<Call> {
    let (letters, table) = (LETTERS, |count| letter_columns(count, 1));
    let mut calls = Vec::new();
    for count in [0, 1, 2, 31, 32, 33] {
        for wanted in [0, count.max(1) - 1, count.min(32)] {
            calls.push(bind(&nodes::name(wanted, 1), &table(count), letters));
        }
        let mut odd = table(count);
        odd.push(text_word(0, 1));
        calls.push(bind(&nodes::name(0, 1), &odd, letters));
        calls.push(bind(&[99], &table(count), letters));
    }
    for (place, column) in faults::columns(33).into_iter().enumerate() {
        let mut columns = table(3);
        let first = 2 * (place % 3);
        columns[first..first + 2].copy_from_slice(&column);
        calls.push(bind(&nodes::name(0, 1), &columns, letters));
        calls.push(bind(&[99], &columns, letters));
        columns[5] = 0;
        calls.push(bind(&nodes::name(9, 1), &columns, letters));
    }
    calls
}

/// Names of 1, 255 and 256 bytes, beginnings of each other, and equal ones.
fn names() -> Vec<Call> {
    let text = [vec![b'n'; 256], vec![b'm'; 2]].concat();
    let mut calls = Vec::new();
    for length in [0, 1, 254, 255, 256] {
        for wanted in [1, 254, 255, 256] {
            let columns = [text_word(256, 2), 1, text_word(0, length), 2];
            calls.push(bind(&nodes::name(0, wanted), &columns, &text));
        }
    }
    let twice = [text_word(0, 2), 1, text_word(2, 2), 2, text_word(4, 2), 3, text_word(1, 2), 1];
    for start in 0..6 {
        calls.push(bind(&nodes::name(start, 2), &twice, b"ababcab"));
    }
    let unknown = binary(EQUAL, &nodes::name(0, 2), &nodes::name(3, 2));
    calls.push(bind(&unknown, &twice, b"ababcab"));
    calls.push(bind(&binary(AND, &unknown, &nodes::name(4, 1)), &twice, b"ababcab"));
    calls.push(bind(&binary(AND, &unknown, &[77]), &twice, b"ababcab"));
    calls
}

fn buffers() -> Vec<Call> {
    let column = [text_word(0, 1), 1];
    let widest = unary(NOT, &full_tree(&nodes::text(0, 1), PLUS));
    let mut calls = Vec::new();
    for room in [0, 447, 448, 449] {
        for condition in [nodes::name(0, 1), widest.clone(), vec![7]] {
            let call = Call::new(BIND).bytes(condition).words(column);
            calls.push(call.text(plain_text(b"a", ROOM)).bytes_out(room));
        }
    }
    for text in texts_at_bounds(b"a") {
        let call = Call::new(BIND).bytes(nodes::name(0, 1)).words(column);
        calls.push(call.text(text.clone()).bytes_out(448));
        calls.push(Call::new(BIND).bytes([9]).words([]).text(text).bytes_out(448));
    }
    calls
}

pub fn random_bind(random: &mut Random) -> Call {
    let mut scene = Scene::new(random);
    let count = scene.random.pick(&[1, 2, 2, 3, 3, 4, 8]);
    let (mut columns, mut leaves) = scene.columns(count);
    let depth = scene.random.pick(&[1, 2, 3, 4]);
    if scene.random.one_in(6) {
        // A name that may be no column's.
        let (start, length) = scene.piece();
        leaves[0].node = nodes::name(start, length);
    }
    if scene.random.one_in(6) {
        columns[2 * (count - 1)] = columns[0];
    }
    let condition = scene.condition(Want::Truth, &leaves, depth);
    let text = scene.text_with_room();
    let room = condition_output(random);
    let mut call = Call::new(BIND).bytes(condition).words(columns).text(text).bytes_out(room);
    spoil::sometimes(random, &mut call);
    call
}
