//! Folding, with literals in every pair and columns in between.

use super::conditions::{most_forms, most_joined};
use super::nodes::{self, *};
use super::scene::{condition_output, plain_text, texts_at_bounds, Leaf, Scene, Want};
use super::spoil;
use crate::call::{Call, FOLD};
use crate::random::Random;

const RANDOM: usize = 220;

pub fn calls(random: &mut Random) -> Vec<Call> {
    let mut calls: Vec<Call> = most_forms().iter().map(|form| fold(form)).collect();
    calls.extend(literal_pairs());
    calls.extend(joined_texts());
    calls.extend(refusals());
    calls.extend(buffers());
    for _ in 0..RANDOM {
        calls.push(random_fold(random));
    }
    calls
}

fn fold_over(condition: &[u8], text: &[u8]) -> Call {
    let text = plain_text(text, ROOM);
    Call::new(FOLD).bytes(condition).text(text).bytes_out(CONDITION_OUTPUT)
}

fn fold(condition: &[u8]) -> Call {
    fold_over(condition, b"abc")
}

/// Every operator over literals and columns of both forms.
fn literal_pairs() -> Vec<Call> {
    let mut operands: Vec<Vec<u8>> = [0, 32, i32::MAX, i32::MIN].map(nodes::int).to_vec();
    operands.extend([vec![0], nodes::text(0, 2), nodes::name(1, 2), nodes::column(200)]);
    let mut calls = Vec::new();
    for left in &operands {
        for right in &operands {
            let kinds = (32..=46).chain([48, 49]);
            calls.extend(kinds.map(|kind| fold(&binary(kind, left, right))));
        }
        calls.extend((16..=18).map(|kind| fold(&unary(kind, left))));
        calls.extend((16..=18).map(|kind| fold(&unary(NOT, &unary(kind, left)))));
    }
    calls
}

fn joined_texts() -> Vec<Call> {
    let mut calls = Vec::new();
    let long = vec![b'l'; 1024];
    for (first, second) in [(1024, 0), (1000, 24), (1000, 25), (0, 1024), (1024, 1)] {
        let joined = binary(PLUS, &nodes::text(0, first), &nodes::text(0, second));
        calls.push(fold_over(&joined, &long));
    }
    calls.push(fold_over(&full_tree(&nodes::text(0, 32), PLUS), &[b'm'; 32]));
    calls.push(fold_over(&full_tree(&nodes::text(0, 33), PLUS), &[b'm'; 33]));
    calls.push(fold_over(&most_joined(), &[b'k'; 1010]));
    let empty = binary(PLUS, &nodes::text(1, 0), &nodes::text(2, 0));
    calls.push(fold(&empty));
    calls.push(fold(&binary(PLUS, &empty, &nodes::text(0, 3))));
    calls.push(fold(&binary(
        EQUAL,
        &binary(PLUS, &nodes::text(0, 1), &nodes::text(1, 1)),
        &nodes::text(0, 2),
    )));
    // What is joined on the way stays appended, whatever becomes of it.
    let joined = binary(PLUS, &nodes::text(0, 1), &nodes::text(1, 1));
    let refused = binary(PLUS, &nodes::int(i32::MAX), &nodes::int(1));
    calls.push(fold(&binary(AND, &joined, &joined)));
    calls.push(fold(&binary(39, &joined, &joined)));
    calls.push(fold(&binary(AND, &joined, &refused)));
    calls.push(fold(&binary(OR, &nodes::column(3), &binary(PLUS, &joined, &nodes::column(3)))));
    calls
}

fn refusals() -> Vec<Call> {
    let overflow = binary(PLUS, &nodes::int(i32::MAX), &nodes::int(1));
    let shift = binary(SHIFT_LEFT, &nodes::int(1), &nodes::int(-1));
    let joined = too_long_joined();
    let beyond = nodes::text(LONG_LETTERS, 1);
    let parts = [overflow, shift, joined, vec![0], nodes::column(0), vec![200], beyond];
    let mut calls = Vec::new();
    for left in &parts {
        for right in &parts {
            for kind in [EQUAL, 41, AND, OR] {
                let condition = binary(kind, left, right);
                let text = if condition.contains(&2) { &[b'q'; LONG_LETTERS][..] } else { b"q" };
                calls.push(fold_over(&condition, text));
            }
        }
    }
    let zero_and_overflow = binary(AND, &nodes::int(0), &parts[0]);
    calls.push(fold(&zero_and_overflow));
    calls
}

fn buffers() -> Vec<Call> {
    let widest = unary(NOT, &full_tree(&nodes::name(0, 1), PLUS));
    let mut calls = Vec::new();
    for length in [0, 1, 255, 256] {
        calls.push(fold_over(&nodes::name(0, length), &[b'n'; 256]));
    }
    for room in [0, 447, 448, 449, 1000] {
        for condition in [vec![0], widest.clone(), vec![7]] {
            calls.push(
                Call::new(FOLD).bytes(condition).text(plain_text(b"a", ROOM)).bytes_out(room),
            );
        }
    }
    for text in texts_at_bounds(b"xy") {
        let condition = binary(PLUS, &nodes::text(0, 1), &nodes::text(1, 1));
        calls.push(Call::new(FOLD).bytes(condition).text(text.clone()).bytes_out(448));
        calls.push(Call::new(FOLD).bytes([99]).text(text).bytes_out(447));
    }
    calls
}

pub fn random_fold(random: &mut Random) -> Call {
    let mut scene = Scene::new(random);
    let mut leaves = Vec::new();
    if scene.random.one_in(2) {
        leaves = scene.columns(2).1;
        let kind = scene.any_kind();
        leaves.push(Leaf { kind, node: nodes::column(scene.random.word() as u8) });
    }
    let depth = scene.random.pick(&[2, 3, 3, 4, 5]);
    let condition = scene.condition(Want::Any, &leaves, depth);
    let text = scene.text_with_room();
    let room = condition_output(random);
    let mut call = Call::new(FOLD).bytes(condition).text(text).bytes_out(room);
    spoil::sometimes(random, &mut call);
    call
}
