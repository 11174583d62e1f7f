//! Evaluation on one row, and `with`: a layer each.

use super::faults;
use super::nodes::{self, *};
use super::scene::{condition_output, numbered, plain_text, texts_at_bounds, Leaf, Scene, Want};
use super::spoil;
use crate::call::{Call, Text, EVALUATE, WITH};
use crate::random::Random;

const EVALUATIONS: usize = 11_500;
const SOUND_EVALUATIONS: usize = 13_500;
const JOINED: usize = 900;

pub fn calls(random: &mut Random) -> Vec<Call> {
    let mut calls = Vec::new();
    for condition in forms() {
        calls.push(evaluate(&condition, &[int_word(3), 0]));
    }
    calls.extend(refused_first());
    calls.extend(short_circuits());
    calls.extend(super::operators::deciding());
    calls.extend(texts_and_marks());
    calls.extend(row_lengths());
    for _ in 0..EVALUATIONS {
        calls.push(random_evaluation(random));
    }
    for _ in 0..SOUND_EVALUATIONS {
        calls.push(sound_evaluation(random));
    }
    calls
}

pub fn calls_of_with(random: &mut Random) -> Vec<Call> {
    let mut calls = Vec::new();
    calls.extend(forms().iter().map(|form| with(&[], form)));
    for condition in low_forms() {
        calls.push(with(&condition, &[0]));
        calls.push(with(&nodes::int(9), &condition));
    }
    for text in [texts_at_bounds(b"abc"), texts_at_bounds(b"")].concat() {
        calls.push(Call::new(WITH).bytes([0]).bytes([0]).text(text.clone()).bytes_out(448));
        calls.push(Call::new(WITH).bytes([9]).bytes([9]).text(text).bytes_out(448));
    }
    calls.extend(wholes());
    for _ in 0..JOINED {
        calls.push(random_with(random));
    }
    calls
}

fn evaluate(condition: &[u8], row: &[u64]) -> Call {
    Call::new(EVALUATE).bytes(condition).words(row).text(plain_text(b"abc", ROOM))
}

fn with(old: &[u8], new: &[u8]) -> Call {
    let call = Call::new(WITH).bytes(old).bytes(new);
    call.text(plain_text(b"abc", 0)).bytes_out(CONDITION_OUTPUT)
}

/// Forms on both sides of every bound, and every byte as a kind. The other
/// calls on conditions use them too.
pub fn forms() -> Vec<Vec<u8>> {
    let mut forms = forms_at_bounds();
    forms.extend((0..=255).flat_map(forms_of_kind));
    forms
}

/// As `forms`, with the bytes up to the greatest known kind and two more.
fn low_forms() -> Vec<Vec<u8>> {
    let mut forms = forms_at_bounds();
    forms.extend((0..=50).chain([255]).flat_map(forms_of_kind));
    forms
}

/// As `forms`, with one form of each kind, and all forms of the kinds next to
/// known ones.
pub fn most_forms() -> Vec<Vec<u8>> {
    let mut forms = some_forms();
    forms.extend((0..=255).map(|kind| vec![0, 0, kind]));
    forms
}

/// As `forms`, with the bytes next to known kinds only.
pub fn some_forms() -> Vec<Vec<u8>> {
    let mut forms = forms_at_bounds();
    forms.extend([3, 4, 5, 15, 19, 31, 47, 50, 255].into_iter().flat_map(forms_of_kind));
    forms
}

/// A kind alone, after one operand with a body, and after two.
fn forms_of_kind(kind: u8) -> [Vec<u8>; 3] {
    [vec![kind], [&[0, kind][..], &[0; 6]].concat(), vec![0, 0, kind]]
}

fn forms_at_bounds() -> Vec<Vec<u8>> {
    let full = full_tree(&[0], OR);
    let mut forms = cut_short();
    for tail in [&[][..], &[NOT], &[NOT, NOT], &[NOT, 99], &[NOT, 1, 2], &[NOT, 0], &[0], &[0, AND]]
    {
        forms.push([&full[..], tail].concat());
    }
    forms.push([&full[..], &[NOT], &nodes::text(9, 9)].concat());
    forms.push(vec![0; 64]);
    forms.push(vec![0; 65]);
    for count in [14, 15, 16, 17] {
        forms.push(chain(&[0], NOT, count));
        forms.push(chain(&nodes::int(5), 17, count));
        forms.push(left_chain(&nodes::int(1), PLUS, count));
        forms.push(right_chain(&nodes::int(1), PLUS, count));
        // The deeper operand is the left one, then the right one.
        forms.push(binary(AND, &chain(&nodes::int(1), NOT, count), &[0]));
        forms.push(binary(OR, &[0], &chain(&nodes::int(1), NOT, count)));
    }
    // Columns that are there and that are not, in either order.
    for (left, right) in [(0, 1), (1, 2), (2, 3), (3, 2), (255, 0)] {
        forms.push(binary(EQUAL, &nodes::column(left), &nodes::column(right)));
    }
    forms
}

fn cut_short() -> Vec<Vec<u8>> {
    let mut forms = Vec::new();
    for node in
        [nodes::int(258), nodes::text(0, 2), nodes::text(1, 0), nodes::name(0, 2), nodes::column(1)]
    {
        for length in 0..=node.len() {
            forms.push(node[..length].to_vec());
            forms.push([&[0][..], &node[..length]].concat());
        }
        forms.push(binary(EQUAL, &node, &node));
    }
    for (start, length) in [(0, 3), (0, 4), (3, 0), (4, 0), (2, 1), (3, 1), (0xffff_ffff, 65_535)] {
        forms.push(nodes::text(start, length));
        forms.push(nodes::name(start, length));
        forms.push(unary(NOT, &nodes::text(start, length)));
    }
    forms
}

/// Several defects in one condition, so that their order shows.
fn refused_first() -> Vec<Call> {
    let overflow = binary(PLUS, &nodes::int(i32::MAX), &nodes::int(1));
    let shift = binary(SHIFT_LEFT, &nodes::int(1), &nodes::int(32));
    let joined = too_long_joined();
    let no_column = nodes::column(7);
    let beyond = nodes::text(1000, 1);
    let parts = [overflow, shift, joined, no_column, beyond, vec![200], vec![0], nodes::int(0)];
    let mut calls = Vec::new();
    for left in &parts {
        for right in &parts {
            for kind in [EQUAL, PLUS, 41, AND, OR] {
                calls.push(long_text_evaluation(&binary(kind, left, right)));
            }
        }
        for kind in 16..=18 {
            calls.push(long_text_evaluation(&unary(kind, left)));
        }
    }
    calls
}

fn long_text_evaluation(condition: &[u8]) -> Call {
    let is_text = condition.contains(&2);
    let text = vec![b'q'; if is_text { LONG_LETTERS } else { 1 }];
    Call::new(EVALUATE).bytes(condition).words([0]).text(plain_text(&text, ROOM))
}

/// The right operand is not looked at where the left decides.
fn short_circuits() -> Vec<Call> {
    let overflow = unary(16, &nodes::int(i32::MIN));
    let row = [0, int_word(0), int_word(5), text_word(0, 0), text_word(0, 1), binary_word()];
    let mut calls = Vec::new();
    for kind in [AND, OR] {
        for number in 0..row.len() as u8 {
            calls.push(evaluate(&binary(kind, &nodes::column(number), &overflow), &row));
            calls.push(evaluate(&binary(kind, &overflow, &nodes::column(number)), &row));
            for other in 0..row.len() as u8 {
                let condition = binary(kind, &nodes::column(number), &nodes::column(other));
                calls.push(evaluate(&condition, &row));
            }
        }
    }
    calls
}

/// Joined texts, buffers and marks on both sides of their bounds.
fn texts_and_marks() -> Vec<Call> {
    let mut calls = Vec::new();
    let long = vec![b'l'; 1025];
    for (first, second) in [(1024, 0), (0, 1025), (1000, 24), (1, 1024)] {
        let joined = binary(PLUS, &nodes::text(0, first), &nodes::text(0, second));
        let room = Text { length: 1025 + ROOM, used: 1025, stored: long.clone() };
        calls.push(Call::new(EVALUATE).bytes(&joined[..]).words([0]).text(room.clone()));
        let row = [text_word(0, first), text_word(0, second)];
        let columns = binary(PLUS, &nodes::column(0), &nodes::column(1));
        calls.push(Call::new(EVALUATE).bytes(columns).words(row).text(room));
    }
    let many = full_tree(&nodes::text(0, 32), PLUS);
    calls.push(Call::new(EVALUATE).bytes(&many[..]).words([0]).text(plain_text(&[b'm'; 33], ROOM)));
    let over = full_tree(&nodes::text(0, 33), PLUS);
    calls.push(Call::new(EVALUATE).bytes(over).words([0]).text(plain_text(&[b'm'; 33], ROOM)));
    for text in [texts_at_bounds(b"abc"), texts_at_bounds(b"")].concat() {
        let condition = binary(PLUS, &nodes::text(0, 0), &nodes::text(0, 0));
        calls.push(Call::new(EVALUATE).bytes(condition).words([0]).text(text.clone()));
        calls.push(Call::new(EVALUATE).bytes([9]).words([]).text(text));
    }
    // Nearly all of the room: 28 joins of about 1,010 bytes.
    let most = Text { length: 1010 + ROOM, used: 1010, stored: vec![b'k'; 1010] };
    calls.push(Call::new(EVALUATE).bytes(most_joined()).words([0]).text(most));
    let top = Text { length: 65_536, used: ROOM as u64, stored: vec![b't'; ROOM] };
    let end = nodes::text(ROOM - 2, 2);
    calls.push(Call::new(EVALUATE).bytes(binary(PLUS, &end, &end)).words([0]).text(top));
    calls
}

/// Two chains of 14 joins each, compared.
pub fn most_joined() -> Vec<u8> {
    let step = [&nodes::text(0, 1)[..], &[PLUS]].concat();
    let joined = [nodes::text(0, 1010), step.repeat(14)].concat();
    binary(EQUAL, &joined, &joined)
}

fn row_lengths() -> Vec<Call> {
    let mut calls = Vec::new();
    for length in [0, 1, 2, 31, 32, 33] {
        let row: Vec<u64> = (0..length).map(int_word).collect();
        for number in [0, 1, 2, 30, 31, 32, 33, 255] {
            calls.push(evaluate(&nodes::column(number), &row));
        }
        calls.push(evaluate(&[77], &row));
    }
    for word in faults::cells(3) {
        for place in [0, 1, 2] {
            let mut row = vec![int_word(4); 3];
            row[place] = word;
            calls.push(evaluate(&[4, 3], &row));
            row[2] = 9;
            calls.push(evaluate(&[4], &row));
        }
        let mut row = vec![int_word(4); 31];
        row.push(word);
        calls.push(evaluate(&[4, 32], &row));
        row.push(0);
        calls.push(evaluate(&[0], &row));
    }
    calls
}

/// `with` where each condition is sound and the whole is on both sides of
/// the bounds, and where it isn't.
fn wholes() -> Vec<Call> {
    let full = full_tree(&[0], OR);
    let wide = |count: usize| left_chain(&nodes::column(2), PLUS, count);
    let mut parts =
        vec![full.clone(), unary(NOT, &full), vec![], vec![200], vec![0, 0], nodes::text(3, 1)];
    parts.extend([1, 7, 14, 15, 16].map(|count| chain(&[0], NOT, count)));
    parts.extend([1, 15, 16].map(wide));
    parts.push(full_tree(&nodes::name(0, 1), AND)[..].to_vec());
    // 31 nodes and depth 16; 32 and 33 nodes join to 64 and 65.
    parts.push(chain(&left_chain(&nodes::int(2), 40, 10), NOT, 1));
    parts.push(binary(OR, &wide(7), &wide(7)));
    parts.push(unary(NOT, &binary(OR, &wide(7), &wide(7))));
    parts.push(chain(&binary(OR, &wide(7), &wide(7)), NOT, 2));
    let mut calls = Vec::new();
    for old in &parts {
        calls.extend(parts.iter().map(|new| with(old, new)));
    }
    for length in [0, 1, 255, 256] {
        let name = nodes::name(0, length);
        let call = Call::new(WITH).bytes(&name[..]).bytes(&name[..]);
        calls.push(call.text(plain_text(&[b'n'; 256], 0)).bytes_out(CONDITION_OUTPUT));
    }
    for room in [0, 447, 448, 449] {
        let call = Call::new(WITH).bytes([0]).bytes([8]).text(plain_text(b"", 0));
        calls.push(call.bytes_out(room));
        let call = Call::new(WITH).bytes([0]).bytes([0]).text(plain_text(b"", 0));
        calls.push(call.bytes_out(room));
    }
    calls
}

pub fn random_evaluation(random: &mut Random) -> Call {
    let mut call = sound_evaluation(random);
    spoil::sometimes(random, &mut call);
    call
}

fn sound_evaluation(random: &mut Random) -> Call {
    let mut scene = Scene::new(random);
    let width = scene.random.pick(&[1, 1, 1, 1, 2, 2, 3]);
    let kinds: Vec<u64> = (0..width).map(|_| scene.any_kind()).collect();
    let row: Vec<u64> = kinds.iter().map(|&kind| scene.cell(kind)).collect();
    // Mostly small ones, so that many fit into the sample.
    let depth = match scene.random.below(40) {
        0 => 5,
        1..=3 => 4,
        4..=17 => 3,
        _ => 2,
    };
    let want = scene.random.pick(&[Want::Truth, Want::Truth, Want::Any, Want::Int, Want::Text]);
    let condition = scene.condition(want, &numbered(&kinds), depth);
    if !speaks_of_text(&condition, &row) {
        scene.text.clear();
    }
    let text = scene.text_with_room();
    Call::new(EVALUATE).bytes(condition).words(row).text(text)
}

fn speaks_of_text(condition: &[u8], row: &[u64]) -> bool {
    condition.contains(&2) || row.iter().any(|word| word >> 56 == 2)
}

pub fn random_with(random: &mut Random) -> Call {
    let mut scene = Scene::new(random);
    let (_, mut leaves) = scene.columns(2);
    leaves.extend((0..3).map(|kind| Leaf { kind, node: nodes::column(kind as u8) }));
    let depth = scene.random.pick(&[1, 1, 2, 2, 3]);
    let old = match scene.random.below(6) {
        0 => Vec::new(),
        _ => scene.condition(Want::Truth, &leaves, depth),
    };
    let new = scene.condition(Want::Truth, &leaves, depth);
    let text = scene.text_input(scene.text.len() % 3);
    let room = condition_output(random);
    let mut call = Call::new(WITH).bytes(old).bytes(new).text(text).bytes_out(room);
    spoil::sometimes(random, &mut call);
    call
}
