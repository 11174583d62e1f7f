//! Larger calls than the recorded sample can hold: tables of up to 32 columns
//! and some dozens of rows, conditions of up to 64 nodes and a few more, and
//! texts that are too long when they are joined.

use cases::answer::model_answer;
use cases::call::*;
use cases::generate::inserting::rows as valid_rows;
use cases::generate::nodes::{self, int_word, AND, EQUAL, NOT, OR, PLUS, ROOM};
use cases::generate::scene::{bound, plain_text, Leaf, Scene, Want};
use cases::generate::spoil;
use cases::random::Random;

const LONG: usize = 1030;
const KEY: u64 = 1 << 9;
/// More elements than any of these calls writes.
const MOST_WORDS: usize = 1 << 13;
const MOST_PRINTED: usize = 1 << 16;

pub fn wide_call(random: &mut Random) -> Call {
    let draws = [evaluation, row_call, join, insert, on_names, joined_columns];
    let mut call = random.pick(&draws)(random);
    if random.one_in(6) {
        spoil::one_defect(random, &mut call);
    }
    fit(random, &mut call);
    call
}

/// Makes an output for rows or printing just enough, or nearly.
fn fit(random: &mut Random, call: &mut Call) {
    if matches!(call.number, FOLD | BIND | WITH) {
        return;
    }
    call.set_output_length(if call.number == PRINT { MOST_PRINTED } else { MOST_WORDS });
    let needed = model_answer(call).map_or(0, |answer| answer.output.len());
    call.set_output_length(match random.below(8) {
        0 => needed.saturating_sub(1),
        1 => needed + 3,
        _ => needed,
    });
}

/// A text with a long run, and a leaf of it that can hardly be joined.
fn scene_with_long_text(random: &mut Random) -> (Scene<'_>, Leaf) {
    let mut scene = Scene::new(random);
    let start = scene.text.len();
    scene.text.extend((0..LONG).map(|index| b"wide "[index % 5]));
    let length = scene.random.between(1010, LONG);
    (scene, Leaf { kind: 2, node: nodes::text(start, length) })
}

/// The last leaf, a long text, joined to another text: too long, or nearly.
fn long_joined(scene: &mut Scene, leaves: &[Leaf]) -> Vec<u8> {
    let texts: Vec<&Leaf> = leaves.iter().filter(|leaf| leaf.kind == 2).collect();
    let long = &texts[texts.len() - 1].node;
    let other = &texts[scene.random.below(texts.len() - 1)].node;
    nodes::binary(EQUAL, &nodes::binary(PLUS, long, other), long)
}

/// Conditions side by side, under signs.
fn condition(scene: &mut Scene, leaves: &[Leaf]) -> Vec<u8> {
    let mut whole = match scene.random.one_in(5) {
        true => long_joined(scene, leaves),
        false => scene.condition(Want::Truth, leaves, 3),
    };
    for _ in 0..scene.random.below(10) {
        let next = scene.condition(Want::Truth, leaves, 3);
        let kind = scene.random.pick(&[AND, OR, AND, OR, 32, 33, 34, 42, 43, 44]);
        whole = match scene.random.one_in(2) {
            true => nodes::binary(kind, &whole, &next),
            false => nodes::binary(kind, &next, &whole),
        };
    }
    let signs = scene.random.pick(&[0, 0, 1, 2, 5, 9]);
    nodes::chain(&whole, NOT, signs)
}

fn evaluation(random: &mut Random) -> Call {
    let (mut scene, long) = scene_with_long_text(random);
    let width = scene.random.between(1, 32);
    let (columns, _) = scene.columns(width);
    let row = scene.rows(&columns, 1);
    let mut leaves = bound(&columns);
    leaves.push(long);
    let condition = condition(&mut scene, &leaves);
    let text = plain_text(&scene.text, ROOM);
    if scene.random.one_in(2) {
        return Call::new(FOLD).bytes(condition).text(text).bytes_out(448);
    }
    Call::new(EVALUATE).bytes(condition).words(row).text(text)
}

fn row_call(random: &mut Random) -> Call {
    let (mut scene, long) = scene_with_long_text(random);
    let width = scene.random.between(1, 32);
    let (columns, _) = scene.columns(width);
    let count = scene.random.below(40);
    let rows = scene.rows(&columns, count);
    let mut leaves = bound(&columns);
    leaves.push(long);
    let condition = condition(&mut scene, &leaves);
    let text = plain_text(&scene.text, ROOM);
    let kind = scene.random.pick(&[SELECT, DELETE, UPDATE]);
    let call = Call::new(kind).words(&columns[..]).words(rows);
    let call = match kind {
        SELECT => call.words(list(&mut scene, width)),
        UPDATE => call.words(sets(&mut scene, &columns)),
        _ => call,
    };
    call.bytes(condition).text(text).words_out(0)
}

fn list(scene: &mut Scene, width: usize) -> Vec<u64> {
    (0..scene.random.below(33)).map(|_| scene.random.below(width) as u64).collect()
}

fn sets(scene: &mut Scene, columns: &[u64]) -> Vec<u64> {
    let mut sets = Vec::new();
    for _ in 0..scene.random.below(65) {
        let number = scene.random.below(columns.len() / 2);
        let cell = valid_rows(scene, &columns[2 * number..2 * number + 2], 1, 60);
        sets.extend([number as u64, cell[0]]);
    }
    sets
}

fn join(random: &mut Random) -> Call {
    let (mut scene, long) = scene_with_long_text(random);
    let left_width = scene.random.between(1, 31);
    let right_width = scene.random.between(1, 32 - left_width);
    let (left_columns, _) = scene.columns(left_width);
    let (right_columns, _) = scene.columns(right_width);
    let (left_count, right_count) = (scene.random.below(16), scene.random.below(16));
    let left = scene.rows(&left_columns, left_count);
    let right = scene.rows(&right_columns, right_count);
    let mut leaves = bound(&[&left_columns[..], &right_columns].concat());
    leaves.push(long);
    let condition = condition(&mut scene, &leaves);
    let text = plain_text(&scene.text, ROOM);
    let kind = scene.random.pick(&[INNER_JOIN, LEFT_JOIN]);
    let call = Call::new(kind).words(left_columns).words(left).words(right_columns).words(right);
    call.bytes(condition).text(text).words_out(0)
}

/// Mostly distinct keys, in no order.
fn insert(random: &mut Random) -> Call {
    let mut scene = Scene::new(random);
    let width = scene.random.between(1, 32);
    let (mut columns, _) = scene.columns(width);
    columns[1] = 1 | KEY;
    let old_count = scene.random.below(40);
    let count = old_count + scene.random.below(40);
    let mut rows = valid_rows(&mut scene, &columns, count, 400);
    for (index, row) in rows.chunks_exact_mut(width).enumerate() {
        row[0] = int_word((index * 89 % 211) as i32);
    }
    if count > 1 && scene.random.one_in(3) {
        let [first, second] = [0, 1].map(|_| width * scene.random.below(count));
        rows[first] = rows[second];
    }
    let text = plain_text(&scene.text, 0);
    let (old, new) = rows.split_at(old_count * width);
    Call::new(INSERT).words(columns).words(old).words(new).text(text).words_out(0)
}

/// Binding, printing and `with`, over names.
fn on_names(random: &mut Random) -> Call {
    let (mut scene, long) = scene_with_long_text(random);
    let width = scene.random.between(1, 32);
    let (columns, mut leaves) = scene.columns(width);
    leaves.push(long);
    let first = condition(&mut scene, &leaves);
    let second = scene.condition(Want::Truth, &leaves, 4);
    let text = plain_text(&scene.text, ROOM);
    match scene.random.below(3) {
        0 => Call::new(BIND).bytes(first).words(columns).text(text).bytes_out(448),
        1 => Call::new(PRINT).bytes(first).text(text).bytes_out(0),
        _ => Call::new(WITH).bytes(first).bytes(second).text(text).bytes_out(448),
    }
}

/// Names up to their bound, with a table's name or without.
fn joined_columns(random: &mut Random) -> Call {
    let (mut scene, _) = scene_with_long_text(random);
    let left_width = scene.random.between(1, 31);
    let right_width = scene.random.between(1, 32 - left_width);
    let (mut left, _) = scene.columns(left_width);
    let (right, _) = scene.columns(right_width);
    let longest = scene.random.between(1, 255);
    left[0] = nodes::text_word(0, longest);
    let [left_name, right_name] = [0, 1].map(|_| {
        let length = scene.random.pick(&[0, 1, 20, 254 - longest.min(254), 255 - longest]);
        vec![b't'; length]
    });
    let text = plain_text(&scene.text, ROOM);
    let kind = scene.random.pick(&[INNER_JOIN_COLUMNS, LEFT_JOIN_COLUMNS]);
    let call = Call::new(kind).bytes(left_name).words(left).bytes(right_name).words(right);
    call.text(text).words_out(0)
}
