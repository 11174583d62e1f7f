//! Inner and left joins of rows.

use super::conditions::some_forms;
use super::faults;
use super::nested;
use super::nodes::{self, *};
use super::scene::{bound, fit_output, plain_text, texts_at_bounds, Scene, Want};
use super::spoil;
use crate::call::*;
use crate::random::Random;

const RANDOM: usize = 160;

pub fn calls(random: &mut Random) -> Vec<Call> {
    let mut calls = Vec::new();
    for kind in [INNER_JOIN, LEFT_JOIN] {
        calls.extend(counts(kind));
        calls.extend(refusal_order(kind));
        calls.extend(pairs(kind));
        calls.extend(buffers(kind));
        calls.extend(joined_texts(kind));
        calls.extend(some_forms().iter().map(|form| small(kind, form)));
        calls.extend(faulty_words(kind));
        calls.extend(full(kind));
    }
    for _ in 0..RANDOM {
        calls.push(random_join(random));
    }
    calls.extend(nested::calls(random));
    calls
}

#[derive(Clone)]
struct Given {
    left_columns: Vec<u64>,
    left_rows: Vec<u64>,
    right_columns: Vec<u64>,
    right_rows: Vec<u64>,
    condition: Vec<u8>,
}

impl Given {
    fn call(&self, kind: u8, text: Text, room: usize) -> Call {
        let call = Call::new(kind).words(&self.left_columns[..]).words(&self.left_rows[..]);
        let call = call.words(&self.right_columns[..]).words(&self.right_rows[..]);
        call.bytes(&self.condition[..]).text(text).words_out(room)
    }
}

fn room() -> Text {
    plain_text(b"abc", ROOM)
}

fn ints(numbers: &[i32]) -> Vec<u64> {
    numbers.iter().map(|&number| int_word(number)).collect()
}

/// Document 01's example 14.
fn plain(condition: &[u8]) -> Given {
    Given {
        left_columns: vec![text_word(0, 1), 1],
        left_rows: ints(&[1, 2, 3]),
        right_columns: vec![text_word(1, 1), 1],
        right_rows: ints(&[3, 1, 1]),
        condition: condition.to_vec(),
    }
}

/// One row on each side.
fn small(kind: u8, condition: &[u8]) -> Call {
    let mut given = plain(condition);
    given.left_rows.truncate(1);
    given.right_rows.truncate(1);
    given.call(kind, room(), 2)
}

fn equality() -> Vec<u8> {
    binary(EQUAL, &nodes::column(0), &nodes::column(1))
}

/// Columns of both sides together, and rows of each, around their bounds.
fn counts(kind: u8) -> Vec<Call> {
    let mut calls = Vec::new();
    let column = |count: usize| letter_columns(count, 1);
    for (left, right) in
        [(0, 1), (1, 0), (1, 31), (31, 1), (16, 16), (17, 16), (1, 32), (32, 1), (33, 0)]
    {
        let mut given = plain(&[4, 31]);
        (given.left_columns, given.right_columns) = (column(left), column(right));
        given.left_rows = vec![int_word(1); left];
        given.right_rows = vec![int_word(2); right];
        calls.push(given.call(kind, plain_text(LETTERS, ROOM), left + right));
    }
    // Rows 0 and 3,000 of the longer side have a pair.
    let rows = |count| -> Vec<u64> { (0..count).map(|n| int_word(n % 3000 + 5)).collect() };
    // To keep the sample small, each kind has one too many on one side only.
    let many = if kind == LEFT_JOIN { (4097, 1) } else { (1, 4097) };
    for (left, right) in [(4096, 1), (1, 4096), many] {
        let mut given = plain(&equality());
        (given.left_rows, given.right_rows) = (rows(left), rows(right));
        calls.push(given.call(kind, room(), 8192));
    }
    for part in 0..4 {
        let mut given = plain(&equality());
        match part {
            0 => given.left_columns.push(text_word(0, 1)),
            1 => given.right_columns.push(text_word(0, 1)),
            2 => given.left_columns.extend_from_slice(&[text_word(0, 1), 1]),
            _ => given.right_columns.extend_from_slice(&[text_word(0, 1), 1]),
        }
        calls.push(given.call(kind, room(), 20));
    }
    calls
}

/// As many pairs as a table may have rows, and one word of output too few;
/// refusals in a late pair, after pairs that are listed.
fn full(kind: u8) -> Vec<Call> {
    let rows = |count| -> Vec<u64> { (0..count).map(int_word).collect() };
    let mut given = plain(&nodes::int(1));
    (given.left_rows, given.right_rows) = (rows(64), rows(64));
    let mut calls = vec![given.call(kind, room(), 8191)];
    (given.left_rows, given.right_rows) = (rows(16), rows(16));
    let sum = binary(PLUS, &nodes::column(0), &nodes::column(1));
    // Over the greatest Int from 14 + 15 on.
    given.condition = binary(PLUS, &sum, &nodes::int(i32::MAX - 28));
    calls.push(given.call(kind, room(), 512));
    // An amount of 32 where 15 stands on both sides.
    let is_last = binary(EQUAL, &sum, &nodes::int(30));
    let amount = binary(40, &is_last, &nodes::int(32));
    given.condition = binary(SHIFT_LEFT, &nodes::int(1), &amount);
    calls.push(given.call(kind, room(), 512));
    calls
}

/// All pairs of defects, one for each step of the order.
fn refusal_order(kind: u8) -> Vec<Call> {
    type Defect = fn(&mut Given, &mut Text);
    let defects: [Defect; 13] = [
        |_, text| text.length = text.stored.len() + ROOM - 1,
        |given, _| given.right_columns.push(1),
        |given, _| given.left_columns[0] = text_word(9, 1),
        |given, _| given.right_columns[1] = 1 << 10 | 1,
        |given, _| given.right_columns[0] = text_word(3, 0),
        |given, _| given.left_rows[1] = text_word(3, 1),
        |given, _| given.right_rows[2] = 5,
        |given, _| given.condition.clear(),
        |given, _| given.condition.push(99),
        |given, _| given.condition = nodes::column(2),
        |given, _| given.condition = binary(PLUS, &nodes::column(1), &nodes::int(i32::MAX)),
        |given, _| {
            given.condition =
                binary(SHIFT_LEFT, &nodes::int(1), &binary(40, &nodes::column(0), &nodes::int(11)))
        },
        |given, _| given.right_rows.clear(),
    ];
    let mut calls = Vec::new();
    for first in defects {
        for second in defects {
            let mut given = plain(&equality());
            given.right_rows = ints(&[-3, -1, -1]);
            let mut text = room();
            first(&mut given, &mut text);
            if given.right_rows.is_empty() {
                given.right_rows = ints(&[-3, -1, 1]);
            }
            second(&mut given, &mut text);
            calls.push(given.call(kind, text, 1));
        }
    }
    calls
}

/// Conditions under which different pairs are true, the last one or not.
fn pairs(kind: u8) -> Vec<Call> {
    let [left, right] = [0, 1].map(nodes::column);
    let mut conditions: Vec<Vec<u8>> = (32..=37).map(|kind| binary(kind, &left, &right)).collect();
    conditions.extend([vec![0], nodes::int(1), left.clone(), right.clone()]);
    conditions.push(binary(41, &nodes::int(i32::MIN), &right));
    conditions.push(binary(PLUS, &right, &nodes::int(i32::MAX - 2)));
    conditions.push(binary(
        AND,
        &binary(EQUAL, &left, &nodes::int(2)),
        &binary(45, &left, &nodes::int(33)),
    ));
    let tables = [vec![], ints(&[1, 2, 3]), ints(&[3, 0, 3]), vec![0, int_word(-1)]];
    let mut calls = Vec::new();
    for condition in conditions {
        for left_rows in &tables {
            for right_rows in &tables {
                let mut given = plain(&condition);
                (given.left_rows, given.right_rows) = (left_rows.clone(), right_rows.clone());
                calls.push(given.call(kind, room(), 18));
            }
        }
    }
    calls
}

/// Faulty words in each part, before a condition that is faulty too.
fn faulty_words(kind: u8) -> Vec<Call> {
    let mut calls = Vec::new();
    for length in [255, 256] {
        let mut given = plain(&equality());
        given.right_columns[0] = text_word(0, length);
        calls.push(given.call(kind, plain_text(&[b'n'; 256], ROOM), 8));
        given.left_columns[0] = text_word(0, length);
        calls.push(given.call(kind, plain_text(&[b'n'; 256], ROOM), 8));
    }
    for column in faults::columns(3) {
        let mut given = plain(&[99]);
        given.right_columns = column.to_vec();
        calls.push(given.call(kind, room(), 8));
        given.left_columns = column.to_vec();
        calls.push(given.call(kind, room(), 8));
    }
    for cell in faults::cells(3) {
        let mut given = plain(&equality());
        given.right_rows[1] = cell;
        calls.push(given.call(kind, room(), 18));
        given.left_rows[2] = cell;
        calls.push(given.call(kind, room(), 18));
    }
    calls
}

fn buffers(kind: u8) -> Vec<Call> {
    let mut calls = Vec::new();
    for condition in [vec![], equality()] {
        let given = plain(&condition);
        for length in 0..10 {
            calls.push(given.call(kind, room(), length));
        }
        for text in texts_at_bounds(b"abc") {
            calls.push(given.call(kind, text, 8));
        }
    }
    // A refusal in the last pair comes before an output too short for the first.
    let overflow =
        binary(40, &nodes::column(0), &binary(40, &nodes::column(1), &nodes::int(1 << 28)));
    let mut given = plain(&overflow);
    given.right_rows = ints(&[1, 1, 3]);
    calls.push(given.call(kind, room(), 0));
    calls
}

/// The room is free again for each pair, and 7 has the pair as its place.
fn joined_texts(kind: u8) -> Vec<Call> {
    let joined = binary(PLUS, &nodes::column(0), &nodes::column(1));
    let mut given = plain(&binary(EQUAL, &joined, &nodes::text(0, 505)));
    given.left_rows = [0, 512, 500, 3].map(|length| text_word(0, length)).to_vec();
    given.right_rows = (0..12).map(|step| text_word(0, 512 - step)).collect();
    let text = || plain_text(&[b'j'; 513], ROOM);
    let mut calls = vec![given.call(kind, text(), 12)];
    given.right_rows[7] = text_word(0, 513);
    calls.push(given.call(kind, text(), 12));
    calls
}

pub fn random_join(random: &mut Random) -> Call {
    let kind = random.pick(&[INNER_JOIN, LEFT_JOIN]);
    let mut scene = Scene::new(random);
    let (left_count, right_count) = (scene.random.between(1, 2), scene.random.between(1, 2));
    let (left_columns, _) = scene.columns(left_count);
    let (right_columns, _) = scene.columns(right_count);
    let row_counts = [0, 1, 2, 2, 3, 3, 4].map(|_| scene.random.below(5));
    let left_rows = scene.rows(&left_columns, row_counts[0]);
    let right_rows = scene.rows(&right_columns, row_counts[1]);
    let leaves = bound(&[&left_columns[..], &right_columns].concat());
    let depth = scene.random.pick(&[2, 2, 3, 4]);
    let condition = scene.condition(Want::Truth, &leaves, depth);
    let text = scene.text_with_room();
    let given = Given { left_columns, left_rows, right_columns, right_rows, condition };
    let mut call = given.call(kind, text, 0);
    spoil::sometimes(random, &mut call);
    fit_output(random, &mut call);
    call
}
