//! A select over an inner or left join.

use super::nodes::{self, *};
use super::scene::{bound, fit_output, plain_text, Scene, Want};
use super::spoil;
use crate::call::*;
use crate::random::Random;

const RANDOM: usize = 130;

pub fn calls(random: &mut Random) -> Vec<Call> {
    let mut calls = Vec::new();
    for kind in [SELECT_INNER_JOIN, SELECT_LEFT_JOIN] {
        calls.extend(selects(kind));
        calls.extend(tables(kind));
        calls.extend(refusals(kind));
        calls.extend(names_and_room(kind));
    }
    calls.extend(many_rows());
    for _ in 0..RANDOM {
        calls.push(random_nested(random));
    }
    calls
}

#[derive(Clone)]
struct Given {
    names: [Vec<u8>; 2],
    columns: [Vec<u64>; 2],
    rows: [Vec<u64>; 2],
    on: Vec<u8>,
    list: Vec<u64>,
    condition: Vec<u8>,
}

impl Given {
    fn call(&self, kind: u8, text: Text, room: usize) -> Call {
        let mut call = Call::new(kind);
        for side in 0..2 {
            call = call.bytes(&self.names[side][..]).words(&self.columns[side][..]);
            call = call.words(&self.rows[side][..]);
        }
        call = call.bytes(&self.on[..]).words(&self.list[..]).bytes(&self.condition[..]);
        call.text(text).words_out(room)
    }
}

/// The names `L.a`, `R.b` and `R.c` take so many bytes.
const NAMES: usize = 9;

fn room() -> Text {
    plain_text(b"abc", ROOM + NAMES)
}

/// Grid entries, and clues with a text; the second entry has none.
fn plain() -> Given {
    let clues = [(3, 0), (1, 1), (1, 2)];
    let clues = clues.map(|(entry, start)| [int_word(entry), text_word(start, 1)]);
    Given {
        names: [b"L".to_vec(), b"R".to_vec()],
        columns: [vec![text_word(0, 1), 1], vec![text_word(1, 1), 1, text_word(2, 1), 2]],
        rows: [[1, 2, 3].map(int_word).to_vec(), clues.concat()],
        on: binary(EQUAL, &nodes::column(0), &nodes::column(1)),
        list: vec![],
        condition: vec![],
    }
}

fn is_null(number: u8) -> Vec<u8> {
    binary(EQUAL, &nodes::column(number), &[0])
}

/// Lists and conditions over joined rows, padded ones among them.
fn selects(kind: u8) -> Vec<Call> {
    let [left, entry] = [0, 1].map(nodes::column);
    let conditions = [
        vec![],
        is_null(1),
        unary(NOT, &is_null(1)),
        binary(LESS, &left, &nodes::int(3)),
        binary(EQUAL, &nodes::column(2), &nodes::text(1, 1)),
        binary(AND, &is_null(2), &binary(EQUAL, &left, &nodes::int(2))),
        entry,
    ];
    let mut calls = Vec::new();
    for condition in conditions {
        for list in [vec![], vec![0], vec![2, 0, 2]] {
            let given = Given { list, condition: condition.clone(), ..plain() };
            calls.push(given.call(kind, room(), 12));
        }
    }
    calls
}

/// Empty sides, rows that stand twice, and right rows of Nulls, which are
/// pairs where they match.
fn tables(kind: u8) -> Vec<Call> {
    let mut calls = Vec::new();
    let clue = [int_word(1), text_word(0, 1)];
    let rights = [vec![], vec![0, 0], vec![0; 4], clue.repeat(2)];
    for left in [vec![], vec![int_word(1)], vec![0, int_word(1), int_word(1)]] {
        for right in &rights {
            let mut given = plain();
            given.rows = [left.clone(), right.clone()];
            given.condition = is_null(1);
            calls.push(given.call(kind, room(), 18));
        }
    }
    for condition in [vec![], is_null(1)] {
        let mut given = Given { on: nodes::int(1), condition, ..plain() };
        given.rows[1] = vec![0; 4];
        calls.push(given.call(kind, room(), 18));
    }
    calls
}

/// Refusals of each of the three calls, the first one also before the others.
fn refusals(kind: u8) -> Vec<Call> {
    let overflow = |number| binary(PLUS, &nodes::column(number), &nodes::int(i32::MAX - 2));
    let amount = |number| {
        let is_three = binary(EQUAL, &nodes::column(number), &nodes::int(3));
        binary(SHIFT_LEFT, &nodes::int(1), &binary(40, &is_three, &nodes::int(32)))
    };
    type Defect = Box<dyn Fn(&mut Given)>;
    let defects: Vec<Defect> = vec![
        Box::new(|given| given.columns[1][3] = 4),
        Box::new(|given| given.rows[0][1] = text_word(3, 1)),
        Box::new(|given| given.on.clear()),
        Box::new(move |given| given.on = overflow(0)),
        Box::new(move |given| given.on = amount(1)),
        Box::new(|given| given.list = vec![0, 3]),
        Box::new(|given| given.list = vec![0; 33]),
        Box::new(|given| given.condition = binary(EQUAL, &nodes::column(0), &nodes::column(3))),
        Box::new(|given| given.condition = vec![99]),
        Box::new(move |given| given.condition = overflow(0)),
        Box::new(move |given| given.condition = amount(1)),
        Box::new(move |given| given.condition = amount(0)),
    ];
    let mut calls = Vec::new();
    for first in 0..defects.len() {
        let mut given = plain();
        defects[first](&mut given);
        calls.push(given.call(kind, room(), 12));
        // A defect of a later call too, and no output.
        defects[(first + 5).min(defects.len() - 2)](&mut given);
        calls.push(given.call(kind, room(), 0));
    }
    let mut given = plain();
    given.rows[0].swap(0, 2);
    for condition in [overflow(0), amount(0)] {
        given.condition = condition;
        calls.push(given.call(kind, room(), 12));
    }
    calls.extend([5, 6, 8, 9, 11].map(|room_out| plain().call(kind, room(), room_out)));
    calls
}

/// Table names, and the room that the new names leave.
fn names_and_room(kind: u8) -> Vec<Call> {
    let mut calls = Vec::new();
    let lengths = [0, 1, 253, 254, 255, 256];
    for name in lengths.map(|length| vec![b'n'; length]) {
        let mut given = plain();
        given.names[1] = name.clone();
        calls.push(given.call(kind, plain_text(b"abc", ROOM + 600), 12));
    }
    let mut given = plain();
    given.names = [b"T".to_vec(), b"T".to_vec()];
    calls.push(given.call(kind, room(), 12));
    given.names = [vec![], vec![]];
    calls.push(given.call(kind, plain_text(b"abc", ROOM), 12));
    for condition in [vec![], is_null(1)] {
        given = Given { condition, ..plain() };
        for above in [ROOM - 1, ROOM, ROOM + NAMES - 1, ROOM + NAMES + 1] {
            calls.push(given.call(kind, plain_text(b"abc", above), 12));
        }
    }
    calls
}

/// As many joined rows as select may be lent, one row of the left side more,
/// and more words than a join has room for on the way.
fn many_rows() -> Vec<Call> {
    let rows = |count| -> Vec<u64> { (0..count).map(int_word).collect() };
    let mut given = Given { on: nodes::int(1), ..plain() };
    given.columns[1].truncate(2);
    given.condition = binary(EQUAL, &nodes::column(0), &nodes::column(1));
    given.rows = [rows(64), rows(64)];
    let mut calls = vec![given.call(SELECT_INNER_JOIN, room(), 128)];
    given.rows[0] = rows(65);
    calls.push(given.call(SELECT_LEFT_JOIN, room(), 128));
    given = Given { rows: given.rows, on: given.on, ..plain() };
    given.rows[0].truncate(48);
    given.rows[1] = rows(128);
    calls.push(given.call(SELECT_INNER_JOIN, room(), 8200));
    calls
}

pub fn random_nested(random: &mut Random) -> Call {
    let kind = random.pick(&[SELECT_INNER_JOIN, SELECT_LEFT_JOIN, SELECT_LEFT_JOIN]);
    let mut scene = Scene::new(random);
    let counts = [1, 2].map(|most| scene.random.between(1, most));
    let columns = counts.map(|count| scene.columns(count).0);
    let rows = [&columns[0], &columns[1]].map(|columns| {
        let count = scene.random.below(5);
        scene.rows(columns, count)
    });
    let leaves = bound(&columns.concat());
    let depth = scene.random.pick(&[2, 2, 3]);
    let on = scene.condition(Want::Truth, &leaves, depth);
    let depth = scene.random.pick(&[2, 2, 3]);
    let condition = match scene.random.below(4) {
        0 => vec![],
        _ => scene.condition(Want::Truth, &leaves, depth),
    };
    let length = scene.random.pick(&[0, 0, 1, 2, 3]);
    let list = (0..length).map(|_| scene.random.below(leaves.len()) as u64).collect();
    let names = [0, 1].map(|_| scene.random.pick(&["", "T", "U", "tab"]).as_bytes().to_vec());
    let above = scene.random.pick(&[100, 100, 100, 100, 100, 20, 0]);
    let text = scene.text_input(ROOM + above);
    let mut call = Given { names, columns, rows, on, list, condition }.call(kind, text, 0);
    spoil::sometimes(random, &mut call);
    fit_output(random, &mut call);
    call
}
