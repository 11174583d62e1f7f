//! Select, delete and update.

use super::conditions::some_forms;
use super::faults;
use super::nodes::{self, *};
use super::scene::{bound, fit_output, plain_text, texts_at_bounds, Scene, Want};
use super::spoil;
use crate::call::*;
use crate::random::Random;

const RANDOM: usize = 180;

pub fn calls(random: &mut Random) -> Vec<Call> {
    let mut calls = Vec::new();
    for kind in [SELECT, DELETE, UPDATE] {
        calls.extend(counts(kind));
        calls.extend(refusal_order(kind));
        calls.extend(buffers(kind));
        calls.extend(refused_rows(kind));
        calls.extend(joined_texts(kind));
        calls.extend(some_forms().iter().map(|form| small(kind, form)));
        calls.extend(faulty_words(kind));
    }
    calls.extend(lists());
    calls.extend(sets());
    for _ in 0..RANDOM {
        calls.push(random_call(random));
    }
    calls
}

/// A row call; the third words are select's list or update's sets.
struct Given {
    columns: Vec<u64>,
    rows: Vec<u64>,
    third: Vec<u64>,
    condition: Vec<u8>,
}

impl Given {
    fn call(&self, kind: u8, text: Text, room: usize) -> Call {
        let call = Call::new(kind).words(&self.columns[..]).words(&self.rows[..]);
        let call = if kind == DELETE { call } else { call.words(&self.third[..]) };
        call.bytes(&self.condition[..]).text(text).words_out(room)
    }
}

/// Two columns, an Int and a nullable text, and three rows.
fn plain(condition: &[u8]) -> Given {
    let rows = [int_word(1), text_word(0, 1), int_word(2), 0, int_word(i32::MAX), text_word(0, 2)];
    Given {
        columns: vec![text_word(0, 1), 1, text_word(1, 1), 2 | 1 << 8],
        rows: rows.to_vec(),
        third: Vec::new(),
        condition: condition.to_vec(),
    }
}

fn small(kind: u8, condition: &[u8]) -> Call {
    let mut given = plain(condition);
    given.rows.truncate(2);
    given.call(kind, plain_text(b"abc", ROOM), 2)
}

/// Columns, rows, list entries and sets on both sides of their bounds.
fn counts(kind: u8) -> Vec<Call> {
    let text = || plain_text(LETTERS, ROOM);
    let mut calls = Vec::new();
    for count in [0, 1, 31, 32, 33] {
        let mut given = plain(&[4, 0]);
        given.columns = letter_columns(count, 1);
        given.rows = (0..count as i32).map(int_word).collect();
        calls.push(given.call(kind, text(), count));
        given.rows.push(0);
        calls.push(given.call(kind, text(), count + 1));
        given.columns.push(text_word(0, 1));
        calls.push(given.call(kind, text(), count + 1));
    }
    for rows in [0, 4096, 4097] {
        let (first, limit) = (nodes::column(0), nodes::int(4090));
        // Few rows are selected or kept; update writes all, every second one changed.
        let mut given = plain(&match kind {
            SELECT => binary(LESS, &limit, &first),
            DELETE => binary(LESS, &first, &limit),
            _ => binary(BITS_AND, &first, &nodes::int(1)),
        });
        given.columns = vec![text_word(0, 1), 1];
        given.rows = (0..rows).map(int_word).collect();
        if kind == UPDATE {
            given.third = vec![0, int_word(-1)];
        }
        calls.push(given.call(kind, text(), 4096));
    }
    let thirds = if kind == SELECT { [0, 1, 2, 31, 32, 33] } else { [1, 2, 127, 128, 129, 130] };
    for third in thirds {
        let mut given = plain(&[4, 0]);
        let set = [0, int_word(third as i32)];
        given.third =
            if kind == SELECT { vec![1; third] } else { set.repeat(65)[..third].to_vec() };
        calls.push(given.call(kind, text(), 3 * third.max(2)));
        given.third.iter_mut().for_each(|word| *word = 99);
        calls.push(given.call(kind, text(), 3 * third.max(2)));
    }
    calls
}

/// One defect for each step of document 01's order; all pairs of them show
/// which comes first.
fn refusal_order(kind: u8) -> Vec<Call> {
    type Defect = fn(&mut Given, &mut Text);
    let defects: [Defect; 14] = [
        |_, text| text.length = text.stored.len() + ROOM - 1,
        |given, _| given.columns.push(1),
        |given, _| given.rows.push(0),
        |given, _| given.columns[2] = int_word(1),
        |given, _| given.columns[3] = 1 << 16 | 3,
        |given, _| given.columns[0] = text_word(3, 1),
        |given, _| given.rows[1] = 3 << 56 | 5,
        |given, _| given.rows[4] = text_word(0, 9),
        |given, _| given.third = vec![1, 0, 2, 0],
        |given, _| given.third = vec![0, 0, 1, int_word(1)],
        |given, _| given.condition = vec![0, 0],
        |given, _| given.condition.splice(..0, [4, 2]).for_each(drop),
        |given, _| given.condition = unary(NOT, &binary(PLUS, &nodes::int(1), &nodes::column(0))),
        |given, _| given.third = vec![0; 129],
    ];
    let mut calls = Vec::new();
    for first in defects {
        for second in defects {
            let mut given = plain(&binary(33, &nodes::column(0), &nodes::int(1)));
            let mut text = plain_text(b"abc", ROOM);
            first(&mut given, &mut text);
            second(&mut given, &mut text);
            // An output that is too short comes last of all.
            calls.push(given.call(kind, text, 1));
        }
    }
    calls
}

/// Faulty words in each part, before a condition that is faulty too.
fn faulty_words(kind: u8) -> Vec<Call> {
    let mut calls = Vec::new();
    for length in [255, 256] {
        let mut given = plain(&[]);
        given.columns[2] = text_word(0, length);
        calls.push(given.call(kind, plain_text(&[b'n'; 256], 0), 6));
    }
    for column in faults::columns(3) {
        let mut given = plain(&[99]);
        given.columns[2..].copy_from_slice(&column);
        calls.push(given.call(kind, plain_text(b"abc", ROOM), 6));
    }
    for cell in faults::cells(3) {
        for place in [0, 5] {
            let mut given = plain(&[4, 0]);
            given.rows[place] = cell;
            calls.push(given.call(kind, plain_text(b"abc", ROOM), 6));
        }
        let given = Given { third: vec![0, 0, 1, cell], ..plain(&[]) };
        calls.push(given.call(kind, plain_text(b"abc", ROOM), 6));
        let given = Given { third: vec![0, int_word(1), 1, cell], ..plain(&[]) };
        calls.push(given.call(kind, plain_text(b"abc", ROOM), 6));
    }
    calls
}

fn buffers(kind: u8) -> Vec<Call> {
    let mut calls = Vec::new();
    for condition in
        [vec![], binary(36, &nodes::column(0), &nodes::int(1)), nodes::int(0), nodes::int(1)]
    {
        let given = plain(&condition);
        for room in [0, 1, 2, 3, 5, 6] {
            calls.push(given.call(kind, plain_text(b"abc", ROOM), room));
        }
        if condition.len() != 5 {
            let texts = texts_at_bounds(b"abc").into_iter();
            calls.extend(texts.map(|text| given.call(kind, text, 6)));
        }
    }
    // The last row overflows; the output may be too short for those before.
    let overflow = binary(PLUS, &nodes::column(0), &nodes::int(1));
    for condition in [unary(NOT, &overflow), overflow] {
        for room in 0..8 {
            calls.push(plain(&condition).call(kind, plain_text(b"abc", ROOM), room));
        }
    }
    calls
}

/// The first refused row tells the number, 5 or 6, and the place: alone, before
/// and after rows that are true and false, before others that are refused.
/// Neither what update sets nor an output that is too short hides it.
fn refused_rows(kind: u8) -> Vec<Call> {
    let sum = binary(PLUS, &nodes::column(0), &nodes::int(1));
    let shifted = binary(SHIFT_LEFT, &nodes::int(0), &nodes::column(1));
    let (is_true, is_false) = ([1, 0], [-1, 0]);
    let (overflow, amount, both) = ([i32::MAX, 0], [1, 32], [i32::MAX, -1]);
    let earlier = [vec![], vec![is_true, is_false], vec![is_false, is_true]];
    let later = [vec![], vec![is_true], vec![is_false, amount, overflow]];
    let third = if kind == SELECT { vec![1] } else { vec![0, int_word(0), 1, int_word(0)] };
    let mut calls = Vec::new();
    for refused in [overflow, amount, both] {
        for before in &earlier {
            for after in &later {
                let rows = [&before[..], &[refused], after].concat();
                let mut given = plain(&binary(PLUS, &sum, &shifted));
                given.columns[3] = 1;
                given.rows = rows.concat().into_iter().map(int_word).collect();
                given.third = third.clone();
                calls.push(given.call(kind, plain_text(b"ab", ROOM), 2 * rows.len()));
                given.condition = binary(PLUS, &shifted, &sum);
                calls.push(given.call(kind, plain_text(b"ab", ROOM), 0));
            }
        }
    }
    calls
}

/// The room is free again for each row, and 7 has the row as its place.
fn joined_texts(kind: u8) -> Vec<Call> {
    let joined = binary(PLUS, &nodes::column(0), &nodes::text(0, 512));
    let mut calls = Vec::new();
    for longest in [512, 513] {
        let mut given = plain(&binary(EQUAL, &joined, &nodes::text(0, 513)));
        given.columns = vec![text_word(0, 1), 2];
        given.rows = (0..40).map(|number| text_word(0, [0, 1, 255][number % 3])).collect();
        given.rows[39] = text_word(0, 1);
        given.rows[38] = text_word(0, longest);
        calls.push(given.call(kind, plain_text(&[b'j'; 513], ROOM), 40));
    }
    calls
}

fn lists() -> Vec<Call> {
    let mut calls = Vec::new();
    for list in [
        vec![],
        vec![0],
        vec![1],
        vec![1, 0],
        vec![1, 1, 0, 1],
        vec![0, 2],
        vec![2, 9],
        vec![1 << 32],
        vec![0, u64::MAX],
    ] {
        for condition in
            [vec![], binary(36, &nodes::column(0), &nodes::int(1)), vec![99], nodes::column(5)]
        {
            let given = Given { third: list.clone(), ..plain(&condition) };
            calls.push(given.call(SELECT, plain_text(b"abc", ROOM), 12));
            calls.push(given.call(SELECT, plain_text(b"abc", ROOM), 2));
        }
    }
    // The condition reads the whole row, whatever the list says.
    let given = Given { third: vec![1], ..plain(&binary(36, &nodes::column(0), &nodes::int(1))) };
    calls.push(given.call(SELECT, plain_text(b"abc", ROOM), 2));
    calls
}

fn sets() -> Vec<Call> {
    let cells = [
        0,
        int_word(5),
        int_word(i32::MIN),
        text_word(0, 0),
        text_word(0, 2),
        text_word(0, 3),
        text_word(3, 0),
        text_word(3, 1),
        binary_word(),
        1,
        4 << 56,
    ];
    let mut calls = Vec::new();
    for column in [0, 1, 2, 3, u64::MAX] {
        for cell in cells {
            let mut given = plain(&binary(36, &nodes::column(0), &nodes::int(1)));
            given.columns = [
                [text_word(0, 1), 1],
                [text_word(1, 1), 2 << 16 | 1 << 8 | 2],
                [text_word(2, 1), 3],
            ]
            .concat();
            given.rows = vec![int_word(1), 0, binary_word(), int_word(2), 0, binary_word()];
            given.third = vec![0, int_word(0), column, cell, 0, int_word(7)];
            calls.push(given.call(UPDATE, plain_text(b"abc", ROOM), 6));
            given.third.extend_from_slice(&[9, 1]);
            calls.push(given.call(UPDATE, plain_text(b"abc", ROOM), 6));
            if column < 2 {
                given.condition = vec![0, 0];
                calls.push(given.call(UPDATE, plain_text(b"abc", ROOM), 6));
            }
        }
    }
    calls
}

pub fn random_call(random: &mut Random) -> Call {
    let kind = random.pick(&[SELECT, DELETE, UPDATE]);
    let mut scene = Scene::new(random);
    let count = scene.random.between(1, 3);
    let (columns, _) = scene.columns(count);
    let row_count = scene.random.below(6);
    let rows = scene.rows(&columns, row_count);
    let third = match kind {
        SELECT => (0..scene.random.below(5)).map(|_| scene.random.below(count) as u64).collect(),
        _ => random_sets(&mut scene, &columns),
    };
    let depth = scene.random.pick(&[2, 3, 3, 4]);
    let condition = match scene.random.below(8) {
        0 => Vec::new(),
        _ => scene.condition(Want::Truth, &bound(&columns), depth),
    };
    let text = scene.text_with_room();
    let mut call = Given { columns, rows, third, condition }.call(kind, text, 0);
    spoil::sometimes(random, &mut call);
    fit_output(random, &mut call);
    call
}

/// Mostly valid sets; a later one may change what an earlier one set.
fn random_sets(scene: &mut Scene, columns: &[u64]) -> Vec<u64> {
    let mut sets = Vec::new();
    for _ in 0..scene.random.below(4) {
        let number = scene.random.below(columns.len() / 2);
        let rule = columns[2 * number + 1];
        let mut cell = scene.cell(rule & 0xff);
        if rule >> 8 & 1 == 1 && scene.random.one_in(4) {
            cell = 0;
        }
        if !model::is_valid_value(rule, cell) && !scene.random.one_in(4) {
            continue;
        }
        sets.extend_from_slice(&[number as u64, cell]);
    }
    sets
}
