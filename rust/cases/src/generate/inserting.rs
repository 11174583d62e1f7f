//! Insert.

use super::faults;
use super::nodes::*;
use super::scene::{fit_output, plain_text, texts_at_bounds, Scene};
use super::spoil;
use crate::call::*;
use crate::random::Random;

const RANDOM: usize = 180;
const KEY: u64 = 1 << 9;
const NULLABLE: u64 = 1 << 8;

pub fn calls(random: &mut Random) -> Vec<Call> {
    let mut calls = counts();
    calls.extend(refusal_order());
    calls.extend(faulty_words());
    calls.extend(single_keys());
    calls.extend(double_keys());
    calls.extend(valid_values());
    calls.extend(buffers());
    for _ in 0..RANDOM {
        calls.push(random_insert(random));
    }
    calls
}

fn insert(columns: &[u64], old: &[u64], new: &[u64], text: Text, room: usize) -> Call {
    Call::new(INSERT).words(columns).words(old).words(new).text(text).words_out(room)
}

fn ints(numbers: &[i32]) -> Vec<u64> {
    numbers.iter().map(|&number| int_word(number)).collect()
}

fn counts() -> Vec<Call> {
    let text = || plain_text(b"a", 0);
    let key = [text_word(0, 1), 1 | KEY];
    let down =
        |from: i32, count: i32| ints(&(0..count).map(|step| from - step).collect::<Vec<i32>>());
    let mut calls = Vec::new();
    for (old, new) in [(4097, 1), (1, 4097)] {
        let (old, new) = (down(9000, old), down(4000, new));
        calls.push(insert(&key, &old, &new, text(), old.len() + new.len()));
    }
    // The keys of two full tables lie between each other.
    let even: Vec<i32> = (0..4096).map(|number| 2 * number).collect();
    let odd: Vec<i32> = (0..4096).map(|number| 2 * number + 1).collect();
    calls.push(insert(&key, &ints(&even), &ints(&odd), text(), 8192));
    for count in [0, 1, 2, 32, 33] {
        let columns = letter_columns(count, key[1]);
        let text = || plain_text(LETTERS, 0);
        let new = vec![int_word(1); count];
        calls.push(insert(&columns, &[], &new, text(), count));
        calls.push(insert(&columns, &new, &[], text(), count));
        calls.push(insert(&columns, &new, &[&new[..], &[0]].concat(), text(), count));
        calls.push(insert(&columns, &[&new[..], &[0]].concat(), &new, text(), count));
        calls.push(insert(&[&columns[..], &[1]].concat(), &new, &new, text(), count));
    }
    calls
}

/// All pairs of defects, one for each step of insert's order.
fn refusal_order() -> Vec<Call> {
    type Given = [Vec<u64>; 3];
    type Defect = fn(&mut Given, &mut Text);
    let defects: [Defect; 13] = [
        |_, text| text.used = 4,
        |given, _| given[0].push(1),
        |given, _| given[2].push(0),
        |given, _| given[0][0] = text_word(3, 1),
        |given, _| given[0][3] = 0,
        |given, _| given[1][3] = text_word(2, 2),
        |given, _| given[2][1] = 3 << 56 | 1,
        |given, _| given[2][3] = text_word(3, 1),
        |given, _| given[2][0] = 0,
        |given, _| given[2][3] = binary_word(),
        |given, _| given[1][2] = given[1][0],
        |given, _| given[2][2] = given[1][0],
        |given, _| given[2][2] = given[2][0],
    ];
    let mut calls = Vec::new();
    for first in defects {
        for second in defects {
            let columns = vec![text_word(0, 1), 1 | KEY, text_word(1, 1), 2 | NULLABLE];
            let old = vec![int_word(5), 0, int_word(3), text_word(0, 1)];
            let new = vec![int_word(4), text_word(1, 2), int_word(6), 0];
            let mut given = [columns, old, new];
            let mut text = plain_text(b"abc", 0);
            first(&mut given, &mut text);
            second(&mut given, &mut text);
            // An output that is too short comes last of all.
            calls.push(insert(&given[0], &given[1], &given[2], text, 1));
        }
    }
    calls
}

/// Faulty words in each part.
fn faulty_words() -> Vec<Call> {
    let text = || plain_text(b"abc", 0);
    let good = [text_word(0, 1), 1 | KEY];
    let (old, new) = (vec![int_word(1), 0], vec![int_word(2), 0]);
    let mut calls = Vec::new();
    for length in [255, 256] {
        let columns = [good, [text_word(0, length), 1 | NULLABLE]].concat();
        calls.push(insert(&columns, &old, &new, plain_text(&[b'n'; 256], 0), 4));
    }
    for bad in faults::columns(3) {
        calls.push(insert(&[good, bad].concat(), &old, &new, text(), 4));
    }
    let columns = [good, [text_word(1, 1), 2 | NULLABLE]].concat();
    for cell in faults::cells(3) {
        calls.push(insert(&columns, &[int_word(1), cell], &new, text(), 4));
        calls.push(insert(&columns, &old, &[int_word(2), cell], text(), 4));
        calls.push(insert(&columns, &[int_word(1), cell], &[cell, cell], text(), 4));
    }
    // A key met among the old rows after two equal new ones.
    calls.push(insert(&good, &ints(&[1]), &ints(&[2, 2, 1]), text(), 4));
    calls.push(insert(&good, &ints(&[1]), &ints(&[2, 1, 2]), text(), 4));
    calls
}

/// Keys of every kind, equal ones at several places, and no key.
fn single_keys() -> Vec<Call> {
    let text = || plain_text(b"abcab\xc3\xa9", 0);
    let any = [
        binary_word(),
        text_word(0, 3),
        text_word(3, 2),
        text_word(0, 0),
        int_word(1),
        int_word(-1),
        0,
    ];
    let name = text_word(0, 1);
    let mut calls = Vec::new();
    // Old rows may hold any kind; they come out in key order.
    for rule in [1 | KEY | NULLABLE, 2 | KEY | NULLABLE, 1 | NULLABLE] {
        calls.push(insert(&[name, rule], &any, &[], text(), 7));
        calls.push(insert(&[name, rule], &any[..6], &[0], text(), 7));
        calls.push(insert(&[name, rule], &[], &[0], text(), 7));
        calls.push(insert(&[name, rule], &[], &[0, 0], text(), 7));
    }
    let tables = [
        ints(&[]),
        ints(&[2]),
        ints(&[3, 1]),
        ints(&[1, 2, 1, 2]),
        ints(&[2, 2, 1]),
        ints(&[5, 4, 4, 5]),
    ];
    for old in &tables {
        for new in &tables {
            calls.push(insert(&[name, 1 | KEY], old, new, text(), 9));
            calls.push(insert(&[name, 1], old, new, text(), 9));
        }
    }
    calls
}

/// The first and the last column are keys, the middle one is none.
fn double_keys() -> Vec<Call> {
    let text = || plain_text(b"abc", 0);
    let mut calls = Vec::new();
    let columns = [text_word(0, 1), 1 | KEY, text_word(1, 1), 1, text_word(2, 1), 1 | KEY];
    let rows = ints(&[1, 9, 2, 1, 0, 1, 0, 5, 7, 2, 2, 0]);
    for new in [[1, 0, 3], [1, 9, 2], [2, 5, 0], [1, 1, 0], [0, 0, 7], [0, 5, 6]] {
        calls.push(insert(&columns, &rows, &ints(&new), text(), 15));
        calls.push(insert(&columns, &ints(&new), &rows, text(), 15));
        calls.push(insert(&columns, &[], &[ints(&new), rows.clone()].concat(), text(), 15));
    }
    calls
}

fn valid_values() -> Vec<Call> {
    let text = b"axyzww\xc3\xa9";
    let cells = [
        0,
        int_word(0),
        int_word(i32::MIN),
        int_word(i32::MAX),
        text_word(0, 0),
        text_word(0, 1),
        text_word(0, 2),
        text_word(0, 3),
        text_word(0, 4),
        text_word(6, 2),
        binary_word(),
    ];
    let mut calls = Vec::new();
    for rule in [1, 2, 3, 1 << 16 | 2, 2 << 16 | 2, 3 << 16 | 2, 0xffff << 16 | 2] {
        for flags in [0, NULLABLE, KEY | NULLABLE] {
            for cell in cells {
                let columns = [text_word(0, 1), rule | flags];
                calls.push(insert(&columns, &[], &[cell], plain_text(text, 0), 1));
            }
        }
    }
    calls
}

fn buffers() -> Vec<Call> {
    let key = [text_word(0, 1), 1 | KEY];
    let (old, new) = (ints(&[5, 1]), ints(&[3]));
    let mut calls = Vec::new();
    for room in 0..5 {
        calls.push(insert(&key, &old, &new, plain_text(b"a", 0), room));
        calls.push(insert(&key, &[], &[], plain_text(b"a", 0), room));
    }
    for text in texts_at_bounds(b"a") {
        calls.push(insert(&key, &old, &new, text.clone(), 3));
        calls.push(insert(&[], &old, &new, text, 0));
    }
    calls
}

pub fn random_insert(random: &mut Random) -> Call {
    let mut scene = Scene::new(random);
    let count = scene.random.between(1, 3);
    let (mut columns, _) = scene.columns(count);
    // Without a key hardly any table is accepted.
    if !scene.random.one_in(8) {
        columns[1] |= KEY;
    }
    let (old_count, new_count) = (scene.random.below(4), scene.random.below(4));
    let old = rows(&mut scene, &columns, old_count, 0);
    let new = rows(&mut scene, &columns, new_count, 8);
    let mut call = insert(&columns, &old, &new, scene.text_input(scene.text.len() % 2), 0);
    spoil::sometimes(random, &mut call);
    fit_output(random, &mut call);
    call
}

/// Rows whose values are valid but for one cell in so many (0: any).
pub fn rows(scene: &mut Scene, columns: &[u64], count: usize, invalid: usize) -> Vec<u64> {
    let mut rows = scene.rows(columns, count);
    for (index, word) in rows.iter_mut().enumerate() {
        let rule = columns[2 * (index % (columns.len() / 2)) + 1];
        let is_free = invalid == 0 || scene.random.one_in(4 * invalid);
        if !is_free && !model::is_valid_value(rule, *word) {
            *word = match rule & 0xff {
                1 => int_word(scene.random.below(9) as i32),
                2 => text_word(scene.random.below(scene.text.len()), 1),
                _ => binary_word(),
            };
        }
    }
    rows
}
