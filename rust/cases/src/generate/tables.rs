//! Reading a row, choosing between two, and joining column tables.

use super::faults;
use super::nodes::*;
use super::scene::{fit_output, plain_text, texts_at_bounds, Scene};
use super::spoil;
use crate::call::*;
use crate::random::Random;

const ROWS: usize = 40;
const CHOICES: usize = 100;
const JOINED: usize = 160;

pub fn calls(random: &mut Random) -> Vec<Call> {
    let mut calls = read_rows();
    calls.extend(choices());
    calls.extend(broken_choices());
    for kind in [INNER_JOIN_COLUMNS, LEFT_JOIN_COLUMNS] {
        calls.extend(joined_counts(kind));
        calls.extend(joined_names(kind));
        calls.extend(joined_buffers(kind));
    }
    for _ in 0..ROWS {
        calls.push(random_row(random));
    }
    for _ in 0..CHOICES {
        calls.push(random_choice(random));
    }
    for _ in 0..JOINED {
        calls.push(random_joined(random));
    }
    calls
}

fn read_rows() -> Vec<Call> {
    let read = |length: usize, columns: u64, number: u64| {
        let words: Vec<u64> = (0..length as u64).map(|index| index * index + 7).collect();
        Call::new(ROW).words(words).number(columns).number(number)
    };
    let mut calls = Vec::new();
    for length in [0, 1, 6, 33, 64] {
        // The long ones are there for the widest rows.
        let numbers: &[u64] = if length == 6 { &[1, 2, 3, 5, 6, 1 << 59] } else { &[1, 2] };
        let counts: &[u64] =
            if length < 33 { &[0, 1, 2, 3, 4, 1 << 32, u64::MAX] } else { &[1, 3] };
        for &columns in [31, 32, 33, 34].iter().chain(counts) {
            for &number in [0, 1 << 63, u64::MAX].iter().chain(numbers) {
                calls.push(read(length, columns, number));
            }
        }
    }
    // More rows than other calls take may be read.
    calls.push(read(4097, 1, 4096));
    calls
}

fn choice(columns: &[u64], first: &[u64], second: &[u64], text: Text) -> Call {
    Call::new(EARLIER).words(columns).text(text).words(first).words(second)
}

fn choices() -> Vec<Call> {
    let text = || plain_text(b"abcab", 1);
    let key = [text_word(0, 1), 1 | 1 << 9];
    let cells = [
        0,
        int_word(-1),
        int_word(1),
        text_word(0, 0),
        text_word(0, 2),
        text_word(3, 2),
        text_word(0, 3),
        binary_word(),
    ];
    let mut calls = Vec::new();
    for first in cells {
        calls.extend(cells.map(|second| choice(&key, &[first], &[second], text())));
        // Without a key column all keys are equal.
        calls.push(choice(&[key[0], 1], &[first], &[0], text()));
        calls.push(choice(&[key[0], 1], &[binary_word()], &[first], text()));
    }
    calls
}

/// Broken tables and rows; a malformed or outlying word counts even where it
/// is no key.
fn broken_choices() -> Vec<Call> {
    let text = || plain_text(b"abcab", 1);
    let key = [text_word(0, 1), 1 | 1 << 9];
    let mut calls = Vec::new();
    let plain_and_key = [key[0], 1, key[0], 1 | 1 << 9];
    for bad in faults::cells(5) {
        calls.push(choice(&plain_and_key, &[bad, int_word(2)], &[0, int_word(1)], text()));
        calls.push(choice(&plain_and_key, &[0, int_word(2)], &[bad, int_word(1)], text()));
    }
    for length in [255, 256] {
        let columns = [key, [text_word(0, length), 1]].concat();
        let text = plain_text(&[b'n'; 256], 0);
        calls.push(choice(&columns, &[int_word(2), 0], &[int_word(1), 0], text));
    }
    for bad in faults::columns(5) {
        let columns = [key, bad].concat();
        calls.push(choice(&columns, &[int_word(2), 0], &[int_word(1), 0], text()));
    }
    for count in [0, 1, 2, 32, 33] {
        let columns = key.repeat(count);
        for (first, second) in
            [(count, count), (count + 1, count), (count, count + 1), (0, 0), (1, 1)]
        {
            let one = vec![int_word(1); first];
            calls.push(choice(&columns, &one, &vec![int_word(0); second], text()));
        }
        let odd = [&columns[..], &[0]].concat();
        calls.push(choice(&odd, &vec![int_word(1); count], &vec![0; count], text()));
    }
    for text in texts_at_bounds(b"a") {
        calls.push(choice(&key, &[int_word(2)], &[int_word(1)], text));
    }
    calls
}

pub fn random_row(random: &mut Random) -> Call {
    let columns = random.pick(&[1, 2, 3, 5]);
    let words = (0..columns * random.below(6)).map(|_| random.word());
    let call = Call::new(ROW).words(words.collect::<Vec<u64>>());
    let mut call = call.number(columns as u64).number(random.below(6) as u64);
    spoil::sometimes(random, &mut call);
    call
}

pub fn random_choice(random: &mut Random) -> Call {
    let mut scene = Scene::new(random);
    let count = scene.random.between(1, 4);
    let (columns, _) = scene.columns(count);
    let first = scene.rows(&columns, 1);
    let mut second = scene.rows(&columns, 1);
    for (place, &cell) in second.iter_mut().zip(&first) {
        if scene.random.one_in(2) {
            *place = cell;
        }
    }
    let mut call = choice(&columns, &first, &second, scene.text_input(1));
    spoil::sometimes(random, &mut call);
    call
}

struct Joined<'a> {
    left_name: &'a [u8],
    left: &'a [u64],
    right_name: &'a [u8],
    right: &'a [u64],
}

impl Joined<'_> {
    fn call(&self, kind: u8, text: Text, room: usize) -> Call {
        let call = Call::new(kind).bytes(self.left_name).words(self.left);
        call.bytes(self.right_name).words(self.right).text(text).words_out(room)
    }
}

fn joined_counts(kind: u8) -> Vec<Call> {
    let table = |count: usize| letter_columns(count, 2 | 1 << 9);
    let mut calls = Vec::new();
    let mut add = |left: &[u64], right: &[u64], name: &[u8], room: usize| {
        let joined = Joined { left_name: name, left, right_name: b"r", right };
        let last = left.len().max(right.len()) / 2;
        let text = &LETTERS[..last.clamp(2, LETTERS.len())];
        calls.push(joined.call(kind, plain_text(text, ROOM), room));
    };
    for (left, right) in
        [(0, 1), (1, 0), (1, 1), (31, 1), (32, 1), (1, 32), (16, 16), (17, 16), (33, 1)]
    {
        let needed = 2 * (left + right);
        add(&table(left), &table(right), b"l", needed);
        add(&table(left), &table(right), b"", needed - 1);
        if left + right < 3 || left == 17 {
            add(&table(left), &table(right), b"", needed);
            add(&table(left), &table(right), b"l", needed - 1);
            add(&table(left), &table(right), &[b'l'; 256], needed);
        }
    }
    add(&[text_word(0, 1)], &table(1), b"l", 9);
    add(&table(1), &[text_word(0, 1), 1, 0], b"l", 9);
    let good = [text_word(0, 1), 1];
    for (index, bad) in faults::columns(2).into_iter().enumerate() {
        add(&[good, bad].concat(), &bad, b"l", 9);
        add(&good, &[good, bad].concat(), b"", 1);
        // A name that would get too long comes later in the order.
        if index % 6 == 0 {
            add(&[good, bad].concat(), &[good, bad].concat(), &[b'l'; 255], 9);
        }
    }
    calls
}

/// Table names and joined names on both sides of 255 bytes.
fn joined_names(kind: u8) -> Vec<Call> {
    let text = [b'n'; 255];
    let name = [b't'; 256];
    let mut calls = Vec::new();
    for (left, right, lengths) in [
        (0, 0, &[1, 255][..]),
        (1, 0, &[1, 255]),
        (0, 1, &[1, 255]),
        (252, 252, &[1, 2]),
        (253, 253, &[1, 2]),
        (254, 254, &[1]),
        (255, 1, &[1]),
        (1, 255, &[1]),
        (256, 0, &[1]),
        (0, 256, &[1]),
    ] {
        for &column in lengths {
            let columns = [text_word(0, 1), 1, text_word(0, column), 3 | 1 << 8];
            let joined = Joined {
                left_name: &name[..left],
                left: &columns[..],
                right_name: &name[..right],
                right: &columns[..],
            };
            calls.push(joined.call(kind, plain_text(&text[..column], ROOM), 8));
        }
    }
    for (left, right) in [(255, 256), (256, 255), (255, 255)] {
        let [left, right] = [left, right].map(|length| [text_word(0, length), 1]);
        let joined = Joined { left_name: b"", left: &left, right_name: b"", right: &right };
        calls.push(joined.call(kind, plain_text(&[b'n'; 256], ROOM), 4));
    }
    let columns = [text_word(0, 255), 1];
    let joined = Joined { left_name: b"l", left: &columns, right_name: b"", right: &columns };
    calls.push(joined.call(kind, plain_text(&text, ROOM), 0));
    calls
}

fn joined_buffers(kind: u8) -> Vec<Call> {
    let columns = [text_word(0, 1), 1];
    let joined = Joined { left_name: b"l", left: &columns, right_name: b"r", right: &columns };
    let mut calls: Vec<Call> =
        [0, 3, 4, 5].map(|room| joined.call(kind, plain_text(b"c", ROOM), room)).to_vec();
    for text in texts_at_bounds(b"c") {
        calls.push(joined.call(kind, text.clone(), 4));
        let bad = Joined { left: &[], ..joined };
        calls.push(bad.call(kind, text, 4));
    }
    calls
}

pub fn random_joined(random: &mut Random) -> Call {
    let kind = random.pick(&[INNER_JOIN_COLUMNS, LEFT_JOIN_COLUMNS]);
    let mut scene = Scene::new(random);
    let (left_count, right_count) = (scene.random.between(1, 3), scene.random.between(1, 3));
    let (left, _) = scene.columns(left_count);
    let (right, _) = scene.columns(right_count);
    let names: [&[u8]; 5] = [b"", b"T", b"Table", b"a.b", "\u{e9}".as_bytes()];
    let (left_name, right_name) = (scene.random.pick(&names), scene.random.pick(&names));
    let text = scene.text_with_room();
    let joined = Joined { left_name, left: &left, right_name, right: &right };
    let mut call = joined.call(kind, text, 0);
    spoil::sometimes(random, &mut call);
    fit_output(random, &mut call);
    call
}
