//! Single words: order, truth, faults, valid values, names.

use super::nodes::{binary_word, int_word, text_word};
use super::scene::{plain_text, Scene};
use crate::call::*;
use crate::random::Random;

const COMPARED: usize = 300;
const FOUND: usize = 250;

/// Holds shared beginnings, equal texts at two starts and non-ASCII letters.
pub const TEXT: &str = "abcabdBz\u{e9}\u{df}\u{65e5}ab";

pub fn interesting_cells() -> Vec<u64> {
    let ints = [0, 1, -1, 2, 7, 31, 32, -256, 255, 256, i32::MAX, i32::MIN, i32::MIN + 1];
    let end = TEXT.len();
    let texts = [
        (0, 0),
        (end, 0),
        (0, 1),
        (3, 1),
        (0, 2),
        (3, 2),
        (end - 2, 2),
        (0, 3),
        (3, 3),
        (6, 1),
        (7, 1),
        (8, 2),
        (10, 2),
        (12, 3),
        (0, end),
        (1, end - 1),
    ];
    let mut cells = vec![0, binary_word()];
    cells.extend(ints.map(int_word));
    cells.extend(texts.map(|(start, length)| text_word(start, length)));
    cells
}

pub fn calls(random: &mut Random) -> Vec<Call> {
    let mut calls = Vec::new();
    compared(random, &mut calls);
    let cells = interesting_cells();
    calls.extend(cells.iter().map(|&cell| Call::new(TO_BOOL).number(cell)));
    calls.extend(cell_faults());
    calls.extend(column_faults());
    calls.extend(valid_values(&cells));
    for rule in rules() {
        calls.push(Call::new(BUT_NULLABLE).number(rule));
    }
    calls.extend((0..FOUND).map(|_| random_find(random)));
    calls
}

fn compare(first: u64, second: u64, text: &[u8]) -> Call {
    Call::new(COMPARE).number(first).number(second).text(plain_text(text, 2))
}

fn compared(random: &mut Random, calls: &mut Vec<Call>) {
    let cells = interesting_cells();
    for &first in &cells {
        calls.extend(cells.iter().map(|&second| compare(first, second, TEXT.as_bytes())));
    }
    for _ in 0..COMPARED {
        calls.push(random_compare(random));
    }
}

pub fn random_compare(random: &mut Random) -> Call {
    let mut scene = Scene::new(random);
    let (first, second) = (scene.cell(2), scene.cell(2));
    let text = scene.text;
    compare(first, second, &text)
}

/// Each kind byte with bodies on both sides of its bound, and texts on both
/// sides of the mark.
fn cell_faults() -> Vec<Call> {
    let mut words = Vec::new();
    for kind in [0, 1, 2, 3, 4, 5, 127, 128, 255] {
        for body in
            [0, 1, 65_535, 65_536, 1 << 31, (1 << 32) - 1, 1 << 32, 1 << 47, 1 << 48, 1 << 55]
        {
            words.push(kind << 56 | body);
        }
    }
    let mut calls = Vec::new();
    for used in [0, 1, 65_535, 65_536, 1 << 40, u64::MAX] {
        calls.extend(words.iter().map(|&word| Call::new(CELL_FAULT).number(word).number(used)));
    }
    for (start, length) in [(0, 0), (0, 1), (9, 0), (10, 0), (11, 0), (3, 7), (3, 8), (10, 1)] {
        let word = text_word(start, length);
        for used in [9, 10, 11] {
            calls.push(Call::new(CELL_FAULT).number(word).number(used));
        }
    }
    calls
}

/// Rules of every kind, with flags and bounds that fit and that don't.
fn rules() -> Vec<u64> {
    let mut rules = Vec::new();
    for kind in [0, 1, 2, 3, 4, 255] {
        for flags in 0..4 {
            for bound in [0, 1, 5, 65_535] {
                rules.push(kind | flags << 8 | bound << 16);
            }
        }
    }
    rules
}

fn column_faults() -> Vec<Call> {
    let names = [
        text_word(0, 0),
        text_word(0, 1),
        text_word(0, 254),
        text_word(0, 255),
        text_word(0, 256),
        text_word(300, 0),
        text_word(299, 1),
        text_word(300, 1),
        text_word(301, 0),
        text_word(45, 255),
        text_word(46, 255),
        text_word(0xffff_ffff, 1),
        0,
        int_word(1),
        binary_word(),
        2 << 56 | 1 << 48,
        4 << 56,
        1,
    ];
    let mut all_rules = rules();
    all_rules.extend((10..64).map(|bit| 2 | 1 << bit));
    let good_name = text_word(0, 3);
    let mut calls = Vec::new();
    let column = |name: u64, rule: u64, used: u64| {
        Call::new(COLUMN_FAULT).number(name).number(rule).number(used)
    };
    for name in names {
        for rule in [1, 2, 3, 2 | 7 << 16, 1 | 1 << 16, 1 << 10, 0] {
            calls.push(column(name, rule, 300));
        }
    }
    calls.extend(all_rules.iter().map(|&rule| column(good_name, rule, 300)));
    calls.extend([0, 2, 3, u64::MAX].map(|used| column(good_name, 1, used)));
    calls
}

fn valid_values(cells: &[u64]) -> Vec<Call> {
    let mut calls = Vec::new();
    let mut cells = cells.to_vec();
    cells.extend([4, 6, 65_535].map(|length| text_word(0, length)));
    for rule in [1, 2, 3, 1 << 16 | 2, 2 << 16 | 2, 5 << 16 | 2, 0xffff_0000 | 2] {
        for flags in [0, 1, 3] {
            for &cell in &cells {
                calls.push(Call::new(IS_VALID_VALUE).number(rule | flags << 8).number(cell));
            }
        }
    }
    calls
}

pub fn random_find(random: &mut Random) -> Call {
    let mut scene = Scene::new(random);
    let count = scene.random.pick(&[1, 2, 3, 4, 5, 8]);
    let (mut columns, _) = scene.columns(count);
    // Sometimes two columns have one name.
    if count > 1 && scene.random.one_in(3) {
        columns[2 * count - 2] = columns[0];
    }
    let word = match scene.random.below(3) {
        0 => scene.cell(2),
        _ => columns[2 * scene.random.below(count)],
    };
    let mut name = crate::seen::text_at(word, &scene.text).unwrap_or_default();
    if scene.random.one_in(5) {
        name.pop();
    }
    let text = scene.text_input(1);
    Call::new(FIND_COLUMN).words(columns).text(text).bytes(name)
}
