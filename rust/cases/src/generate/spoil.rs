//! Defects put into good calls; several in one input show the order of
//! refusals.

use super::nodes;
use crate::call::{Call, Input, Text};
use crate::random::Random;

/// Spoils one call in three, with one to three defects.
pub fn sometimes(random: &mut Random, call: &mut Call) {
    if random.one_in(3) {
        for _ in 0..random.pick(&[1, 1, 1, 2, 2, 3]) {
            one_defect(random, call);
        }
    }
}

pub fn one_defect(random: &mut Random, call: &mut Call) {
    let used = call.text_input().stored.len();
    let index = random.below(call.inputs.len());
    match &mut call.inputs[index] {
        Input::Bytes(bytes) => spoil_bytes(random, bytes, used),
        Input::Words(words) => spoil_words(random, words, used),
        Input::Number(number) => *number = spoiled_number(random, *number),
        Input::Text(text) => spoil_text(random, text),
        Input::BytesOut(length) | Input::WordsOut(length) => {
            *length = random.pick(&[0, 1, 447, *length, length.saturating_sub(1)]);
        }
    }
}

fn spoil_bytes(random: &mut Random, bytes: &mut Vec<u8>, used: usize) {
    let place = random.below(bytes.len() + 1);
    match random.below(8) {
        0 => bytes.truncate(place),
        1 => bytes.insert(place, random.word() as u8),
        2 => bytes.push(random.pick(&[5, 15, 19, 31, 47, 50, 255, 3, 4])),
        3 => bytes.push(random.pick(&[0, 16, 18, 32, 38, 46, 48, 49])),
        4 => bytes.extend_from_slice(&nodes::text(used, random.below(2))),
        5 => bytes.extend_from_slice(&nodes::name(0, random.pick(&[0, 1, 255, 256]))),
        6 if !bytes.is_empty() => {
            bytes.remove(place.min(bytes.len() - 1));
        }
        _ => {
            if let Some(byte) = bytes.get_mut(place) {
                *byte = random.word() as u8;
            }
        }
    }
}

fn spoil_words(random: &mut Random, words: &mut Vec<u64>, used: usize) {
    let place = random.below(words.len() + 1);
    match random.below(8) {
        0 => words.truncate(place),
        1 => words.insert(place, 0),
        _ => {
            let new = spoiled_word(random, words.get(place).copied().unwrap_or(0), used);
            if let Some(word) = words.get_mut(place) {
                *word = new;
            }
        }
    }
}

/// Malformed words of each kind, texts beyond the mark, and other words.
fn spoiled_word(random: &mut Random, word: u64, used: usize) -> u64 {
    match random.below(12) {
        0 => random.pick(&[1, 0xff, 1 << 55]),
        1 => 1 << 56 | 1 << 32,
        2 => 2 << 56 | 1 << 48,
        3 => 3 << 56 | 1,
        4 => 4 << 56,
        5 => nodes::text_word(used, 1),
        6 => nodes::text_word(used + 1, 0),
        7 => nodes::text_word(used, 0),
        8 => nodes::text_word(0, random.pick(&[0, 255, 256, 65_535])),
        9 => nodes::text_word(0xffff_ffff, 65_535),
        10 => random.below(40) as u64,
        _ => word ^ 1 << random.below(64),
    }
}

fn spoiled_number(random: &mut Random, number: u64) -> u64 {
    random.pick(&[0, 1, 32, 33, number.wrapping_add(1), number ^ 1, u64::MAX, 1 << 32])
}

fn spoil_text(random: &mut Random, text: &mut Text) {
    let stored = text.stored.len();
    match random.below(8) {
        0 => text.length = stored + nodes::ROOM - 1,
        1 => text.length = stored.saturating_sub(1),
        2 => text.length = 65_537,
        3 => {
            text.length = stored;
            text.used = u64::MAX;
        }
        // A lower mark puts texts beyond it.
        _ => text.used = text.used.saturating_sub(random.between(1, 3) as u64),
    }
    // Little is stored, so cases stay small, whatever the mark is.
    let below_mark = text.used.min(text.length as u64).min(stored as u64 + 1);
    text.stored.resize(below_mark as usize, b'.');
    text.length = text.length.max(text.stored.len());
    if text.used > text.stored.len() as u64 {
        text.length = text.stored.len();
    }
}
