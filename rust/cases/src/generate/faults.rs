//! Words on both sides of being faulty, for each call to be tried with.

use super::nodes::{binary_word, int_word, text_word};

/// Malformed words of each kind, and texts around the mark.
pub fn cells(used: usize) -> Vec<u64> {
    let mut words = vec![1, 1 << 55, 1 << 56 | 1 << 32, 2 << 56 | 1 << 48, 3 << 56 | 1];
    words.extend([4 << 56, 255 << 56, text_word(0xffff_ffff, 65_535)]);
    words.extend([text_word(used, 1), text_word(used + 1, 0), text_word(0, used + 1)]);
    words.extend([text_word(used, 0), text_word(0, used)]);
    words
}

/// Columns with a fault in the name, in the rule, or in both.
pub fn columns(used: usize) -> Vec<[u64; 2]> {
    let mut names = cells(used);
    names.extend([0, int_word(1), binary_word(), text_word(0, 0)]);
    let rules = [
        0,
        4,
        255,
        1 | 1 << 10,
        1 | 1 << 15,
        1 | 1 << 32,
        1 | 1 << 63,
        1 | 1 << 16,
        3 | 1 << 16,
        2 | 0xffff << 16,
        3 | 3 << 8,
    ];
    let mut columns: Vec<[u64; 2]> = names.iter().map(|&name| [name, 1]).collect();
    columns.extend(rules.map(|rule| [text_word(0, 1), rule]));
    columns.extend([[text_word(0, 0), 0], [0, 1 << 10]]);
    columns
}
