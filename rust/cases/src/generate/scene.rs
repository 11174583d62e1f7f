//! One case's surroundings: a short text with pieces that share beginnings,
//! and columns, rows and conditions over it.

use super::nodes::{self, ROOM};
use crate::answer::model_answer;
use crate::call::{Call, Text};
use crate::random::Random;

const PLAIN: &[&str] = &["a", "ab", "abc", "b", "B", "z", "ab ab"];
const WIDE: &[&str] = &["é", "éa", "ß", "日", "a", "ab"];
const QUOTED: &[&str] =
    &["\"", "\\", "\n", "\t", "\r", "\0", "\u{1}", "\u{1f}", "\u{7f}", "a", "'", "{", "~", " "];
const NAMES: &str = "nameid";
/// Start and length of distinct names in `NAMES`, some a beginning of others.
const NAME_PLACES: [(usize, usize); 8] =
    [(4, 2), (0, 4), (1, 3), (2, 2), (0, 1), (0, 2), (4, 1), (0, 3)];
const INTS: &[i32] =
    &[0, 1, -1, 31, 32, -32, 7, i32::MAX, i32::MIN, i32::MAX - 1, i32::MIN + 1, 65_536];

/// What a part of a condition should give.
#[derive(Clone, Copy, PartialEq)]
pub enum Want {
    Truth,
    Int,
    Text,
    Any,
}

/// A column as conditions speak of it: its kind, and the node.
#[derive(Clone)]
pub struct Leaf {
    pub kind: u64,
    pub node: Vec<u8>,
}

pub struct Scene<'a> {
    pub random: &'a mut Random,
    pub text: Vec<u8>,
    is_text: bool,
}

impl Scene<'_> {
    pub fn new(random: &mut Random) -> Scene<'_> {
        let stems = match random.below(10) {
            0..=5 => PLAIN,
            6 | 7 => WIDE,
            _ => QUOTED,
        };
        Scene::with_stems(random, stems)
    }

    /// Only what printing quotes is in the text.
    pub fn quoted(random: &mut Random) -> Scene<'_> {
        Scene::with_stems(random, QUOTED)
    }

    fn with_stems<'a>(random: &'a mut Random, stems: &[&str]) -> Scene<'a> {
        let is_text = !random.one_in(10);
        let mut text = Vec::new();
        for _ in 0..random.between(1, 4) {
            text.extend_from_slice(random.pick(stems).as_bytes());
        }
        if !is_text {
            text.extend((0..4).map(|_| random.word() as u8));
        }
        Scene { random, text, is_text }
    }

    /// A place where a piece may be cut.
    fn is_cut(&self, place: usize) -> bool {
        let inside_a_letter = place < self.text.len() && self.text[place] & 0xc0 == 0x80;
        !self.is_text || !inside_a_letter
    }

    /// Start and length of a piece of the text, sometimes an empty one.
    pub fn piece(&mut self) -> (usize, usize) {
        let is_empty = self.random.one_in(8);
        // Only an empty piece may start where the text ends.
        let mut start = self.random.below(self.text.len() + is_empty as usize);
        while !self.is_cut(start) {
            start -= 1;
        }
        if is_empty {
            return (start, 0);
        }
        let mut end = (start + self.random.between(1, 4)).min(self.text.len());
        while !self.is_cut(end) {
            end += 1;
        }
        (start, end - start)
    }

    pub fn int(&mut self) -> i32 {
        match self.random.below(8) {
            0 => self.random.pick(INTS),
            1 | 2 => self.random.below(2) as i32,
            _ => self.random.below(7) as i32 - 2,
        }
    }

    /// A well formed cell of a kind, 0 for Null.
    pub fn cell(&mut self, kind: u64) -> u64 {
        match kind {
            1 => nodes::int_word(self.int()),
            2 => {
                let (start, length) = self.piece();
                nodes::text_word(start, length)
            }
            3 => nodes::binary_word(),
            _ => 0,
        }
    }

    pub fn any_kind(&mut self) -> u64 {
        self.random.pick(&[0, 1, 1, 1, 2, 2, 2, 3])
    }

    /// A cell for a column of a kind; given tables may hold any kind.
    pub fn column_cell(&mut self, kind: u64) -> u64 {
        match self.random.below(20) {
            0 => {
                let other = self.any_kind();
                self.cell(other)
            }
            1 | 2 => 0,
            _ => self.cell(kind),
        }
    }

    /// Column words with distinct names, and the leaves that name them.
    pub fn columns(&mut self, count: usize) -> (Vec<u64>, Vec<Leaf>) {
        let base = self.text.len();
        self.text.extend_from_slice(NAMES.as_bytes());
        let first = self.random.below(NAME_PLACES.len());
        let mut columns = Vec::new();
        let mut leaves = Vec::new();
        for index in 0..count {
            let (start, length) = match NAME_PLACES.get(index) {
                Some(_) => NAME_PLACES[(first + index) % NAME_PLACES.len()],
                None => self.numbered_name(base, index),
            };
            let rule = self.rule();
            columns.extend_from_slice(&[nodes::text_word(base + start, length), rule]);
            leaves.push(Leaf { kind: rule & 0xff, node: nodes::name(base + start, length) });
        }
        (columns, leaves)
    }

    fn numbered_name(&mut self, base: usize, index: usize) -> (usize, usize) {
        let start = self.text.len() - base;
        self.text.extend_from_slice(format!("c{index}").as_bytes());
        (start, self.text.len() - base - start)
    }

    /// A well formed rule.
    pub fn rule(&mut self) -> u64 {
        let kind = self.random.pick(&[1, 1, 1, 2, 2, 3]);
        let flags = self.random.below(4) as u64;
        let bound = if kind == 2 && self.random.one_in(3) { self.random.between(1, 4) } else { 0 };
        kind | flags << 8 | (bound as u64) << 16
    }

    pub fn rows(&mut self, columns: &[u64], count: usize) -> Vec<u64> {
        let mut rows = Vec::new();
        for _ in 0..count {
            for column in columns.chunks_exact(2) {
                rows.push(self.column_cell(column[1] & 0xff));
            }
        }
        rows
    }

    /// The text as lent, with so many bytes above the mark.
    pub fn text_input(&self, above: usize) -> Text {
        plain_text(&self.text, above)
    }

    /// Room enough, sometimes exactly.
    pub fn text_with_room(&mut self) -> Text {
        let more = self.random.pick(&[0, 0, 1, 100]);
        plain_text(&self.text, ROOM + more)
    }

    /// A condition that gives what is wanted, if it can.
    pub fn condition(&mut self, want: Want, leaves: &[Leaf], depth: usize) -> Vec<u8> {
        if depth <= 1 || (want != Want::Truth && self.random.one_in(5)) {
            return self.leaf(want, leaves);
        }
        match want {
            Want::Truth => self.truth(leaves, depth - 1),
            Want::Int => self.number(leaves, depth - 1),
            Want::Text => {
                let left = self.condition(Want::Text, leaves, depth - 1);
                let right = self.condition(Want::Text, leaves, depth - 1);
                nodes::binary(nodes::PLUS, &left, &right)
            }
            Want::Any => {
                let want = self.random.pick(&[Want::Truth, Want::Int, Want::Text]);
                self.condition(want, leaves, depth)
            }
        }
    }

    fn truth(&mut self, leaves: &[Leaf], depth: usize) -> Vec<u8> {
        match self.random.below(20) {
            0..=8 => {
                let kind = self.random.between(32, 37) as u8;
                let want = self.random.pick(&[Want::Int, Want::Int, Want::Text, Want::Any]);
                self.two_sided(kind, want, leaves, depth)
            }
            9..=14 => {
                let kind = self.random.pick(&[nodes::AND, nodes::OR]);
                self.two_sided(kind, Want::Truth, leaves, depth)
            }
            15 | 16 => {
                let operand = self.condition(Want::Truth, leaves, depth);
                nodes::unary(nodes::NOT, &operand)
            }
            _ => self.condition(Want::Any, leaves, depth),
        }
    }

    fn number(&mut self, leaves: &[Leaf], depth: usize) -> Vec<u8> {
        let want = if self.random.one_in(8) { Want::Any } else { Want::Int };
        if self.random.one_in(5) {
            let operand = self.condition(want, leaves, depth);
            return nodes::unary(self.random.between(16, 18) as u8, &operand);
        }
        let kind = self.random.between(38, 46) as u8;
        self.two_sided(kind, want, leaves, depth)
    }

    fn two_sided(&mut self, kind: u8, want: Want, leaves: &[Leaf], depth: usize) -> Vec<u8> {
        let left = self.condition(want, leaves, depth);
        let right = self.condition(want, leaves, depth);
        nodes::binary(kind, &left, &right)
    }

    fn leaf(&mut self, want: Want, leaves: &[Leaf]) -> Vec<u8> {
        let wanted = |leaf: &&Leaf| match want {
            Want::Int => leaf.kind == 1,
            Want::Text => leaf.kind == 2,
            _ => true,
        };
        let fitting: Vec<&Leaf> = leaves.iter().filter(wanted).collect();
        if !fitting.is_empty() && !self.random.one_in(3) {
            return fitting[self.random.below(fitting.len())].node.clone();
        }
        match want {
            Want::Text => self.text_leaf(),
            Want::Int | Want::Truth => nodes::int(self.int()),
            Want::Any => match self.random.below(4) {
                0 => vec![0],
                1 | 2 => self.text_leaf(),
                _ => nodes::int(self.int()),
            },
        }
    }

    fn text_leaf(&mut self) -> Vec<u8> {
        let (start, length) = self.piece();
        nodes::text(start, length)
    }
}

/// All of the bytes used, and so many above.
pub fn plain_text(stored: &[u8], above: usize) -> Text {
    Text { length: stored.len() + above, used: stored.len() as u64, stored: stored.to_vec() }
}

/// The bytes in buffers and under marks on both sides of every bound of 10.
pub fn texts_at_bounds(stored: &[u8]) -> Vec<Text> {
    let count = stored.len();
    let lengths = [65_536, 65_537, count + ROOM, count + ROOM - 1, count + 1, count];
    let text = |length| Text { length, used: count as u64, stored: stored.to_vec() };
    let mut texts = lengths.map(text).to_vec();
    let mut cut = text(count.saturating_sub(1));
    cut.stored.truncate(cut.length);
    texts.push(cut);
    for used in [count as u64 + 1, 1 << 32, u64::MAX] {
        texts.push(Text { used, ..text(count) });
    }
    texts
}

/// The leaves for columns by number, of the kinds given.
pub fn numbered(kinds: &[u64]) -> Vec<Leaf> {
    let leaf = |(index, &kind): (usize, &u64)| Leaf { kind, node: nodes::column(index as u8) };
    kinds.iter().enumerate().map(leaf).collect()
}

/// The leaves for the columns of a table, by number.
pub fn bound(columns: &[u64]) -> Vec<Leaf> {
    let kinds: Vec<u64> = columns.chunks_exact(2).map(|column| column[1] & 0xff).collect();
    numbered(&kinds)
}

/// Sets the output to what the result takes, to one less, or to another
/// length; where the call is refused anyway, to a small one.
pub fn fit_output(random: &mut Random, call: &mut Call) {
    // More than any drawn case takes.
    call.set_output_length(4096);
    let needed = match model_answer(call) {
        Ok(answer) if answer.number == 0 => answer.output.len(),
        _ => random.below(20),
    };
    let length = match random.below(20) {
        0..=9 => needed,
        10 | 11 => needed.saturating_sub(1),
        12 => random.below(needed + 1),
        13..=17 => needed + random.between(1, 3),
        _ => needed + 50,
    };
    call.set_output_length(length);
}

/// An output for folding, binding and `with`: mostly just enough.
pub fn condition_output(random: &mut Random) -> usize {
    random.pick(&[448, 448, 448, 448, 448, 448, 449, 500, 447, 448])
}
