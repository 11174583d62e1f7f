//! The buffers of one call, laid one after another into one stretch of
//! memory with guard bytes around each.

use crate::rubbish::Rubbish;
use cases::call::{Call, Input, Kind};
use std::ops::Range;

const GUARD: usize = 64;

/// What is passed to the library; places become addresses where it runs.
#[derive(Clone, Copy, Debug, PartialEq, Eq)]
pub enum Argument {
    Place(usize),
    Number(u64),
}

/// The words that bytes of the memory hold.
pub fn words_in(bytes: &[u8]) -> Vec<u64> {
    let word = |bytes: &[u8]| bytes.iter().rev().fold(0, |word, &byte| word << 8 | byte as u64);
    bytes.chunks_exact(8).map(word).collect()
}

/// Pointers that an empty slice may come with.
const NOWHERE: [u64; 3] = [0, 1, u64::MAX];

pub struct Image {
    pub memory: Vec<u8>,
    /// In the order of the call's inputs: a slice is its pointer and its
    /// length in elements, and the mark follows the text.
    pub arguments: Vec<Argument>,
    pub text: Range<usize>,
    pub output: Range<usize>,
}

/// How the read-only slices of a call are lent.
#[derive(Clone, Copy, PartialEq, Eq)]
pub enum Sharing {
    /// Each in a place of its own.
    Apart,
    /// Equal ones in the same place.
    Equal,
}

/// A read-only slice that stands in the memory.
struct Laid {
    kind: Kind,
    content: Vec<u8>,
    at: usize,
}

struct Layout<'a> {
    image: Image,
    rubbish: &'a mut Rubbish,
    laid: Vec<Laid>,
    sharing: Sharing,
}

impl Image {
    /// Lends a call's buffers; all that is not given is rubbish.
    pub fn of(call: &Call, rubbish: &mut Rubbish, sharing: Sharing) -> Image {
        let image = Image { memory: Vec::new(), arguments: Vec::new(), text: 0..0, output: 0..0 };
        let mut layout = Layout { image, rubbish, laid: Vec::new(), sharing };
        call.inputs.iter().for_each(|input| layout.lend(input));
        layout.guard(0);
        layout.image
    }
}

impl Layout<'_> {
    fn lend(&mut self, input: &Input) {
        match input {
            Input::Bytes(bytes) => self.lend_slice(Kind::Bytes, bytes.clone(), bytes.len()),
            Input::Words(words) => {
                let bytes = words.iter().flat_map(|word| word.to_le_bytes()).collect();
                self.lend_slice(Kind::Words, bytes, words.len());
            }
            Input::Number(number) => self.image.arguments.push(Argument::Number(*number)),
            Input::Text(text) => {
                self.image.text = self.lend_filled(&text.stored, text.length, 1);
                self.image.arguments.push(Argument::Number(text.used));
            }
            Input::BytesOut(length) => self.image.output = self.lend_filled(&[], *length, 1),
            Input::WordsOut(length) => self.image.output = self.lend_filled(&[], *length, 8),
        }
    }

    /// A read-only slice of so many elements.
    fn lend_slice(&mut self, kind: Kind, content: Vec<u8>, length: usize) {
        let is_same = |laid: &&Laid| laid.kind == kind && laid.content == content;
        let same = self.laid.iter().find(is_same).map(|laid| laid.at);
        let at = match same {
            Some(at) if self.sharing == Sharing::Equal => at,
            _ => {
                let at = self.start(if kind == Kind::Words { 8 } else { 1 });
                self.image.memory.extend_from_slice(&content);
                self.laid.push(Laid { kind, content, at });
                at
            }
        };
        self.pass(at, length);
    }

    /// A buffer of so many elements of a size, filled up with rubbish.
    fn lend_filled(&mut self, content: &[u8], length: usize, size: usize) -> Range<usize> {
        let at = self.start(size);
        self.image.memory.extend_from_slice(content);
        self.rubbish.extend(&mut self.image.memory, length * size - content.len());
        self.pass(at, length);
        at..at + length * size
    }

    /// Where the next buffer starts: a multiple of its elements' size.
    fn start(&mut self, size: usize) -> usize {
        let after = self.image.memory.len() + GUARD;
        let odd =
            if size == 1 { self.rubbish.random.below(8) } else { after.wrapping_neg() % size };
        self.guard(odd);
        self.image.memory.len()
    }

    fn guard(&mut self, more: usize) {
        self.rubbish.extend(&mut self.image.memory, GUARD + more);
    }

    fn pass(&mut self, at: usize, length: usize) {
        let pointer = match length {
            0 if self.rubbish.random.one_in(2) => {
                Argument::Number(self.rubbish.random.pick(&NOWHERE))
            }
            _ => Argument::Place(at),
        };
        self.image.arguments.extend([pointer, Argument::Number(length as u64)]);
    }
}

#[cfg(test)]
mod tests {
    use super::*;
    use cases::call::{Text, INSERT};

    fn insert() -> Call {
        let text = Text { length: 9, used: 2, stored: vec![7, 8] };
        Call::new(INSERT).words([5, 6]).words([5, 6]).words([]).text(text).words_out(3)
    }

    fn places(image: &Image) -> Vec<Argument> {
        image.arguments.iter().copied().step_by(2).collect()
    }

    #[test]
    fn buffers_stand_apart_with_guards_between() {
        let image = Image::of(&insert(), &mut Rubbish::new(3), Sharing::Apart);
        let [Argument::Place(first), Argument::Place(second)] = places(&image)[..2] else {
            panic!("no places");
        };
        assert!(first >= GUARD && second >= first + 16 + GUARD);
        assert_eq!(image.memory[first..first + 8], 5_u64.to_le_bytes());
        assert_eq!(image.memory[image.text.start..image.text.start + 2], [7, 8]);
        assert_eq!((image.text.len(), image.output.len()), (9, 24));
        assert!([first, second, image.output.start].iter().all(|at| at % 8 == 0));
        assert!(image.memory.len() >= image.output.end + GUARD);
    }

    #[test]
    fn equal_slices_may_share_a_place() {
        let image = Image::of(&insert(), &mut Rubbish::new(3), Sharing::Equal);
        assert_eq!(places(&image)[0], places(&image)[1]);
    }
}
