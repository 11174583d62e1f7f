//! Mistakes planted in what a library answers, to show that the comparison
//! can fail.

use crate::image::Argument;
use crate::library::{Answered, Asked, Library};

/// A mistake by its name.
pub type Mistake = (&'static str, fn(&mut Spoiled));

/// An answer with the memory as it was and as the call left it.
pub struct Spoiled<'a> {
    arguments: &'a [Argument],
    before: &'a [u8],
    after: &'a mut [u8],
    answered: Answered,
}

/// The numbers of an answer, the bytes around the buffers, the first buffer,
/// the last one, and an answer that hangs on rubbish.
pub const MISTAKES: &[Mistake] = &[
    ("number", |spoiled| spoiled.answered[0] ^= 1),
    ("place", |spoiled| spoiled.answered[1] += 1),
    ("value", |spoiled| spoiled.answered[2] += 1),
    ("used", |spoiled| spoiled.answered[3] ^= 1),
    ("before", |spoiled| spoiled.after[0] ^= 1),
    ("after", |spoiled| spoiled.after[spoiled.before.len() - 1] ^= 1),
    ("input", |spoiled| spoiled.flip(0, 0)),
    ("output", |spoiled| spoiled.flip(spoiled.arguments.len() - 2, 0)),
    ("end", |spoiled| spoiled.flip(spoiled.arguments.len() - 2, 1)),
    ("rubbish", |spoiled| spoiled.answered[2] ^= spoiled.before[0] as u64 & 1),
];

impl Spoiled<'_> {
    /// Changes the first byte of a slice, or the one after its length in
    /// bytes, which is in it where its elements are words.
    fn flip(&mut self, pointer: usize, ends: u64) {
        if let [Argument::Place(at), Argument::Number(length), ..] = self.arguments[pointer..] {
            self.after[at + (ends * length) as usize] ^= 1;
        }
    }
}

/// A library whose answers have a mistake.
pub struct Planted {
    pub library: Box<dyn Library>,
    pub mistake: fn(&mut Spoiled),
}

impl Library for Planted {
    fn has(&self, call: u8) -> bool {
        self.library.has(call)
    }

    fn ask(&mut self, call: u8, arguments: &[Argument], memory: &mut [u8]) -> Asked {
        let before = memory.to_vec();
        let answered = self.library.ask(call, arguments, memory)?;
        let mut spoiled = Spoiled { arguments, before: &before, after: memory, answered };
        (self.mistake)(&mut spoiled);
        Ok(spoiled.answered)
    }
}
