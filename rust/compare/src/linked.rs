//! The library linked into this process.

use crate::calls::by_number;
use crate::image::Argument;
use crate::library::{numbers, Asked, Library};

/// Lends each call this memory: words, so that they lie at addresses that are multiples of 8.
#[derive(Default)]
pub struct Linked {
    words: Vec<u64>,
}

impl Library for Linked {
    fn ask(&mut self, call: u8, arguments: &[Argument], memory: &mut [u8]) -> Asked {
        let needed = memory.len().div_ceil(8);
        if self.words.len() < needed {
            self.words.resize(needed, 0);
        }
        let base = self.words.as_mut_ptr().cast::<u8>();
        let numbers = numbers(arguments, base as u64);
        // SAFETY: the words are at least as long as the memory, and the arguments are the header's.
        unsafe {
            std::ptr::copy_nonoverlapping(memory.as_ptr(), base, memory.len());
            let answered = by_number(call, &numbers).ok_or("no such call")?;
            std::ptr::copy_nonoverlapping(base, memory.as_mut_ptr(), memory.len());
            Ok(answered)
        }
    }
}
