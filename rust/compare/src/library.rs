//! What is compared: something that answers calls over lent memory.

use crate::image::Argument;
use cases::call::{Signature, INSERT, ROW, SIGNATURES};

/// What a call hands back: refusal number, place, value, mark. `row` has the
/// part's start and length as the last two, `earlier` its answer as value.
pub type Answered = [u64; 4];

/// What comes of asking; an error where there is no answer at all.
pub type Asked = Result<Answered, String>;

/// The most arguments that a call takes.
pub const ARGUMENTS: usize = 15;

pub trait Library {
    /// Whether the library has a call yet; one that has them all need not say so.
    fn has(&self, call: u8) -> bool {
        calls().any(|known| known.number == call)
    }

    /// Puts a call over the memory that its arguments point into.
    fn ask(&mut self, call: u8, arguments: &[Argument], memory: &mut [u8]) -> Asked;
}

/// The arguments as numbers, for a library that has the memory at this address.
pub fn numbers(arguments: &[Argument], base: u64) -> [u64; ARGUMENTS] {
    let mut numbers = [0; ARGUMENTS];
    for (number, argument) in numbers.iter_mut().zip(arguments) {
        *number = match *argument {
            Argument::Place(at) => base + at as u64,
            Argument::Number(number) => number,
        };
    }
    numbers
}

/// The calls of document 01's table; the recorded ones beyond them are several calls in turn.
pub fn calls() -> impl Iterator<Item = &'static Signature> {
    SIGNATURES.iter().filter(|signature| (ROW..=INSERT).contains(&signature.number))
}

/// The calls that the library has.
pub fn present(library: &dyn Library) -> Vec<&'static Signature> {
    calls().filter(|call| library.has(call.number)).collect()
}

/// The names of the calls that the library doesn't have.
pub fn lacking(library: &dyn Library) -> Vec<&'static str> {
    calls().filter(|call| !library.has(call.number)).map(|call| call.name).collect()
}
