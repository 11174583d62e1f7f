//! The model in the place of the archive, to try the comparison itself.

use crate::image::{words_in, Argument};
use crate::library::{Answered, Asked, Library};
use cases::answer::{run, Lent, Outcome};
use cases::call::{signature_of, Call, Kind, EARLIER};
use std::ops::Range;

pub struct StandIn;

/// Reads a call back out of the memory that it was lent in.
struct Reader<'a> {
    arguments: &'a [Argument],
    memory: &'a [u8],
    call: Call,
    lent: Lent,
    text: Range<usize>,
    output: Range<usize>,
}

impl Reader<'_> {
    fn next(&mut self) -> Argument {
        let (first, rest) = self.arguments.split_first().expect("an argument");
        self.arguments = rest;
        *first
    }

    fn number(&mut self) -> u64 {
        match self.next() {
            Argument::Number(number) => number,
            Argument::Place(_) => panic!("a place where a number belongs"),
        }
    }

    /// A slice's place; an empty one may point anywhere.
    fn slice(&mut self, size: usize) -> Range<usize> {
        let pointer = self.next();
        let length = self.number() as usize * size;
        match pointer {
            Argument::Place(at) => at..at + length,
            Argument::Number(_) => 0..length,
        }
    }

    fn take(&mut self, kind: Kind) {
        let call = std::mem::replace(&mut self.call, Call::new(0));
        self.call = match kind {
            Kind::Bytes => {
                let place = self.slice(1);
                call.bytes(&self.memory[place])
            }
            Kind::Words => {
                let place = self.slice(8);
                call.words(words_in(&self.memory[place]))
            }
            Kind::Number => call.number(self.number()),
            Kind::Text => {
                self.text = self.slice(1);
                self.lent.text = self.memory[self.text.clone()].to_vec();
                self.lent.used = self.number() as usize;
                call
            }
            Kind::BytesOut => {
                self.output = self.slice(1);
                self.lent.bytes_out = self.memory[self.output.clone()].to_vec();
                call
            }
            Kind::WordsOut => {
                self.output = self.slice(8);
                self.lent.words_out = words_in(&self.memory[self.output.clone()]);
                call
            }
        };
    }
}

impl Library for StandIn {
    fn ask(&mut self, number: u8, arguments: &[Argument], memory: &mut [u8]) -> Asked {
        let signature = signature_of(number).ok_or("no such call")?;
        let lent = Lent { text: Vec::new(), used: 0, bytes_out: Vec::new(), words_out: Vec::new() };
        let call = Call::new(number);
        let mut reader = Reader { arguments, memory, call, lent, text: 0..0, output: 0..0 };
        signature.inputs.iter().for_each(|&kind| reader.take(kind));
        let Reader { call, mut lent, text, output, .. } = reader;
        let used = lent.used as u64;
        let outcome = run(&call, &mut lent);
        memory[text].copy_from_slice(&lent.text);
        let words = lent.words_out.iter().flat_map(|word| word.to_le_bytes());
        let written: Vec<u8> = lent.bytes_out.iter().copied().chain(words).collect();
        memory[output].copy_from_slice(&written);
        Ok(match outcome {
            Err(refusal) => [refusal.number as u64, refusal.place, 0, used],
            Ok(outcome) => accepted(number, &outcome),
        })
    }
}

fn accepted(number: u8, outcome: &Outcome) -> Answered {
    match number {
        EARLIER => [0, 0, outcome.value, 0],
        // For `row` the outcome has the part's length in the place of the mark.
        _ => [0, 0, outcome.value, outcome.used as u64],
    }
}
