//! The bytes of a case, as docs/CASES.md lays them down.

use crate::answer::Answer;
use crate::call::{signature_of, Call, Input, Kind, Text};

/// The source of an answer, as bits.
pub const FROM_MODEL: u8 = 1;

#[derive(Clone, Debug, PartialEq, Eq)]
pub struct Case {
    pub call: Call,
    pub sources: u8,
    pub answer: Answer,
}

fn put_count(count: usize, bytes: &mut Vec<u8>) {
    bytes.extend_from_slice(&(count as u32).to_le_bytes());
}

fn put_bytes(part: &[u8], bytes: &mut Vec<u8>) {
    put_count(part.len(), bytes);
    bytes.extend_from_slice(part);
}

fn put_words(words: &[u64], bytes: &mut Vec<u8>) {
    put_count(words.len(), bytes);
    for word in words {
        bytes.extend_from_slice(&word.to_le_bytes());
    }
}

fn put_input(input: &Input, bytes: &mut Vec<u8>) {
    match input {
        Input::Bytes(part) => put_bytes(part, bytes),
        Input::Words(words) => put_words(words, bytes),
        Input::Number(number) => bytes.extend_from_slice(&number.to_le_bytes()),
        Input::Text(text) => {
            put_count(text.length, bytes);
            bytes.extend_from_slice(&text.used.to_le_bytes());
            put_bytes(&text.stored, bytes);
        }
        Input::BytesOut(length) | Input::WordsOut(length) => put_count(*length, bytes),
    }
}

/// Appends a case to a file's bytes.
pub fn put_case(case: &Case, file: &mut Vec<u8>) {
    let mut bytes = vec![case.call.number, case.sources, 0, 0];
    for input in &case.call.inputs {
        put_input(input, &mut bytes);
    }
    let answer = &case.answer;
    for number in [answer.number, answer.place, answer.value, answer.used] {
        bytes.extend_from_slice(&number.to_le_bytes());
    }
    if signature_of(case.call.number).is_some_and(|signature| signature.gives_words) {
        put_words(&answer.output, &mut bytes);
    } else {
        let output: Vec<u8> = answer.output.iter().map(|&element| element as u8).collect();
        put_bytes(&output, &mut bytes);
    }
    put_bytes(&answer.text, &mut bytes);
    put_bytes(&bytes, file);
}

/// Reads on through bytes; nothing where they end too early.
struct Reader<'a> {
    rest: &'a [u8],
}

impl<'a> Reader<'a> {
    fn take(&mut self, count: usize) -> Option<&'a [u8]> {
        let (part, rest) = self.rest.split_at_checked(count)?;
        self.rest = rest;
        Some(part)
    }

    fn number(&mut self) -> Option<u64> {
        Some(u64::from_le_bytes(self.take(8)?.try_into().ok()?))
    }

    fn count(&mut self) -> Option<usize> {
        Some(u32::from_le_bytes(self.take(4)?.try_into().ok()?) as usize)
    }

    fn bytes(&mut self) -> Option<Vec<u8>> {
        let count = self.count()?;
        Some(self.take(count)?.to_vec())
    }

    fn words(&mut self) -> Option<Vec<u64>> {
        (0..self.count()?).map(|_| self.number()).collect()
    }

    fn input(&mut self, kind: Kind) -> Option<Input> {
        Some(match kind {
            Kind::Bytes => Input::Bytes(self.bytes()?),
            Kind::Words => Input::Words(self.words()?),
            Kind::Number => Input::Number(self.number()?),
            Kind::Text => {
                let (length, used) = (self.count()?, self.number()?);
                Input::Text(Text { length, used, stored: self.bytes()? })
            }
            Kind::BytesOut => Input::BytesOut(self.count()?),
            Kind::WordsOut => Input::WordsOut(self.count()?),
        })
    }

    fn case(&mut self) -> Option<Case> {
        let head = self.take(4)?;
        let signature = signature_of(head[0])?;
        let inputs: Option<Vec<Input>> =
            signature.inputs.iter().map(|&kind| self.input(kind)).collect();
        let call = Call { number: head[0], inputs: inputs? };
        let (number, place) = (self.number()?, self.number()?);
        let (value, used) = (self.number()?, self.number()?);
        let output = if signature.gives_words {
            self.words()?
        } else {
            self.bytes()?.iter().map(|&byte| byte as u64).collect()
        };
        let answer = Answer { number, place, value, used, output, text: self.bytes()? };
        Some(Case { call, sources: head[1], answer })
    }
}

/// All cases of a file, or nothing where it is not in the format.
pub fn read_cases(file: &[u8]) -> Option<Vec<Case>> {
    let mut reader = Reader { rest: file };
    let mut cases = Vec::new();
    while !reader.rest.is_empty() {
        let length = reader.count()?;
        let mut part = Reader { rest: reader.take(length)? };
        cases.push(part.case()?);
        if !part.rest.is_empty() {
            return None;
        }
    }
    Some(cases)
}
