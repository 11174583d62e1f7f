//! What the library answers and leaves behind, held to the model's answer.

use crate::image::{words_in, Image, Sharing};
use crate::library::{Answered, Library};
use crate::rubbish::Rubbish;
use cases::answer::{may_write_text, Answer};
use cases::call::{signature_of, Call, EARLIER, EVALUATE, ROW};
use cases::seen::is_any_start;
use model::Cell;

/// What is wrong with an answer.
#[derive(Debug, PartialEq, Eq)]
pub enum Fault {
    Differs(String),
    /// The library has no answer, and can't be asked again.
    Gone(String),
}

fn unless(holds: bool, what: impl Fn() -> String) -> Result<(), Fault> {
    if holds {
        return Ok(());
    }
    Err(Fault::Differs(what()))
}

/// Puts a call twice, over different rubbish above the mark, in the output
/// and around all buffers, and holds both answers to the model's.
pub fn check(
    library: &mut dyn Library,
    call: &Call,
    answer: &Answer,
    rubbish: &mut Rubbish,
) -> Result<(), Fault> {
    let first = check_once(library, call, answer, rubbish, Sharing::Apart)?;
    let second = check_once(library, call, answer, rubbish, Sharing::Equal)?;
    unless(first == second, || format!("{first:x?} over other rubbish is {second:x?}"))
}

fn check_once(
    library: &mut dyn Library,
    call: &Call,
    answer: &Answer,
    rubbish: &mut Rubbish,
    sharing: Sharing,
) -> Result<Answered, Fault> {
    let lent = Image::of(call, rubbish, sharing);
    let mut after = lent.memory.clone();
    let answered = library.ask(call.number, &lent.arguments, &mut after).map_err(Fault::Gone)?;
    check_numbers(call, answer, answered)?;
    check_memory(call, answer, &lent, &after)?;
    if is_computed(call, answer) {
        check_computed(answer, answered, &after[lent.text], call.text_input().used)?;
    }
    Ok(answered)
}

/// What a call answers, and its output as words, with nothing to hold it to.
pub fn observed(
    library: &mut dyn Library,
    call: &Call,
    rubbish: &mut Rubbish,
) -> Result<(Answered, Vec<u64>), Fault> {
    let mut lent = Image::of(call, rubbish, Sharing::Apart);
    let answered =
        library.ask(call.number, &lent.arguments, &mut lent.memory).map_err(Fault::Gone)?;
    Ok((answered, words_in(&lent.memory[lent.output])))
}

/// True where the answer is a text that `+` computed, whose start is open.
fn is_computed(call: &Call, answer: &Answer) -> bool {
    call.number == EVALUATE && answer.number == 0 && is_any_start(answer.value)
}

fn check_numbers(call: &Call, answer: &Answer, answered: Answered) -> Result<(), Fault> {
    let mut expected = match call.number {
        ROW => [0, 0, answer.value, answer.output.len() as u64],
        EARLIER => [0, 0, answer.value, 0],
        _ => [answer.number, answer.place, answer.value, answer.used],
    };
    if is_computed(call, answer) {
        expected[2] = answered[2];
    }
    unless(answered == expected, || format!("answered {answered:x?}, expected {expected:x?}"))
}

/// Every byte is as before, but for the result, new text, and what may be
/// written above the mark.
fn check_memory(call: &Call, answer: &Answer, lent: &Image, after: &[u8]) -> Result<(), Fault> {
    let mut expected = lent.memory.clone();
    if !lent.output.is_empty() {
        put(&mut expected, lent.output.start, &output_bytes(call, answer));
    }
    let mut free = lent.text.end..lent.text.end;
    if may_write_text(call) {
        free.start = lent.text.start + call.text_input().stored.len();
        let new = if is_computed(call, answer) { &[][..] } else { &answer.text };
        put(&mut expected, free.start, new);
        free.start += new.len();
    }
    unless(after.len() == expected.len(), || "the memory has another length".into())?;
    let is_kept = |at: &usize| free.contains(at) || after[*at] == expected[*at];
    let same =
        after[..free.start] == expected[..free.start] && after[free.end..] == expected[free.end..];
    unless(same, || {
        let at = (0..after.len()).find(|at| !is_kept(at)).unwrap_or(0);
        format!("{} is {}, expected {}", place_name(at, lent), after[at], expected[at])
    })
}

fn put(memory: &mut [u8], at: usize, bytes: &[u8]) {
    memory[at..at + bytes.len()].copy_from_slice(bytes);
}

fn output_bytes(call: &Call, answer: &Answer) -> Vec<u8> {
    if signature_of(call.number).is_some_and(|signature| signature.gives_words) {
        return answer.output.iter().flat_map(|word| word.to_le_bytes()).collect();
    }
    answer.output.iter().map(|&element| element as u8).collect()
}

fn place_name(at: usize, lent: &Image) -> String {
    if lent.text.contains(&at) {
        return format!("byte {} of the text", at - lent.text.start);
    }
    if lent.output.contains(&at) {
        return format!("byte {} of the output", at - lent.output.start);
    }
    format!("byte {at} of the memory, which only may be read or is lent to nobody,")
}

/// A computed text lies above the mark and inside the buffer.
fn check_computed(
    answer: &Answer,
    answered: Answered,
    text: &[u8],
    used: u64,
) -> Result<(), Fault> {
    let content = match model::decode(answered[2]) {
        Some(Cell::Text { start, length }) if start >= used => {
            text.get(start as usize..(start + length) as usize)
        }
        _ => None,
    };
    unless(content == Some(&answer.text), || {
        format!("the computed text {:x} is {content:?}, expected {:?}", answered[2], answer.text)
    })
}
