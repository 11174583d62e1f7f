//! Calls as nobody would make them: inputs of any content, and good calls
//! with several defects at once. The original is not asked.

use crate::check::{check, Fault};
use crate::drawn::told;
use crate::library::{calls, present, Library};
use crate::rubbish::Rubbish;
use crate::tally::Tally;
use crate::wide::wide_call;
use cases::answer::model_answer;
use cases::call::{Call, Input, Kind, Text};
use cases::format::{Case, FROM_MODEL};
use cases::generate::nodes;
use cases::generate::spoil::one_defect;
use cases::generate::DRAWS;
use cases::random::Random;

/// Compares so many calls; an error where the library is gone.
pub fn compare(library: &mut dyn Library, seed: u64, count: usize) -> Result<Tally, String> {
    let mut random = Random::new(seed);
    let mut rubbish = Rubbish::new(seed);
    let mut tally = Tally::of(present(library));
    while tally.total() < count {
        let call = hostile_call(&mut random);
        if !library.has(call.number) {
            continue;
        }
        let answer = model_answer(&call).map_err(|message| format!("{message}: {call:?}"))?;
        tally.count(call.number, answer.number, false);
        let fault = check(library, &call, &answer, &mut rubbish);
        let case = Case { call, sources: FROM_MODEL, answer };
        match fault {
            Ok(()) => {}
            Err(Fault::Gone(end)) => return Err(told(&end, &case)),
            Err(Fault::Differs(what)) => tally.differences.push(told(&what, &case)),
        }
    }
    Ok(tally)
}

pub fn hostile_call(random: &mut Random) -> Call {
    let mut call = match random.below(30) {
        0..=9 => wild_call(random),
        10 => wide_call(random),
        _ => random.pick(DRAWS)(random),
    };
    for _ in 0..random.pick(&[1, 2, 2, 3, 3, 4, 5, 8]) {
        damage(random, &mut call);
    }
    call
}

/// A call with inputs of any content.
fn wild_call(random: &mut Random) -> Call {
    let all = calls().count();
    let signature = calls().nth(random.below(all)).expect("a call");
    let inputs = signature.inputs.iter().map(|&kind| wild_input(random, kind)).collect();
    Call { number: signature.number, inputs }
}

fn wild_input(random: &mut Random, kind: Kind) -> Input {
    match kind {
        Kind::Bytes => Input::Bytes(wild_bytes(random)),
        Kind::Words => Input::Words(wild_words(random)),
        Kind::Number => Input::Number(wild_number(random)),
        Kind::Text => Input::Text(wild_text(random)),
        Kind::BytesOut => Input::BytesOut(wild_length(random)),
        Kind::WordsOut => Input::WordsOut(wild_length(random)),
    }
}

fn wild_length(random: &mut Random) -> usize {
    match random.below(4) {
        0 => random.pick(&[0, 1, 2, 447, 448, 449, 600]),
        1 | 2 => random.between(448, 500),
        _ => random.below(40),
    }
}

fn wild_number(random: &mut Random) -> u64 {
    match random.below(4) {
        0 => random.word(),
        1 => random.pick(&[u64::MAX, 1 << 63, 1 << 32, 1 << 31, 65_535, 65_536, 65_537]),
        _ => random.below(40) as u64,
    }
}

/// Bytes of any kind, or nodes that need not fit together.
fn wild_bytes(random: &mut Random) -> Vec<u8> {
    let count = random.pick(&[0, 1, 2, 3, 5, 8, 13, 30, 70, 256]);
    if random.one_in(3) {
        return (0..count).map(|_| random.word() as u8).collect();
    }
    (0..count.min(70)).flat_map(|_| wild_node(random)).collect()
}

fn wild_node(random: &mut Random) -> Vec<u8> {
    match random.below(8) {
        0 => vec![0],
        1 => nodes::int(random.word() as i32 >> random.below(32)),
        2 => nodes::text(random.below(40), random.below(12)),
        3 => nodes::name(random.below(40), random.below(12)),
        4 => nodes::column(random.below(34) as u8),
        5 => vec![random.between(16, 18) as u8],
        6 => vec![random.between(32, 49) as u8],
        _ => vec![random.word() as u8],
    }
}

fn wild_words(random: &mut Random) -> Vec<u64> {
    let count = random.pick(&[0, 1, 2, 2, 3, 4, 4, 6, 8, 12, 30, 64, 66, 130]);
    (0..count).map(|_| wild_word(random)).collect()
}

/// Any word, or one that is nearly a cell or a rule.
fn wild_word(random: &mut Random) -> u64 {
    match random.below(8) {
        0 => random.word(),
        1 => random.word() >> random.below(64),
        2 => nodes::int_word(random.word() as i32),
        3 => nodes::binary_word(),
        4 => random.below(4) as u64 | (random.below(8) as u64) << 8,
        5 => 0,
        _ => nodes::text_word(random.below(40), random.below(12)),
    }
}

/// Mostly with room enough; otherwise a buffer and a mark on all sides of
/// their bounds.
fn wild_text(random: &mut Random) -> Text {
    let lengths = [0, 1, 40, 300, 32_767, 32_768, 32_800, 33_100, 65_535, 65_536, 65_537, 70_000];
    let (length, used) = match random.one_in(4) {
        false => (33_100, random.below(332) as u64),
        true => {
            let length = random.pick(&lengths);
            let marks = [length as u64, length as u64 + 1, wild_number(random)];
            (length, random.pick(&marks))
        }
    };
    let stored = used.min(length as u64) as usize;
    let some: Vec<u8> = (0..stored.min(340)).map(|_| wild_byte(random)).collect();
    Text { length, used, stored: some.into_iter().cycle().take(stored).collect() }
}

/// Any byte, mostly one of few, so that texts are equal now and then.
fn wild_byte(random: &mut Random) -> u8 {
    match random.below(8) {
        0 => random.word() as u8,
        few => b"abc\"\0\n~"[few - 1],
    }
}

/// One defect more.
fn damage(random: &mut Random, call: &mut Call) {
    let index = random.below(call.inputs.len());
    match random.below(8) {
        0..=3 => one_defect(random, call),
        4 => call.inputs[index] = wild_input(random, call.inputs[index].kind()),
        5 => {
            let other = call.inputs[random.below(call.inputs.len())].clone();
            if other.kind() == call.inputs[index].kind() {
                call.inputs[index] = other;
            }
        }
        6 => flip_bits(random, &mut call.inputs[index]),
        _ => repeat(random, &mut call.inputs[index]),
    }
}

/// Changes one to four bits.
fn flip_bits(random: &mut Random, input: &mut Input) {
    for _ in 0..random.between(1, 4) {
        match input {
            Input::Bytes(bytes) if !bytes.is_empty() => {
                let place = random.below(bytes.len());
                bytes[place] ^= 1 << random.below(8);
            }
            Input::Words(words) if !words.is_empty() => {
                let place = random.below(words.len());
                words[place] ^= 1 << random.below(64);
            }
            Input::Number(number) => *number ^= 1 << random.below(64),
            Input::Text(text) if !text.stored.is_empty() => {
                let place = random.below(text.stored.len());
                text.stored[place] ^= 1 << random.below(8);
            }
            _ => {}
        }
    }
}

/// The content several times over, seldom beyond the bound on rows.
fn repeat(random: &mut Random, input: &mut Input) {
    let times = random.between(2, 40);
    match input {
        Input::Bytes(bytes) if bytes.len() < 100 => *bytes = bytes.repeat(times),
        Input::Words(words) if words.len() < 5 && random.one_in(200) => {
            *words = words.repeat(4097);
        }
        Input::Words(words) if words.len() < 20 => *words = words.repeat(times),
        _ => {}
    }
}

#[cfg(test)]
mod tests {
    use super::*;

    #[test]
    fn calls_are_complete_and_store_what_lies_below_the_mark() {
        let mut random = Random::new(5);
        for _ in 0..20_000 {
            let call = hostile_call(&mut random);
            let text = call.text_input();
            assert!(call.is_complete());
            assert_eq!(text.stored.len() as u64, text.used.min(text.length as u64), "{call:?}");
        }
    }

    /// Few are accepted, but each call is, and each gets refusals.
    #[test]
    fn every_call_gets_answers_of_both_kinds() {
        let mut random = Random::new(6);
        let mut kinds = std::collections::BTreeSet::new();
        for _ in 0..20_000 {
            let call = hostile_call(&mut random);
            let answer = model_answer(&call).unwrap();
            kinds.insert((call.number, answer.number.min(1)));
        }
        // `row` and `earlier` are never refused.
        assert_eq!(kinds.len(), 2 * calls().count() - 2);
    }
}
