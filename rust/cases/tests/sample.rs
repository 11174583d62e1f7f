//! The format, the generators and the model's general promises.

use cases::answer::model_answer;
use cases::call::*;
use cases::format::{put_case, read_cases, Case};
use cases::generate::{Layer, LAYERS};
use cases::random::Random;
use cases::sample::answered;
use cases::seen::{seen, SecondOpinion, Seen, Value};
use std::sync::OnceLock;

/// The calls of every layer, made once for all tests. Big tables are left
/// out: they take long without optimizing.
fn layers() -> &'static [(&'static str, Vec<Call>)] {
    static CALLS: OnceLock<Vec<(&'static str, Vec<Call>)>> = OnceLock::new();
    let is_small = |call: &Call| call.word_inputs().iter().all(|words| words.len() < 4000);
    let calls = |layer: &Layer| {
        let calls = (layer.calls)(&mut Random::new(7));
        (layer.name, calls.into_iter().filter(is_small).collect())
    };
    CALLS.get_or_init(|| LAYERS.iter().map(calls).collect())
}

#[test]
fn cases_come_back_from_their_bytes() {
    for (name, calls) in layers() {
        let mut cases = Vec::new();
        let mut file = Vec::new();
        for call in calls.iter().step_by(7) {
            let case = answered(call.clone(), &[]).unwrap();
            put_case(&case, &mut file);
            cases.push(case);
        }
        assert_eq!(read_cases(&file).as_ref(), Some(&cases), "{name}");
        file.pop();
        assert_eq!(read_cases(&file), None);
    }
}

#[test]
fn a_seed_gives_the_same_calls() {
    let first: Vec<Call> = (LAYERS[1].calls)(&mut Random::new(7));
    assert_eq!(first, layers()[1].1);
    let last = LAYERS.last().unwrap().calls;
    assert_eq!(last(&mut Random::new(1)), last(&mut Random::new(1)));
}

#[test]
fn cases_store_only_what_lies_below_the_mark() {
    for (_, calls) in layers() {
        for call in calls {
            let text = call.text_input();
            assert_eq!(text.stored.len() as u64, text.used.min(text.length as u64), "{call:?}");
        }
    }
}

/// An input of any content and length, mostly a short one.
fn any_input(random: &mut Random, kind: Kind) -> Input {
    let length = random.below(12);
    let word = |random: &mut Random| match random.below(4) {
        0 => random.word(),
        1 => random.below(4) as u64,
        _ => (random.below(5) as u64) << 56 | random.word() >> random.between(30, 63),
    };
    match kind {
        Kind::Bytes => {
            let kinds = [0, 1, 2, 3, 4, 16, 17, 18, 32, 38, 41, 45, 48, 49];
            let byte = |random: &mut Random| match random.below(3) {
                0 => random.word() as u8,
                _ => random.pick(&kinds),
            };
            Input::Bytes((0..length).map(|_| byte(random)).collect())
        }
        Kind::Words => Input::Words((0..length).map(|_| word(random)).collect()),
        Kind::Number => Input::Number(word(random)),
        Kind::Text => {
            let length = random.pick(&[0, 3, 40, 32_768, 32_771, 65_536, 65_537]);
            let used = random.pick(&[0, 1, 3, 4, 40, 32_768, u64::MAX]);
            let stored = vec![b'x'; used.min(length as u64) as usize];
            Input::Text(Text { length, used, stored })
        }
        Kind::BytesOut => Input::BytesOut(random.pick(&[0, 3, 447, 448])),
        Kind::WordsOut => Input::WordsOut(length),
    }
}

#[test]
fn any_inputs_are_answered() {
    let mut random = Random::new(3);
    for signature in SIGNATURES {
        for _ in 0..300 {
            let kinds = signature.inputs.iter();
            let inputs = kinds.map(|&kind| any_input(&mut random, kind)).collect();
            let call = Call { number: signature.number, inputs };
            let answer = model_answer(&call);
            // The value calls trust their words, so some read above the mark.
            assert!(answer.is_ok() || signature.number < ROW, "{call:?}");
        }
    }
}

/// Evaluates on a row, and shows the value or the refusal's number.
fn shown(condition: &[u8], row: &[u64], text: &Text) -> Option<Seen> {
    let call = Call::new(EVALUATE).bytes(condition).words(row).text(text.clone());
    let answer = model_answer(&call).unwrap();
    match seen(&call, &answer)? {
        Seen::Refused { number: 10, .. } => None,
        // Folding may move places.
        Seen::Refused { number, .. } => Some(Seen::Refused { number, place: None }),
        value => Some(value),
    }
}

#[test]
fn folding_changes_no_evaluation() {
    let mut folded = 0;
    let conditions = &layers().iter().find(|(name, _)| *name == "conditions").unwrap().1;
    for call in conditions.iter().step_by(3) {
        if call.number != EVALUATE || !has_sound_row(call) {
            continue;
        }
        let (condition, row, text) =
            (call.byte_inputs()[0], call.word_inputs()[0], call.text_input());
        let fold = Call::new(FOLD).bytes(condition).text(text.clone()).bytes_out(448);
        let answer = model_answer(&fold).unwrap();
        if answer.number != 0 {
            continue;
        }
        let output: Vec<u8> = answer.output.iter().map(|&byte| byte as u8).collect();
        let stored = [text.stored.clone(), answer.text.clone()].concat();
        // As much room above the new mark as there was above the old one.
        let length = text.length + answer.text.len();
        let after = Text { length, used: answer.used, stored };
        if after.length <= 65_536 {
            assert_eq!(shown(condition, row, &text), shown(&output, row, &after), "{call:?}");
            folded += 1;
        }
    }
    assert!(folded > 2_000, "{folded}");
}

/// The promise is about rows that are well formed under the old mark, where
/// the evaluation isn't refused with 10.
fn has_sound_row(call: &Call) -> bool {
    let (row, text) = (call.word_inputs()[0], call.text_input());
    let is_sound = row.iter().all(|&word| model::cell_fault(word, text.used as usize).is_none());
    is_sound && shown(call.byte_inputs()[0], row, &text).is_some()
}

struct NullEqualsNull;

impl SecondOpinion for NullEqualsNull {
    fn source(&self) -> u8 {
        2
    }

    fn answers(&self, call: &Call) -> Vec<Seen> {
        let is_known = call.number == EVALUATE && call.byte_inputs()[0] == [0, 0, 32];
        is_known.then_some(Seen::Value(Value::Null)).into_iter().collect()
    }
}

#[test]
fn a_second_opinion_must_agree() {
    let opinions: Vec<Box<dyn SecondOpinion>> = vec![Box::new(NullEqualsNull)];
    let text = Text { length: 32_768, used: 0, stored: Vec::new() };
    let call =
        |condition: [u8; 3]| Call::new(EVALUATE).bytes(condition).words([0]).text(text.clone());
    assert!(answered(call([0, 0, 32]), &opinions).is_err());
    let case: Case = answered(call([0, 0, 33]), &opinions).unwrap();
    assert_eq!(case.sources, 1);
}
