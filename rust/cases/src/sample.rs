//! Writing the fixed sample, and checking a sample against the model.

use crate::answer::{model_answer, Answer};
use crate::call::{signature_of, Call, Input};
use crate::format::{put_case, read_cases, Case, FROM_MODEL};
use crate::generate::{Layer, LAYERS};
use crate::random::Random;
use crate::seen::{agrees, SecondOpinion};
use std::collections::HashSet;
use std::fs;
use std::panic::{catch_unwind, AssertUnwindSafe};
use std::path::{Path, PathBuf};

/// The seed of the fixed sample.
pub const SEED: u64 = 20_010;

/// What a file of cases holds.
pub struct Tally {
    pub file: String,
    pub cases: usize,
    pub bytes: usize,
    /// Cases that a second opinion has answered alike.
    pub seconded: usize,
}

fn file_of(directory: &Path, layer: &str) -> PathBuf {
    directory.join(format!("{layer}.cases"))
}

/// Answers a call by the model and by all who know an answer to it. They
/// must agree.
pub fn answered(call: Call, opinions: &[Box<dyn SecondOpinion>]) -> Result<Case, String> {
    if !call.is_complete() {
        return Err(format!("not the inputs of call {}", call.number));
    }
    let answer = model_answer(&call).map_err(|message| format!("{message}: {call:?}"))?;
    let mut sources = FROM_MODEL;
    for opinion in opinions {
        let source = opinion.source();
        for second in opinion.answers(&call) {
            if !agrees(&call, &answer, &second) {
                let both = format!("the model has {answer:?}, source {source} {second:?}");
                return Err(format!("{call:?}: {both}"));
            }
            sources |= source;
        }
    }
    Ok(Case { call, sources, answer })
}

/// The calls without those that were made before.
fn distinct(calls: Vec<Call>) -> Vec<Call> {
    let mut made = HashSet::new();
    calls.into_iter().filter(|call| made.insert(call.clone())).collect()
}

/// The answered cases of one layer. They stay the same when another layer
/// changes.
pub fn layer_cases(
    layer: &Layer,
    seed: u64,
    opinions: &[Box<dyn SecondOpinion>],
) -> Result<Vec<Case>, String> {
    let index = LAYERS.iter().position(|other| other.name == layer.name).unwrap_or(0);
    let mut random = Random::new(seed.wrapping_add(index as u64) << 32);
    let calls = distinct((layer.calls)(&mut random));
    calls.into_iter().map(|call| answered(call, opinions)).collect()
}

/// Writes one file for each layer.
pub fn write_sample(
    directory: &Path,
    seed: u64,
    opinions: &[Box<dyn SecondOpinion>],
) -> Result<Vec<Tally>, String> {
    fs::create_dir_all(directory).map_err(|error| error.to_string())?;
    let mut tallies = Vec::new();
    for layer in LAYERS {
        let cases = layer_cases(layer, seed, opinions)?;
        let mut file = Vec::new();
        cases.iter().for_each(|case| put_case(case, &mut file));
        if !sizes(&cases).keeps_to(&LIMITS) {
            return Err(format!("{}: a case is too large for its readers", layer.name));
        }
        fs::write(file_of(directory, layer.name), &file).map_err(|error| error.to_string())?;
        tallies.push(Tally {
            file: layer.name.into(),
            cases: cases.len(),
            bytes: file.len(),
            seconded: cases.iter().filter(|case| case.sources != FROM_MODEL).count(),
        });
    }
    Ok(tallies)
}

/// The cases of one layer's file.
pub fn read_layer(directory: &Path, layer: &str) -> Result<Vec<Case>, String> {
    let path = file_of(directory, layer);
    let file = fs::read(&path).map_err(|error| format!("{}: {error}", path.display()))?;
    read_cases(&file).ok_or(format!("{}: not in the format", path.display()))
}

/// The model's answer now; a panic is no answer either.
pub fn answer_now(call: &Call) -> Result<Answer, String> {
    catch_unwind(AssertUnwindSafe(|| model_answer(call))).unwrap_or(Err("panicked".into()))
}

/// The cases of a file that the model answers otherwise now, by number.
pub fn differences(cases: &[Case]) -> Vec<usize> {
    let differs = |case: &Case| answer_now(&case.call).as_ref() != Ok(&case.answer);
    (0..cases.len()).filter(|&number| differs(&cases[number])).collect()
}

/// One case for people to read.
pub fn shown(case: &Case) -> String {
    let name = signature_of(case.call.number).map_or("?", |signature| signature.name);
    let inputs: Vec<String> = case.call.inputs.iter().map(shown_input).collect();
    format!("{name} sources {} {}\n  {:x?}", case.sources, inputs.join(" "), case.answer)
}

fn shown_input(input: &Input) -> String {
    match input {
        Input::Bytes(bytes) => format!("{bytes:?}"),
        Input::Words(words) => format!("{words:x?}"),
        Input::Number(number) => format!("{number:x}"),
        Input::Text(text) => {
            let stored = String::from_utf8_lossy(&text.stored);
            format!("text({}, used {}, {stored:?})", text.length, text.used)
        }
        Input::BytesOut(length) | Input::WordsOut(length) => format!("output({length})"),
    }
}

/// The greatest sizes in a file, for a reader with fixed buffers.
#[derive(Default, Debug)]
pub struct Sizes {
    pub case: usize,
    pub byte_slice: usize,
    pub word_slice: usize,
    pub text_length: usize,
    pub text_stored: usize,
    pub bytes_out: usize,
    pub words_out: usize,
}

/// What docs/CASES.md promises to readers.
const LIMITS: Sizes = Sizes {
    case: 140_000,
    byte_slice: 300,
    word_slice: 4097,
    text_length: 65_537,
    text_stored: 32_768,
    bytes_out: 1100,
    words_out: 8200,
};

impl Sizes {
    pub fn include(&mut self, case: &Case, bytes: usize) {
        grow(&mut self.case, bytes);
        for input in &case.call.inputs {
            match input {
                Input::Bytes(bytes) => grow(&mut self.byte_slice, bytes.len()),
                Input::Words(words) => grow(&mut self.word_slice, words.len()),
                Input::Number(_) => {}
                Input::Text(text) => {
                    grow(&mut self.text_length, text.length);
                    grow(&mut self.text_stored, text.stored.len());
                }
                Input::BytesOut(length) => grow(&mut self.bytes_out, *length),
                Input::WordsOut(length) => grow(&mut self.words_out, *length),
            }
        }
    }

    fn all(&self) -> [usize; 7] {
        [
            self.case,
            self.byte_slice,
            self.word_slice,
            self.text_length,
            self.text_stored,
            self.bytes_out,
            self.words_out,
        ]
    }

    fn keeps_to(&self, limits: &Sizes) -> bool {
        self.all().iter().zip(limits.all()).all(|(&size, limit)| size <= limit)
    }
}

fn grow(greatest: &mut usize, size: usize) {
    *greatest = (*greatest).max(size);
}

pub fn sizes(cases: &[Case]) -> Sizes {
    let mut sizes = Sizes::default();
    for case in cases {
        let mut bytes = Vec::new();
        put_case(case, &mut bytes);
        sizes.include(case, bytes.len());
    }
    sizes
}
