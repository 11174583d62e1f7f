//! The model's answer to a call, with its duties towards lent buffers.

use crate::call::*;
use model::{Cell, Earlier, Refusal};

/// The start that marks a computed text, whose real start is not fixed.
pub const ANY_START: u64 = 0xffff_ffff;

/// The output that a join has on the way to a select.
pub const JOINED_WORDS: usize = 9000;

#[derive(Clone, Debug, PartialEq, Eq)]
pub struct Answer {
    pub number: u64,
    pub place: u64,
    pub value: u64,
    pub used: u64,
    pub output: Vec<u64>,
    pub text: Vec<u8>,
}

/// What a call left behind, before the buffers are looked at.
pub struct Outcome {
    pub value: u64,
    pub used: usize,
    pub written: usize,
}

/// The buffers lent to one call.
pub struct Lent {
    pub text: Vec<u8>,
    pub used: usize,
    pub bytes_out: Vec<u8>,
    pub words_out: Vec<u64>,
}

impl Lent {
    /// Fills what the call may not depend on with rubbish.
    fn new(call: &Call, rubbish: u8) -> Lent {
        let text = call.text_input();
        let mut buffer = text.stored;
        buffer.resize(text.length, rubbish);
        let length = call.output_length();
        let takes_words = call.inputs.iter().any(|input| input.kind() == Kind::WordsOut);
        Lent {
            text: buffer,
            used: text.used as usize,
            bytes_out: vec![rubbish; if takes_words { 0 } else { length }],
            words_out: vec![rubbish as u64; if takes_words { length } else { 0 }],
        }
    }

    fn output(&self) -> Vec<u64> {
        let bytes = self.bytes_out.iter().map(|&byte| byte as u64);
        bytes.chain(self.words_out.iter().copied()).collect()
    }
}

/// Asks the model twice, with different rubbish where nothing may depend on
/// it, and checks that the lent buffers are left as document 01 says.
pub fn model_answer(call: &Call) -> Result<Answer, String> {
    let first = answer_over(call, 0x5a)?;
    let second = answer_over(call, 0xa7)?;
    if first != second {
        return Err("the answer depends on rubbish".into());
    }
    Ok(first)
}

fn answer_over(call: &Call, rubbish: u8) -> Result<Answer, String> {
    let before = Lent::new(call, rubbish);
    let mut lent = Lent::new(call, rubbish);
    let outcome = run(call, &mut lent);
    let written = outcome.as_ref().map_or(0, |outcome| outcome.written);
    let output = lent.output();
    if output[written..] != before.output()[written..] {
        return Err("the output is touched where it must stay".into());
    }
    let kept =
        if may_write_text(call) { before.used.min(before.text.len()) } else { before.text.len() };
    if lent.text[..kept] != before.text[..kept] {
        return Err("the text is touched where it must stay".into());
    }
    let refused = |refusal: Refusal| Answer {
        number: refusal.number as u64,
        place: refusal.place,
        value: 0,
        used: before.used as u64,
        output: Vec::new(),
        text: Vec::new(),
    };
    match outcome {
        Err(refusal) => Ok(refused(refusal)),
        Ok(outcome) => accepted(call, &lent, &outcome, &output[..written]),
    }
}

/// True where the call may write above the mark.
pub fn may_write_text(call: &Call) -> bool {
    match call.number {
        EVALUATE | FOLD | INNER_JOIN_COLUMNS | LEFT_JOIN_COLUMNS => true,
        SELECT_INNER_JOIN | SELECT_LEFT_JOIN => true,
        SELECT | DELETE | UPDATE | INNER_JOIN | LEFT_JOIN => !call.byte_inputs()[0].is_empty(),
        _ => false,
    }
}

fn accepted(call: &Call, lent: &Lent, outcome: &Outcome, output: &[u64]) -> Result<Answer, String> {
    let mut answer = Answer {
        number: 0,
        place: 0,
        value: outcome.value,
        used: outcome.used as u64,
        output: output.to_vec(),
        text: Vec::new(),
    };
    if call.number == ROW {
        let words = call.word_inputs()[0];
        let start = outcome.value as usize;
        answer.output = words[start..start + outcome.used].to_vec();
        answer.used = 0;
    } else if outcome.used > lent.used {
        let new = lent.text.get(lent.used..outcome.used);
        answer.text = new.ok_or("the mark lies beyond the text")?.to_vec();
    } else if call.number == EVALUATE && is_computed_text(call, outcome.value) {
        answer.text = computed_text(lent, outcome.value)?;
        let length = answer.text.len() as u64;
        answer.value = model::encode(Cell::Text { start: ANY_START, length });
    }
    Ok(answer)
}

/// Only `+` computes texts, so the last node tells.
fn is_computed_text(call: &Call, word: u64) -> bool {
    let is_text = matches!(model::decode(word), Some(Cell::Text { .. }));
    is_text && model::last_kind(call.byte_inputs()[0]) == Some(38)
}

fn computed_text(lent: &Lent, word: u64) -> Result<Vec<u8>, String> {
    let Some(Cell::Text { start, length }) = model::decode(word) else {
        return Err("no text".into());
    };
    let part = lent.text.get(start as usize..(start + length) as usize);
    match part {
        Some(part) if start >= lent.used as u64 => Ok(part.to_vec()),
        _ => Err("a computed text lies outside the room".into()),
    }
}

/// Puts the call to the model, over buffers as they are lent.
pub fn run(call: &Call, lent: &mut Lent) -> Result<Outcome, Refusal> {
    match call.number {
        COMPARE..=PRINT_VALUE => run_value_call(call, lent),
        ROW | EARLIER => Ok(run_reading_call(call, lent)),
        EVALUATE..=PRINT => run_condition_call(call, lent),
        INNER_JOIN_COLUMNS | LEFT_JOIN_COLUMNS => run_column_call(call, lent),
        SELECT_INNER_JOIN | SELECT_LEFT_JOIN => run_nested_call(call, lent),
        _ => run_row_call(call, lent),
    }
}

fn plain(lent: &Lent, value: u64) -> Outcome {
    Outcome { value, used: lent.used, written: 0 }
}

fn fault(found: Option<(u8, usize)>, lent: &Lent) -> Result<Outcome, Refusal> {
    match found {
        Some((number, place)) => Err(Refusal { number, place: place as u64 }),
        None => Ok(plain(lent, 0)),
    }
}

fn run_value_call(call: &Call, lent: &mut Lent) -> Result<Outcome, Refusal> {
    let numbers = call.number_inputs();
    let value = match call.number {
        COMPARE => (model::compare(numbers[0], numbers[1], &lent.text) as i8 + 1) as u64,
        TO_BOOL => model::to_bool(numbers[0]) as u64,
        CELL_FAULT => {
            let found = model::cell_fault(numbers[0], numbers[1] as usize);
            return fault(found.map(|number| (number, 0)), lent);
        }
        COLUMN_FAULT => {
            return fault(model::column_fault(numbers[0], numbers[1], numbers[2] as usize), lent);
        }
        IS_VALID_VALUE => model::is_valid_value(numbers[0], numbers[1]) as u64,
        BUT_NULLABLE => model::but_nullable(numbers[0]),
        FIND_COLUMN => {
            let columns = call.word_inputs()[0];
            let found = model::find_column(columns, &lent.text, call.byte_inputs()[0]);
            found.unwrap_or(columns.len() / 2) as u64
        }
        _ => {
            let count = model::print_value(numbers[0], &lent.text, &mut lent.bytes_out)?;
            return Ok(Outcome { value: count as u64, used: lent.used, written: count });
        }
    };
    Ok(plain(lent, value))
}

/// For `row` the outcome holds the part's start and length.
fn run_reading_call(call: &Call, lent: &Lent) -> Outcome {
    let words = call.word_inputs();
    if call.number == EARLIER {
        let chosen = model::earlier(words[0], &lent.text, lent.used, words[1], words[2]);
        let value = match chosen {
            Earlier::Empty => 0,
            Earlier::First => 1,
            Earlier::Second => 2,
        };
        return plain(lent, value);
    }
    let numbers = call.number_inputs();
    let part = model::row(words[0], numbers[0] as usize, numbers[1] as usize);
    let start = if part.is_empty() { 0 } else { numbers[0] * numbers[1] };
    Outcome { value: start, used: part.len(), written: 0 }
}

fn run_condition_call(call: &Call, lent: &mut Lent) -> Result<Outcome, Refusal> {
    let bytes = call.byte_inputs();
    let words = call.word_inputs();
    let used = lent.used;
    let count = match call.number {
        EVALUATE => {
            let word = model::evaluate(bytes[0], words[0], &mut lent.text, used)?;
            return Ok(plain(lent, word));
        }
        FOLD => {
            let written = model::fold(bytes[0], &mut lent.text, used, &mut lent.bytes_out)?;
            let count = written.count;
            return Ok(Outcome { value: count as u64, used: written.used, written: count });
        }
        BIND => model::bind(bytes[0], words[0], &lent.text, used, &mut lent.bytes_out)?,
        WITH => model::with(bytes[0], bytes[1], &lent.text, used, &mut lent.bytes_out)?,
        _ => model::print(bytes[0], &lent.text, used, &mut lent.bytes_out)?,
    };
    Ok(Outcome { value: count as u64, used, written: count })
}

fn run_column_call(call: &Call, lent: &mut Lent) -> Result<Outcome, Refusal> {
    let bytes = call.byte_inputs();
    let words = call.word_inputs();
    let joined = match call.number {
        INNER_JOIN_COLUMNS => model::inner_join_columns,
        _ => model::left_join_columns,
    };
    let (text, output) = (&mut lent.text, &mut lent.words_out);
    let written = joined(bytes[0], words[0], bytes[1], words[1], text, lent.used, output)?;
    Ok(Outcome { value: written.count as u64, used: written.used, written: written.count })
}

/// The tables of a join: first the left one's columns and rows, then the right one's.
fn join_of<'a>(words: &[&'a [u64]], condition: &'a [u8]) -> model::Join<'a> {
    let [left_columns, left_rows, right_columns, right_rows, ..] = words[..] else {
        unreachable!()
    };
    model::Join { left_columns, left_rows, right_columns, right_rows, condition }
}

/// Columns, rows and select in turn, each on what the one before left.
fn run_nested_call(call: &Call, lent: &mut Lent) -> Result<Outcome, Refusal> {
    let (names, words) = (call.byte_inputs(), call.word_inputs());
    let [left, _, right, _, list] = words[..] else { unreachable!() };
    let joined_columns = match call.number {
        SELECT_INNER_JOIN => model::inner_join_columns,
        _ => model::left_join_columns,
    };
    let join = match call.number {
        SELECT_INNER_JOIN => model::inner_join,
        _ => model::left_join,
    };
    let (text, mut columns, mut rows) = (&mut lent.text, vec![0; 64], vec![0; JOINED_WORDS]);
    let head = joined_columns(names[0], left, names[1], right, text, lent.used, &mut columns)?;
    let used = head.used;
    let count = join(&join_of(&words, names[2]), text, used, &mut rows)?;
    let width = head.count / 2;
    let (columns, rows) = (&columns[..head.count], &rows[..count * width]);
    let count = model::select(columns, rows, list, names[3], text, used, &mut lent.words_out)?;
    let width = if list.is_empty() { width } else { list.len() };
    Ok(Outcome { value: count as u64, used, written: count * width })
}

fn run_row_call(call: &Call, lent: &mut Lent) -> Result<Outcome, Refusal> {
    let words = call.word_inputs();
    let columns = words[0].len() / 2;
    let (text, used, output) = (&mut lent.text, lent.used, &mut lent.words_out);
    if call.number == INSERT {
        let rows = model::insert(words[0], words[1], words[2], text, used, output)?;
        return Ok(Outcome { value: rows as u64, used, written: rows * columns });
    }
    let condition = call.byte_inputs()[0];
    let (rows, width) = match call.number {
        SELECT => {
            let rows = model::select(words[0], words[1], words[2], condition, text, used, output)?;
            (rows, if words[2].is_empty() { columns } else { words[2].len() })
        }
        DELETE => (model::delete(words[0], words[1], condition, text, used, output)?, columns),
        UPDATE => {
            (model::update(words[0], words[1], words[2], condition, text, used, output)?, columns)
        }
        _ => {
            let join = match call.number {
                INNER_JOIN => model::inner_join,
                _ => model::left_join,
            };
            let rows = join(&join_of(&words, condition), text, used, output)?;
            (rows, columns + words[2].len() / 2)
        }
    };
    Ok(Outcome { value: rows as u64, used, written: rows * width })
}
