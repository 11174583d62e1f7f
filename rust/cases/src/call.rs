//! Calls with their inputs, and the table of calls of docs/CASES.md.

/// What kind of input stands at a place of a call.
#[derive(Clone, Copy, Debug, PartialEq, Eq)]
pub enum Kind {
    Bytes,
    Words,
    Number,
    Text,
    BytesOut,
    WordsOut,
}

#[derive(Clone, Debug, PartialEq, Eq, Hash)]
pub enum Input {
    Bytes(Vec<u8>),
    Words(Vec<u64>),
    Number(u64),
    Text(Text),
    BytesOut(usize),
    WordsOut(usize),
}

/// A text buffer. Only what lies below the mark is stored.
#[derive(Clone, Debug, PartialEq, Eq, Hash)]
pub struct Text {
    pub length: usize,
    pub used: u64,
    pub stored: Vec<u8>,
}

#[derive(Clone, Debug, PartialEq, Eq, Hash)]
pub struct Call {
    pub number: u8,
    pub inputs: Vec<Input>,
}

pub struct Signature {
    pub number: u8,
    pub name: &'static str,
    pub inputs: &'static [Kind],
    /// True where the answer's output elements are words, not bytes.
    pub gives_words: bool,
}

pub const COMPARE: u8 = 1;
pub const TO_BOOL: u8 = 2;
pub const CELL_FAULT: u8 = 3;
pub const COLUMN_FAULT: u8 = 4;
pub const IS_VALID_VALUE: u8 = 5;
pub const BUT_NULLABLE: u8 = 6;
pub const FIND_COLUMN: u8 = 7;
pub const PRINT_VALUE: u8 = 8;
pub const ROW: u8 = 16;
pub const EARLIER: u8 = 17;
pub const EVALUATE: u8 = 18;
pub const FOLD: u8 = 19;
pub const BIND: u8 = 20;
pub const WITH: u8 = 21;
pub const PRINT: u8 = 22;
pub const INNER_JOIN_COLUMNS: u8 = 23;
pub const LEFT_JOIN_COLUMNS: u8 = 24;
pub const SELECT: u8 = 25;
pub const INNER_JOIN: u8 = 26;
pub const LEFT_JOIN: u8 = 27;
pub const DELETE: u8 = 28;
pub const UPDATE: u8 = 29;
pub const INSERT: u8 = 30;
pub const SELECT_INNER_JOIN: u8 = 31;
pub const SELECT_LEFT_JOIN: u8 = 32;

use Kind::*;

const fn signature(
    number: u8,
    name: &'static str,
    inputs: &'static [Kind],
    gives_words: bool,
) -> Signature {
    Signature { number, name, inputs, gives_words }
}

const NESTED: &[Kind] =
    &[Bytes, Words, Words, Bytes, Words, Words, Bytes, Words, Bytes, Text, WordsOut];

pub const SIGNATURES: &[Signature] = &[
    signature(COMPARE, "compare", &[Number, Number, Text], false),
    signature(TO_BOOL, "to_bool", &[Number], false),
    signature(CELL_FAULT, "cell_fault", &[Number, Number], false),
    signature(COLUMN_FAULT, "column_fault", &[Number, Number, Number], false),
    signature(IS_VALID_VALUE, "is_valid_value", &[Number, Number], false),
    signature(BUT_NULLABLE, "but_nullable", &[Number], false),
    signature(FIND_COLUMN, "find_column", &[Words, Text, Bytes], false),
    signature(PRINT_VALUE, "print_value", &[Number, Text, BytesOut], false),
    signature(ROW, "row", &[Words, Number, Number], true),
    signature(EARLIER, "earlier", &[Words, Text, Words, Words], false),
    signature(EVALUATE, "evaluate", &[Bytes, Words, Text], false),
    signature(FOLD, "fold", &[Bytes, Text, BytesOut], false),
    signature(BIND, "bind", &[Bytes, Words, Text, BytesOut], false),
    signature(WITH, "with", &[Bytes, Bytes, Text, BytesOut], false),
    signature(PRINT, "print", &[Bytes, Text, BytesOut], false),
    signature(
        INNER_JOIN_COLUMNS,
        "inner_join_columns",
        &[Bytes, Words, Bytes, Words, Text, WordsOut],
        true,
    ),
    signature(
        LEFT_JOIN_COLUMNS,
        "left_join_columns",
        &[Bytes, Words, Bytes, Words, Text, WordsOut],
        true,
    ),
    signature(SELECT, "select", &[Words, Words, Words, Bytes, Text, WordsOut], true),
    signature(INNER_JOIN, "inner_join", &[Words, Words, Words, Words, Bytes, Text, WordsOut], true),
    signature(LEFT_JOIN, "left_join", &[Words, Words, Words, Words, Bytes, Text, WordsOut], true),
    signature(DELETE, "delete", &[Words, Words, Bytes, Text, WordsOut], true),
    signature(UPDATE, "update", &[Words, Words, Words, Bytes, Text, WordsOut], true),
    signature(INSERT, "insert", &[Words, Words, Words, Text, WordsOut], true),
    signature(SELECT_INNER_JOIN, "select over inner_join", NESTED, true),
    signature(SELECT_LEFT_JOIN, "select over left_join", NESTED, true),
];

pub fn signature_of(number: u8) -> Option<&'static Signature> {
    SIGNATURES.iter().find(|signature| signature.number == number)
}

impl Input {
    pub fn kind(&self) -> Kind {
        match self {
            Input::Bytes(_) => Bytes,
            Input::Words(_) => Words,
            Input::Number(_) => Number,
            Input::Text(_) => Text,
            Input::BytesOut(_) => BytesOut,
            Input::WordsOut(_) => WordsOut,
        }
    }
}

/// The inputs of one kind stand in their order in the call.
impl Call {
    pub fn new(number: u8) -> Call {
        Call { number, inputs: Vec::new() }
    }

    pub fn bytes(mut self, bytes: impl Into<Vec<u8>>) -> Call {
        self.inputs.push(Input::Bytes(bytes.into()));
        self
    }

    pub fn words(mut self, words: impl Into<Vec<u64>>) -> Call {
        self.inputs.push(Input::Words(words.into()));
        self
    }

    pub fn number(mut self, number: u64) -> Call {
        self.inputs.push(Input::Number(number));
        self
    }

    pub fn text(mut self, text: self::Text) -> Call {
        self.inputs.push(Input::Text(text));
        self
    }

    pub fn bytes_out(mut self, length: usize) -> Call {
        self.inputs.push(Input::BytesOut(length));
        self
    }

    pub fn words_out(mut self, length: usize) -> Call {
        self.inputs.push(Input::WordsOut(length));
        self
    }

    pub fn byte_inputs(&self) -> Vec<&[u8]> {
        let inputs = self.inputs.iter();
        let bytes = inputs.filter_map(|input| match input {
            Input::Bytes(bytes) => Some(&bytes[..]),
            _ => None,
        });
        bytes.collect()
    }

    pub fn word_inputs(&self) -> Vec<&[u64]> {
        let inputs = self.inputs.iter();
        let words = inputs.filter_map(|input| match input {
            Input::Words(words) => Some(&words[..]),
            _ => None,
        });
        words.collect()
    }

    pub fn number_inputs(&self) -> Vec<u64> {
        let numbers = |input: &Input| match input {
            Input::Number(number) => Some(*number),
            _ => None,
        };
        self.inputs.iter().filter_map(numbers).collect()
    }

    /// The text lent, an empty one where the call takes none.
    pub fn text_input(&self) -> self::Text {
        let text = |input: &Input| match input {
            Input::Text(text) => Some(text.clone()),
            _ => None,
        };
        let none = self::Text { length: 0, used: 0, stored: Vec::new() };
        self.inputs.iter().find_map(text).unwrap_or(none)
    }

    pub fn output_length(&self) -> usize {
        let length = |input: &Input| match input {
            Input::BytesOut(length) | Input::WordsOut(length) => Some(*length),
            _ => None,
        };
        self.inputs.iter().find_map(length).unwrap_or(0)
    }

    pub fn set_output_length(&mut self, new: usize) {
        for input in &mut self.inputs {
            if let Input::BytesOut(length) | Input::WordsOut(length) = input {
                *length = new;
            }
        }
    }

    /// True where the inputs are those of the call's signature.
    pub fn is_complete(&self) -> bool {
        let kinds: Vec<Kind> = self.inputs.iter().map(Input::kind).collect();
        signature_of(self.number).is_some_and(|signature| signature.inputs == kinds)
    }
}
