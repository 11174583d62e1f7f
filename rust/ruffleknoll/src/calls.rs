//! The exported calls, as slices instead of pointers: what include/ruffleknoll.h says, in safe words.

use crate::Refusal;

/// What a call answers, in the header's order.
#[repr(C)]
#[derive(Clone, Copy, Debug, Eq, PartialEq)]
pub struct Answer {
    /// 0 if accepted, else the refusal's number.
    pub number: u64,
    pub place: u64,
    pub value: u64,
    /// The mark after the call.
    pub used: u64,
}

/// A text buffer that a call writes above its mark.
pub struct Text<'a> {
    pub bytes: &'a mut [u8],
    pub used: usize,
}

/// A text buffer that a call only reads.
#[derive(Clone, Copy)]
pub struct Stored<'a> {
    pub bytes: &'a [u8],
    pub used: usize,
}

/// Columns and rows that are lent together.
#[derive(Clone, Copy)]
pub struct Lent<'a> {
    pub columns: &'a [u64],
    pub rows: &'a [u64],
}

/// A table's name and columns.
#[derive(Clone, Copy)]
pub struct Head<'a> {
    pub name: &'a [u8],
    pub columns: &'a [u64],
}

#[derive(Clone, Copy, Debug, Eq, PartialEq)]
pub enum Join {
    Inner,
    Left,
}

type Answered = Result<Answer, Refusal>;

/// The library, linked or in a process of its own. An error where it can't be asked.
pub trait Library {
    fn earlier(&self, columns: &[u64], text: Stored, first: &[u64], second: &[u64]) -> Answered;

    fn evaluate(&self, condition: &[u8], row: &[u64], text: Text) -> Answered;

    fn fold(&self, condition: &[u8], text: Text, output: &mut [u8]) -> Answered;

    fn bind(&self, named: &[u8], columns: &[u64], text: Stored, output: &mut [u8]) -> Answered;

    fn with(&self, old: &[u8], new: &[u8], text: Stored, output: &mut [u8]) -> Answered;

    fn print(&self, condition: &[u8], text: Stored, output: &mut [u8]) -> Answered;

    fn join_columns(
        &self,
        join: Join,
        left: Head,
        right: Head,
        text: Text,
        output: &mut [u64],
    ) -> Answered;

    fn select(
        &self,
        table: Lent,
        list: &[u64],
        condition: &[u8],
        text: Text,
        output: &mut [u64],
    ) -> Answered;

    fn join(
        &self,
        join: Join,
        sides: [Lent; 2],
        condition: &[u8],
        text: Text,
        output: &mut [u64],
    ) -> Answered;

    fn delete(&self, table: Lent, condition: &[u8], text: Text, output: &mut [u64]) -> Answered;

    fn update(
        &self,
        table: Lent,
        sets: &[u64],
        condition: &[u8],
        text: Text,
        output: &mut [u64],
    ) -> Answered;

    fn insert(&self, table: Lent, new: &[u64], text: Stored, output: &mut [u64]) -> Answered;
}
