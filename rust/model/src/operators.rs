//! What each operator gives for cells that are already evaluated.

use crate::value::{compare, content, decode, encode, from_bool, to_bool, Cell};

const MOST_JOINED_TEXT: u64 = 1024;

/// The text buffer, and the mark above which new text goes.
pub(crate) struct Room<'a> {
    pub text: &'a mut [u8],
    pub top: usize,
}

impl Room<'_> {
    /// Joins two texts at the mark, which advances.
    fn join(&mut self, first: (u64, u64), second: (u64, u64)) -> Result<u64, u8> {
        let length = first.1 + second.1;
        if length > MOST_JOINED_TEXT {
            return Err(7);
        }
        let mut joined = content(first.0, first.1, self.text).to_vec();
        joined.extend_from_slice(content(second.0, second.1, self.text));
        let start = self.top;
        self.append(&joined);
        Ok(encode(Cell::Text { start: start as u64, length }))
    }

    /// The checked room is never used up: 31 joins of 1,024 bytes at most.
    pub fn append(&mut self, bytes: &[u8]) {
        if let Some(part) = self.text.get_mut(self.top..self.top + bytes.len()) {
            part.copy_from_slice(bytes);
            self.top += bytes.len();
        }
    }
}

fn checked(result: Option<i32>) -> Result<u64, u8> {
    result.map(|number| encode(Cell::Int(number))).ok_or(5)
}

/// `-`, `~` and `NOT` by their node kinds.
pub(crate) fn unary(kind: u8, word: u64) -> Result<u64, u8> {
    match (kind, decode(word)) {
        (16, Some(Cell::Int(number))) => checked(number.checked_neg()),
        (17, Some(Cell::Int(number))) => checked(Some(!number)),
        (18, _) => Ok(from_bool(!to_bool(word))),
        _ => Ok(encode(Cell::Null)),
    }
}

/// The operators of kinds 32 to 46. AND and OR are none of these.
pub(crate) fn binary(kind: u8, left: u64, right: u64, room: &mut Room) -> Result<u64, u8> {
    if kind < 38 {
        return Ok(from_bool(holds(kind, left, right, room.text)));
    }
    match (kind, decode(left), decode(right)) {
        (
            38,
            Some(Cell::Text { start: a, length: m }),
            Some(Cell::Text { start: b, length: n }),
        ) => room.join((a, m), (b, n)),
        (41, _, Some(Cell::Int(0))) => Ok(encode(Cell::Null)),
        (_, Some(Cell::Int(a)), Some(Cell::Int(b))) => arithmetic(kind, a, b),
        _ => Ok(encode(Cell::Null)),
    }
}

fn holds(kind: u8, left: u64, right: u64, text: &[u8]) -> bool {
    let order = compare(left, right, text);
    match kind {
        32 => order.is_eq(),
        33 => order.is_ne(),
        34 => order.is_lt(),
        35 => order.is_le(),
        36 => order.is_gt(),
        _ => order.is_ge(),
    }
}

fn arithmetic(kind: u8, left: i32, right: i32) -> Result<u64, u8> {
    match kind {
        38 => checked(left.checked_add(right)),
        39 => checked(left.checked_sub(right)),
        40 => checked(left.checked_mul(right)),
        41 => checked(left.checked_div(right)),
        42 => checked(Some(left & right)),
        43 => checked(Some(left | right)),
        44 => checked(Some(left ^ right)),
        45 => shift_amount(right).and_then(|amount| checked(Some(left << amount))),
        _ => shift_amount(right).and_then(|amount| checked(Some(left >> amount))),
    }
}

fn shift_amount(right: i32) -> Result<u32, u8> {
    if (0..=31).contains(&right) {
        Ok(right as u32)
    } else {
        Err(6)
    }
}
