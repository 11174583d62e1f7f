use std::fmt;

/// Why a call gave nothing: what was wrong, and where, in words.
///
/// ```
/// use ruffleknoll::{Column, Expr, Table};
/// let clues = Table::new("Clue", vec![Column::build("Number").int32()]);
/// let refusal = clues.select(&[], Some(&Expr::col("Colour"))).unwrap_err();
/// assert_eq!(refusal.to_string(), "Clue has no column Colour; it has Number");
/// assert_eq!(refusal.number(), Some(4));
/// ```
#[derive(Clone, Debug, Eq, PartialEq)]
pub struct Refusal {
    number: Option<u8>,
    place: u64,
    message: String,
}

impl Refusal {
    /// A refusal of the library.
    pub(crate) fn numbered(number: u64, place: u64, message: String) -> Refusal {
        Refusal { number: u8::try_from(number).ok(), place, message }
    }

    /// Something that can't even be put to the library.
    pub(crate) fn unasked(message: impl Into<String>) -> Refusal {
        Refusal { number: None, place: 0, message: message.into() }
    }

    /// The library's number for it, 1 to 15; none where this crate couldn't put the question.
    pub fn number(&self) -> Option<u8> {
        self.number
    }

    /// The library's place for it: a row, a word or a byte, by the number.
    pub fn place(&self) -> u64 {
        self.place
    }
}

impl fmt::Display for Refusal {
    fn fmt(&self, formatter: &mut fmt::Formatter) -> fmt::Result {
        formatter.write_str(&self.message)
    }
}

impl std::error::Error for Refusal {}
