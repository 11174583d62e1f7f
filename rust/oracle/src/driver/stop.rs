//! Why a question got no result, and the search for its place.

use super::panics::{caught, Caught};
use crate::plain::Said;
use std::io;

/// A run that ended without a result; its place is not known yet.
pub enum Stop {
    /// An error of the copied files, by document 01's number.
    Refused {
        number: u8,
        message: String,
    },
    /// A panic while a query or an evaluation ran.
    Panicked(Caught),
    /// A panic in a builder, with the node whose builder was called.
    BuildPanicked {
        node: u64,
        panic: Caught,
    },
    CannotAsk(String),
}

impl Stop {
    pub fn cannot_ask(why: impl Into<String>) -> Stop {
        Stop::CannotAsk(why.into())
    }

    /// The number of a refusal or a panic that happened while running.
    fn number(&self) -> Option<u8> {
        match self {
            Stop::Refused { number, .. } => Some(*number),
            Stop::Panicked(panic) => Some(panic.number),
            Stop::BuildPanicked { .. } | Stop::CannotAsk(_) => None,
        }
    }

    /// The answer, with a place found by the caller.
    pub fn at<T>(self, place: u64) -> Said<T> {
        match self {
            Stop::Refused { number, .. } => Said::Refused { number, place },
            Stop::Panicked(panic) => Said::Panicked {
                number: panic.number,
                place: Some(place),
                message: panic.message,
            },
            Stop::BuildPanicked { panic, .. } => Said::Panicked {
                number: panic.number,
                place: None,
                message: format!("while building: {}", panic.message),
            },
            Stop::CannotAsk(why) => Said::CannotAsk(why),
        }
    }
}

/// Runs a query; its errors get their numbers and its panics are caught.
pub fn run<T>(query: impl FnOnce() -> io::Result<T>) -> Result<T, Stop> {
    match caught(query) {
        Ok(Ok(result)) => Ok(result),
        Ok(Err(error)) => Err(refusal(&error)),
        Err(panic) => Err(Stop::Panicked(panic)),
    }
}

/// Several refusals share a kind of error, so the message decides. Each test
/// looks at the beginning, or at a part behind it that a text in the message
/// can't imitate: values stand first only in the message of 13, and a printed
/// value never begins like the others.
fn refusal(error: &io::Error) -> Stop {
    let message = error.to_string();
    let begins = |words: &str| message.starts_with(words);
    let about_table = begins("Table \"");
    let no_column = about_table && message.contains(" has no column named ");
    let invalid = message.contains(" is not a valid value for column ");
    let number = match error.kind() {
        io::ErrorKind::AlreadyExists if about_table => 11,
        io::ErrorKind::InvalidData if begins("Malformed table \"") => 14,
        io::ErrorKind::InvalidInput if no_column => 4,
        // What else begins so is a row of the wrong length.
        io::ErrorKind::InvalidInput if about_table => 0,
        io::ErrorKind::InvalidInput
            if begins("Cannot insert multiple rows with key ") =>
        {
            12
        }
        io::ErrorKind::InvalidInput if invalid => 13,
        _ => 0,
    };
    if number == 0 {
        Stop::CannotAsk(message)
    } else {
        Stop::Refused { number, message }
    }
}

/// The number of the last element of the shortest beginning that still stops
/// as the whole does. The queries read their elements in order and stop at
/// the first that fails, so a longer beginning never stops less, and the
/// range may be halved.
pub fn last_of_shortest<T>(
    whole: &Stop,
    length: usize,
    run_beginning: impl Fn(usize) -> Result<T, Stop>,
) -> u64 {
    let stops_alike = |count: usize| match run_beginning(count) {
        Ok(_) => false,
        Err(stop) => stop.number() == whole.number(),
    };
    let (mut runs_through, mut stops) = (0, length);
    while stops - runs_through > 1 {
        let middle = runs_through + (stops - runs_through) / 2;
        if stops_alike(middle) {
            stops = middle;
        } else {
            runs_through = middle;
        }
    }
    (stops as u64).saturating_sub(1)
}
