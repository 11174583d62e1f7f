//! Stands in for the crate `uuid`, which is not supplied.
//!
//! Real: nothing. `value.rs` and `category.rs` name the type, but no question
//! of this project reaches it, so `Uuid` has no values at all and reading one
//! from text panics and says why.

use std::fmt;

/// A type without values: no `Uuid` can be made.
#[derive(Clone, Copy)]
pub enum Uuid {}

/// The error type of the real crate's reader; never made here.
pub enum Error {}

impl Uuid {
    /// Refuses, whatever the text.
    pub fn parse_str(text: &str) -> Result<Uuid, Error> {
        panic!("the uuid shim can't read {text:?}: uuids are not supplied")
    }

    /// Can't be called, since there is no `Uuid` to call it on.
    pub fn hyphenated(self) -> Hyphenated {
        match self {}
    }
}

/// What `hyphenated` would give.
pub enum Hyphenated {}

impl fmt::Display for Hyphenated {
    fn fmt(&self, _: &mut fmt::Formatter) -> fmt::Result {
        match *self {}
    }
}
