//! A plain, slow model of document 01: every call and every refusal, in that
//! document's order. It is written to be read next to the document, so it
//! allocates freely and looks everything up again instead of remembering it.

mod condition;
mod expression;
mod operators;
mod printing;
mod query;
mod table;
mod value;

pub use condition::{last_kind, read_tree, Node, Tree};
pub use expression::{bind, evaluate, fold, with, Written};
pub use printing::{print, print_value};
pub use query::{delete, inner_join, insert, left_join, select, update, Join};
pub use table::{earlier, inner_join_columns, left_join_columns, row, Earlier};
pub use value::{
    but_nullable, cell_fault, column_fault, compare, decode, encode, find_column, is_valid_value,
    to_bool, Cell,
};

/// A refusal by document 01's number, with its place.
#[derive(Clone, Copy, Debug, PartialEq, Eq)]
pub struct Refusal {
    pub number: u8,
    pub place: u64,
}

impl Refusal {
    pub(crate) fn at(number: u8, place: usize) -> Refusal {
        Refusal { number, place: place as u64 }
    }
}
