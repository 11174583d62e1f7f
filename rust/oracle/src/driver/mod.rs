//! Puts questions to the copied files and translates what they say.
//!
//! Nothing here decides an answer. Values, conditions and queries run in the
//! copied files; this module only builds them, catches panics, tells errors
//! apart by their messages, and finds places by asking again over less.
//!
//! Places: row calls give the row number (joins: left row × right rows +
//! right row), the index in the column list or the sets, the word in the new
//! rows or the new row, or, for a column that a condition names in vain, its
//! byte offset in the bound form. An evaluation gives 0. `fold` gives the
//! number of the operator's node in postfix order, since only the caller
//! knows how long its column nodes are.

mod asked;
mod build;
mod change;
mod columns;
mod conditions;
mod insert;
mod join;
mod nested;
mod package;
mod panics;
mod reader;
mod select;
mod stop;
mod store;
mod translate;
mod values;

pub use self::change::{delete, kept_rows, update, updated_rows};
pub use self::columns::{
    column_from_file, column_number, joined_columns, valid_column_name,
    valid_table_name, valid_value,
};
pub use self::conditions::{
    column_names, evaluate, fold, print_built, print_unfolded, print_with,
};
pub use self::insert::{insert, inserted_order};
pub use self::join::{join, joined_pairs};
pub use self::nested::{select_over_join, selected_pairs};
pub use self::package::Package;
pub use self::select::{select, selected_rows};
pub use self::store::{read_back, read_back_pool};
pub use self::values::{
    compare, compare_keys, equal, overflow_is_caught, print_cell, truth,
};
