//! The same sources as the crate `oracle`, with one file replaced: `column.rs`
//! follows document 01's added rules here. Every Int is valid and can be
//! stored, Null is valid in a nullable Binary column, text bounds count bytes,
//! and any cell can be stored in any column. All the rest (values, conditions,
//! queries, tables, the string pool) is the original.

#[macro_use]
#[path = "../../src/errors.rs"]
mod errors;

// The copied files stay as they are, so their warnings are not ours.
#[allow(warnings)]
mod internal {
    #[path = "../../../src/internal/category.rs"]
    pub mod category;
    #[path = "../../../src/internal/codepage.rs"]
    pub mod codepage;
    // The one file that differs; it stands in this crate.
    pub mod column;
    #[path = "../../../src/internal/expr.rs"]
    pub mod expr;
    #[path = "../../../src/internal/language.rs"]
    pub mod language;
    #[path = "../../../src/internal/query.rs"]
    pub mod query;
    #[path = "../../../src/internal/streamname.rs"]
    pub mod streamname;
    #[path = "../../../src/internal/stringpool.rs"]
    pub mod stringpool;
    #[path = "../../../src/internal/table.rs"]
    pub mod table;
    #[path = "../../../src/internal/value.rs"]
    pub mod value;
}

#[path = "../../src/driver/mod.rs"]
pub mod driver;

pub use oracle::plain;
