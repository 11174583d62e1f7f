//! The original Rust, made runnable, so that its answers can be recorded.
//!
//! `internal` holds the supplied files of msi 0.10.0 unchanged (the script
//! `check-sources` compares their checksums); crates that are not supplied
//! have stand-ins under `shims`. `driver` asks questions and only translates:
//! every answer comes out of the copied files, executed. The crate
//! `oracle_document` is built from the same sources with another `column.rs`.

#[macro_use]
mod errors;

// The copied files stay as they are, so their warnings are not ours.
#[allow(warnings)]
mod internal {
    pub mod category;
    pub mod codepage;
    pub mod column;
    pub mod expr;
    pub mod language;
    pub mod query;
    pub mod streamname;
    pub mod stringpool;
    pub mod table;
    pub mod value;
}

pub mod driver;
pub mod plain;

/// What a user of msi meets, by msi's names.
pub mod msi {
    pub use crate::driver::Package;
    pub use crate::internal::column::{Column, ColumnType};
    pub use crate::internal::expr::Expr;
    pub use crate::internal::query::{Insert, Select};
    pub use crate::internal::table::{Row, Rows};
    pub use crate::internal::value::Value;
}
