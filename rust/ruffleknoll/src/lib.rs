//! Values, conditions and queries of the msi crate, decided by a library that is proved to do what its definitions say.
//!
//! The names are msi's: [`Value`], [`Column`], [`Expr`], a [`Table`] and its [`Row`]s. Tables are values: `select`, the
//! joins, `insert`, `update` and `delete` give a new one. Where msi panics, or overflows, these calls give a
//! [`Refusal`] that says what was wrong and where. Reading and writing files stays with msi.
//!
//! ```
//! use ruffleknoll::{Column, Expr, Table};
//! let entries = Table::new(
//!     "Entry",
//!     vec![Column::build("Number").int32(), Column::build("Direction").string(6)],
//! );
//! let entries = entries.with_rows(vec![
//!     vec![1.into(), "across".into()],
//!     vec![1.into(), "down".into()],
//! ])?;
//! let clues = Table::new(
//!     "Clue",
//!     vec![
//!         Column::build("Number").int32(),
//!         Column::build("Direction").string(6),
//!         Column::build("Text").string(0),
//!     ],
//! );
//! let clues = clues.with_rows(vec![vec![1.into(), "down".into(), "Small knoll".into()]])?;
//! let same = |column: &str| {
//!     Expr::col(format!("Entry.{column}")).eq(Expr::col(format!("Clue.{column}")))
//! };
//! let rows = entries.left_join(&clues, &same("Number").and(same("Direction")))?;
//! let orphans = rows.select(&["Entry.Direction"], Some(&Expr::col("Clue.Text").eq(Expr::null())))?;
//! assert_eq!(orphans.row(0).unwrap().values(), ["across".into()]);
//! # Ok::<(), ruffleknoll::Refusal>(())
//! ```

#![deny(unsafe_code)]
#![warn(missing_docs)]

// On another processor it is compiled, so that its types are checked, and not linked.
#[allow(unsafe_code)]
#[cfg_attr(not(target_arch = "x86_64"), allow(dead_code))]
mod archive;
mod calls;
mod column;
mod expr;
#[cfg(not(target_arch = "x86_64"))]
mod host;
mod pool;
mod query;
mod refusal;
mod scene;
mod table;
mod value;

pub use column::{Column, ColumnBuilder, ColumnType};
pub use expr::Expr;
pub use refusal::Refusal;
pub use table::{Row, Table};
pub use value::Value;

#[cfg(target_arch = "x86_64")]
fn library() -> impl calls::Library {
    archive::Archive
}

#[cfg(not(target_arch = "x86_64"))]
fn library() -> impl calls::Library {
    host::Host
}
