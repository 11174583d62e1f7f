//! The original Rust, the very files that `rust/oracle` copies, with nothing around it that the clock could see. Two
//! crates are built from here: with overflow checks, as the oracle is, and without.

#[macro_use]
#[path = "../../../oracle/src/errors.rs"]
mod errors;

// The copied files stay as they are, so their warnings and their layout are not ours.
#[allow(warnings)]
#[rustfmt::skip]
#[path = "../../../oracle/src/internal"]
mod internal {
    pub mod category;
    pub mod codepage;
    pub mod column;
    pub mod expr;
    pub mod language;
    pub mod query;
    pub mod streamname;
    pub mod stringpool;
    pub mod table;
    pub mod value;
}

// Of the oracle's driver only what stands between the plain types and those of the copied files: off the clock.
#[allow(dead_code)]
#[rustfmt::skip]
#[path = "../../../oracle/src/driver"]
mod driver {
    mod panics;
    mod stop;
    pub mod translate;
}

mod ready;
mod store;

use work::{plain, Ready, Side, Task};

pub struct Msi {
    pub name: &'static str,
}

impl Side for Msi {
    fn name(&self) -> &'static str {
        self.name
    }

    fn ready(&self, task: &Task) -> Option<Box<dyn Ready>> {
        Some(ready::ready(task))
    }
}

/// Whether this build panics where an Int overflows.
pub fn has_overflow_checks() -> bool {
    std::panic::catch_unwind(|| std::hint::black_box(i32::MAX) + std::hint::black_box(1)).is_err()
}
