//! The original Rust as a second answerer, in two builds: all files as they
//! were supplied, and with document 01's rules for columns.
//!
//! A call is put to it only where it lies in the domain of the runs: UTF-8
//! texts and names (ASCII where a length bound is set), distinct column names
//! in a table, and all numbers within document 01's bounds. Names are taken
//! as they are, since no query checks them.

mod conditions;
mod domain;
mod driver;
mod nested;
mod rows;
mod values;

use crate::call::*;
use crate::seen::{SecondOpinion, Seen};
use driver::{changed, unchanged, Driver};

/// One build of the original.
pub struct Original {
    driver: Driver,
}

/// Both builds.
pub fn originals() -> Vec<Box<dyn SecondOpinion>> {
    let build = |driver| -> Box<dyn SecondOpinion> { Box::new(Original { driver }) };
    vec![build(unchanged()), build(changed())]
}

impl SecondOpinion for Original {
    fn source(&self) -> u8 {
        self.driver.source
    }

    fn answers(&self, call: &Call) -> Vec<Seen> {
        let driver = &self.driver;
        let asked = match call.number {
            COMPARE => values::compare(driver, call),
            TO_BOOL => values::truth(driver, call),
            IS_VALID_VALUE => values::is_valid(driver, call),
            BUT_NULLABLE => values::but_nullable(driver, call),
            FIND_COLUMN => values::find_column(driver, call),
            PRINT_VALUE => values::print(driver, call),
            EARLIER => values::earlier(driver, call),
            EVALUATE => conditions::evaluate(driver, call),
            FOLD => conditions::fold(driver, call),
            WITH => conditions::with(driver, call),
            PRINT => conditions::print(driver, call),
            INNER_JOIN_COLUMNS | LEFT_JOIN_COLUMNS => rows::joined_columns(driver, call),
            SELECT | DELETE | UPDATE => rows::one_table(driver, call),
            INNER_JOIN | LEFT_JOIN => rows::join(driver, call),
            INSERT => rows::insert(driver, call),
            SELECT_INNER_JOIN | SELECT_LEFT_JOIN => nested::select_over_join(driver, call),
            // Faults of words, `row` and binding have no counterpart.
            _ => None,
        };
        asked.unwrap_or_default()
    }
}
