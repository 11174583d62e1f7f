//! The library that is measured, held to the model first: `rust/compare`'s drawn calls, put in this process.

use compare::linked::Linked;

/// So many drawn calls; an error where an answer differs.
pub fn check(count: usize) -> Result<String, String> {
    let tally = compare::drawn::compare(&mut Linked::default(), 1, count)?;
    match tally.differences.first() {
        None => Ok(format!("{} drawn calls answered as the model answers them", tally.total())),
        Some(first) => Err(format!("{} answers differ; {first}", tally.differences.len())),
    }
}
