//! Recorded cases of document 01's calls: their format (docs/CASES.md), a
//! generator with a seed, and the model's and the original's answers.

pub mod answer;
pub mod call;
pub mod format;
pub mod generate;
pub mod original;
pub mod random;
pub mod sample;
pub mod seen;
pub mod sources;
