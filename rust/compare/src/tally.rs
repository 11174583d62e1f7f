//! How often each call came, and which answers it got.

use cases::call::Signature;
use std::fmt::{Display, Formatter, Result};

const CALLS: usize = 32;
const REFUSALS: usize = 16;

#[derive(Default)]
pub struct Tally {
    /// The calls that it tells of.
    about: Vec<&'static Signature>,
    /// Answers by call and refusal number; 0 is accepted.
    answers: [[usize; REFUSALS]; CALLS],
    /// Calls that the original was asked about too, and agreed.
    original: [usize; CALLS],
    /// What differs, in words.
    pub differences: Vec<String>,
}

impl Tally {
    pub fn of(about: Vec<&'static Signature>) -> Tally {
        Tally { about, ..Tally::default() }
    }

    pub fn count(&mut self, call: u8, refusal: u64, is_original_asked: bool) {
        self.answers[call as usize][refusal as usize] += 1;
        self.original[call as usize] += usize::from(is_original_asked);
    }

    pub fn total(&self) -> usize {
        self.answers.iter().flatten().sum()
    }
}

/// A line a call, with its answers by refusal number, then the sums.
impl Display for Tally {
    fn fmt(&self, to: &mut Formatter) -> Result {
        write!(to, "{:18} {:>8} {:>8}", "call", "calls", "original")?;
        (0..REFUSALS).try_for_each(|number| write!(to, " {number:>6}"))?;
        writeln!(to)?;
        for call in &self.about {
            let answers = &self.answers[call.number as usize];
            let asked = self.original[call.number as usize];
            write!(to, "{:18} {:>8} {asked:>8}", call.name, answers.iter().sum::<usize>())?;
            answers.iter().try_for_each(|count| write!(to, " {count:>6}"))?;
            writeln!(to)?;
        }
        let asked: usize = self.original.iter().sum();
        write!(to, "{} calls, {asked} asked of the original too", self.total())
    }
}

#[cfg(test)]
mod tests {
    use super::*;
    use cases::call::{signature_of, ROW};

    #[test]
    fn counts_by_call_and_refusal() {
        let mut tally = Tally::of(signature_of(ROW).into_iter().collect());
        tally.count(ROW, 0, true);
        tally.count(ROW, 15, false);
        let page = tally.to_string();
        let row = page.lines().find(|line| line.starts_with("row")).unwrap();
        let numbers: Vec<&str> = row.split_whitespace().collect();
        assert_eq!((numbers[1], numbers[2], numbers[3], numbers[18]), ("2", "1", "1", "1"));
        assert!(page.ends_with("2 calls, 1 asked of the original too"));
    }
}
