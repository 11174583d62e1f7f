//! Calls of the recorded sample's kind, from a seed: those at bounds, made on
//! purpose, then drawn ones, some of them larger. The original is asked too where it can answer.

use crate::check::{check, Fault};
use crate::library::{present, Library};
use crate::rubbish::Rubbish;
use crate::tally::Tally;
use crate::wide::wide_call;
use cases::call::Call;
use cases::format::{Case, FROM_MODEL};
use cases::generate::{DRAWS, LAYERS};
use cases::original::originals;
use cases::random::Random;
use cases::sample::{answered, shown};
use cases::seen::SecondOpinion;

/// Compares so many calls; an error where the library is gone.
pub fn compare(library: &mut dyn Library, seed: u64, count: usize) -> Result<Tally, String> {
    let tally = Tally::of(present(library));
    let rubbish = Rubbish::new(seed);
    let mut run = Run { library, opinions: originals(), rubbish, tally, count };
    let mut random = Random::new(seed);
    for call in made(&mut random) {
        run.put(call)?;
    }
    while run.tally.total() < count {
        for draw in DRAWS {
            run.put(draw(&mut random))?;
        }
        run.put(wide_call(&mut random))?;
    }
    Ok(run.tally)
}

/// The calls of all layers by turns, from the last: the small drawn ones come
/// before full tables.
fn made(random: &mut Random) -> Vec<Call> {
    let layers: Vec<Vec<Call>> = LAYERS.iter().map(|layer| (layer.calls)(random)).collect();
    let longest = layers.iter().map(Vec::len).max().unwrap_or(0);
    let turn = |index: usize| {
        layers.iter().filter_map(move |calls| calls.iter().rev().nth(index).cloned())
    };
    (0..longest).flat_map(turn).collect()
}

struct Run<'a> {
    library: &'a mut dyn Library,
    opinions: Vec<Box<dyn SecondOpinion>>,
    rubbish: Rubbish,
    tally: Tally,
    count: usize,
}

impl Run<'_> {
    /// Compares a call, unless the library lacks it or there are enough.
    fn put(&mut self, call: Call) -> Result<(), String> {
        if !self.library.has(call.number) || self.tally.total() == self.count {
            return Ok(());
        }
        // The model and the original must agree first.
        let case = match answered(call, &self.opinions) {
            Ok(case) => case,
            Err(difference) => {
                self.tally.differences.push(difference);
                return Ok(());
            }
        };
        let is_original_asked = case.sources != FROM_MODEL;
        self.tally.count(case.call.number, case.answer.number, is_original_asked);
        match check(self.library, &case.call, &case.answer, &mut self.rubbish) {
            Ok(()) => Ok(()),
            Err(Fault::Gone(end)) => Err(told(&end, &case)),
            Err(Fault::Differs(what)) => {
                self.tally.differences.push(told(&what, &case));
                Ok(())
            }
        }
    }
}

/// What is wrong, with the call for people to read.
pub fn told(what: &str, case: &Case) -> String {
    format!("{what}:\n  {}", shown(case))
}
