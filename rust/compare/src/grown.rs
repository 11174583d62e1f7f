//! Demand 3 on running calls: a left join that was answered, then the same
//! with right rows added at random places.

use crate::check::{check, observed, Fault};
use crate::demand::{check_demand, Entry};
use crate::growing::{Join, MOST_ROWS};
use crate::library::Library;
use crate::rubbish::Rubbish;
use crate::tally::Tally;
use cases::answer::model_answer;
use cases::call::{signature_of, Call, EVALUATE, LEFT_JOIN};
use cases::random::Random;

/// Compares so many pairs of joins; an error where the library is gone.
pub fn compare(library: &mut dyn Library, seed: u64, count: usize) -> Result<Tally, String> {
    let mut random = Random::new(seed);
    let mut rubbish = Rubbish::new(seed);
    let mut tally = Tally::of(signature_of(LEFT_JOIN).into_iter().collect());
    if !library.has(LEFT_JOIN) {
        return Err("the library has no left_join yet".into());
    }
    while tally.total() < count {
        let join = Join::draw(&mut random);
        match join.check(library, &mut random, &mut rubbish) {
            Ok(None) => {}
            Ok(Some(refusal)) => tally.count(LEFT_JOIN, refusal, false),
            Err(Fault::Gone(end)) => return Err(format!("{end}:\n  {join:x?}")),
            Err(Fault::Differs(what)) => {
                tally.count(LEFT_JOIN, 0, false);
                tally.differences.push(format!("{what}:\n  {join:x?}"));
            }
        }
    }
    Ok(tally)
}

impl Join {
    /// The refusal number of the new join; nothing where the old one was
    /// not answered.
    fn check(
        &self,
        library: &mut dyn Library,
        random: &mut Random,
        rubbish: &mut Rubbish,
    ) -> Result<Option<u64>, Fault> {
        let kept = self.right.iter().filter(|right| !right.is_added);
        let old_right: Vec<u64> = kept.flat_map(|right| right.row.clone()).collect();
        let new_right: Vec<u64> = self.right.iter().flat_map(|right| right.row.clone()).collect();
        let most = self.left.len() * self.right.len().max(1) * self.width();
        let Ok(old) = self.answer(library, old_right, most, rubbish)? else {
            return Ok(None);
        };
        // Room for the old result, for any, or in between.
        let between = random.between(0, most);
        let room = random.pick(&[old.len() * self.width(), most, most, between]);
        let new = self.answer(library, new_right, room, rubbish)?;
        match new {
            Err(refusal) => self.check_cause(library, refusal, room, rubbish).map(Some),
            Ok(new) => {
                let matches = self.matches(library, rubbish)?;
                let is_added = |right: usize| self.right[right].is_added;
                check_demand(&old, &new, &is_added, &matches).map_err(Fault::Differs)?;
                Ok(Some(0))
            }
        }
    }

    /// The list that a join answers, or its refusal's number and place; the
    /// model must answer alike.
    fn answer(
        &self,
        library: &mut dyn Library,
        right: Vec<u64>,
        room: usize,
        rubbish: &mut Rubbish,
    ) -> Result<Result<Vec<Entry>, (u64, u64)>, Fault> {
        let call = self.call(right, room);
        let answer = model_answer(&call).map_err(Fault::Differs)?;
        check(library, &call, &answer, rubbish)?;
        let (answered, words) = observed(library, &call, rubbish)?;
        let [number, place, rows, _] = answered;
        if number != 0 {
            return Ok(Err((number, place)));
        }
        let lines = words.get(..rows as usize * self.width());
        let lines = lines.ok_or(Fault::Differs("more rows than there is room".into()))?;
        let entries: Option<Vec<Entry>> =
            lines.chunks_exact(self.width()).map(|line| self.entry(line)).collect();
        entries.map(Ok).ok_or(Fault::Differs("a line of no entry".into()))
    }

    /// The entry whose words a line is.
    fn entry(&self, line: &[u64]) -> Option<Entry> {
        let (left_part, right_part) = line.split_at(self.left_columns.len() / 2);
        let number = |row: &[u64]| row.last().map(|&word| word as u32 as usize);
        let left = number(left_part)
            .filter(|&left| self.left.get(left).is_some_and(|row| row == left_part))?;
        if right_part.iter().all(|&word| word == 0) {
            return Some(Entry { left, right: None });
        }
        let right = number(right_part)?;
        let is_row = self.right.get(right).is_some_and(|right| right.row == right_part);
        is_row.then_some(Entry { left, right: Some(right) })
    }

    /// What the condition comes to on a pair: its truth, or a refusal.
    fn truth(
        &self,
        library: &mut dyn Library,
        left: usize,
        right: usize,
        rubbish: &mut Rubbish,
    ) -> Result<Result<bool, u64>, Fault> {
        let pair = [&self.left[left][..], &self.right[right].row].concat();
        let call = Call::new(EVALUATE).bytes(&self.condition[..]).words(pair);
        let (answered, _) = observed(library, &call.text(self.text.clone()), rubbish)?;
        Ok(match answered[0] {
            0 => Ok(model::to_bool(answered[2])),
            number => Err(number),
        })
    }

    /// For each left row, whether an added row matches it.
    fn matches(
        &self,
        library: &mut dyn Library,
        rubbish: &mut Rubbish,
    ) -> Result<Vec<bool>, Fault> {
        let mut matches = vec![false; self.left.len()];
        for (left, is_matched) in matches.iter_mut().enumerate() {
            for right in (0..self.right.len()).filter(|&right| self.right[right].is_added) {
                *is_matched |= self.truth(library, left, right, rubbish)? == Ok(true);
            }
        }
        Ok(matches)
    }

    /// "If it is refused, the cause is the row limit, output room, or an
    /// added pair whose condition can't be evaluated."
    fn check_cause(
        &self,
        library: &mut dyn Library,
        (number, place): (u64, u64),
        room: usize,
        rubbish: &mut Rubbish,
    ) -> Result<u64, Fault> {
        let is_cause = match number {
            8 => self.right.len() > MOST_ROWS && place == 0,
            9 => place > room as u64,
            _ => {
                let (left, right) =
                    (place as usize / self.right.len(), place as usize % self.right.len());
                self.right[right].is_added
                    && left < self.left.len()
                    && self.truth(library, left, right, rubbish)? == Err(number)
            }
        };
        match is_cause {
            true => Ok(number),
            false => Err(Fault::Differs(format!("refused with {number} at {place}"))),
        }
    }
}
