//! Demand 3, a sentence after another, on the lists of two left joins.

/// An entry of a join's list by row numbers; a padded one has no right row.
#[derive(Clone, Copy, Debug, PartialEq, Eq)]
pub struct Entry {
    pub left: usize,
    pub right: Option<usize>,
}

/// What demand 3 says of two answered joins, a line of it after another.
/// Right rows have the numbers of the new join.
pub fn check_demand(
    old: &[Entry],
    new: &[Entry],
    is_added: &dyn Fn(usize) -> bool,
    matches: &[bool],
) -> Result<(), String> {
    let unless = |holds: bool, line: &str| match holds {
        true => Ok(()),
        false => Err(format!("not so: {line}")),
    };
    let is_pair = |entry: &&Entry| entry.right.is_some();
    let padded = |left: usize| Entry { left, right: None };
    let mut listed = new.iter();
    let in_order = old.iter().filter(is_pair).all(|pair| listed.any(|entry| entry == pair));
    unless(in_order, "every old matched pair is still listed, in the old order")?;
    let goes = |left: usize| !new.contains(&padded(left));
    let as_matched = |entry: &Entry| goes(entry.left) == matches[entry.left];
    let gone = old.iter().filter(|entry| !is_pair(entry)).all(as_matched);
    unless(gone, "a padded row goes exactly when an added row matches its left row")?;
    let unpadded = old.iter().filter(is_pair).all(|pair| goes(pair.left));
    unless(unpadded, "no left row that had a match becomes padded")?;
    let times = |entry: &Entry, list: &[Entry]| list.iter().filter(|&other| other == entry).count();
    let is_new = |entry: &&Entry| times(entry, new) > times(entry, old);
    let added = new.iter().filter(is_new).all(|entry| entry.right.is_some_and(is_added));
    unless(added, "all that is new are pairs with an added row")
}

#[cfg(test)]
mod tests {
    use super::*;

    type Pairs = [(usize, Option<usize>)];

    fn list(pairs: &Pairs) -> Vec<Entry> {
        pairs.iter().map(|&(left, right)| Entry { left, right }).collect()
    }

    /// Three left rows; of the right rows 0 to 3, 1 and 3 are added, and 3
    /// matches the left row 1.
    fn demand(new: &Pairs) -> Result<(), String> {
        let old = list(&[(0, Some(0)), (0, Some(2)), (1, None), (2, None)]);
        check_demand(&old, &list(new), &|right| right % 2 == 1, &[false, true, false])
    }

    #[test]
    fn a_right_answer_passes() {
        demand(&[(0, Some(0)), (0, Some(2)), (1, Some(3)), (2, None)]).unwrap();
    }

    /// Each line of the demand is told when it is broken.
    #[test]
    fn each_line_can_fail() {
        let broken: [(&str, &Pairs); 7] = [
            ("still listed", &[(0, Some(2)), (1, Some(3)), (2, None)]),
            ("still listed", &[(0, Some(2)), (0, Some(0)), (1, Some(3)), (2, None)]),
            ("exactly when", &[(0, Some(0)), (0, Some(2)), (1, None), (1, Some(3)), (2, None)]),
            ("exactly when", &[(0, Some(0)), (0, Some(2)), (1, Some(3))]),
            ("becomes padded", &[(0, Some(0)), (0, Some(2)), (0, None), (1, Some(3)), (2, None)]),
            ("all that is new", &[(0, Some(0)), (0, Some(2)), (1, Some(3)), (2, None), (2, None)]),
            (
                "all that is new",
                &[(0, Some(0)), (0, Some(2)), (1, Some(2)), (1, Some(3)), (2, None)],
            ),
        ];
        for (line, new) in broken {
            let told = demand(new).unwrap_err();
            assert!(told.contains(line), "{told}");
        }
    }
}
