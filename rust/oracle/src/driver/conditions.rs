//! Questions about conditions alone, and about one row.

use super::build::{
    build, literals_as_columns, literals_as_names, with_leaves, FreshNames,
};
use super::panics::caught;
use super::reader::read;
use super::stop::Stop;
use super::translate::{cell_of, values_of};
use crate::internal::column::Column;
use crate::internal::query::Delete;
use crate::internal::table::{Row, Table};
use crate::plain::{Built, Cell, Said, Tree};
use std::collections::BTreeSet;

/// The condition as the builders fold it, read back from its printed form.
/// A panic's place is the number of the operator's node in postfix order.
pub fn fold(tree: &Tree) -> Said<Tree> {
    match folded(tree) {
        Ok(folded) => Said::Gave(folded),
        Err(Stop::BuildPanicked { node, panic }) => Said::Panicked {
            number: panic.number,
            place: Some(node),
            message: panic.message,
        },
        Err(stop) => stop.at(0),
    }
}

fn folded(tree: &Tree) -> Result<Tree, Stop> {
    // Any name would fold alike; plain ones can be told from literals.
    let mut names = Vec::new();
    let plain = with_leaves(tree, &mut |leaf| match leaf {
        Tree::Column(name) => {
            names.push(name.clone());
            Ok(Tree::Column(format!("c{}", names.len() - 1)))
        }
        other => Ok(other.clone()),
    })?;
    let printed = build(&plain)?.to_string();
    let tree = read(&printed).ok_or_else(|| unreadable(&printed))?;
    // Building what was read must print the same again.
    if build(&tree)?.to_string() != printed {
        return Err(unreadable(&printed));
    }
    with_leaves(&tree, &mut |leaf| match leaf {
        Tree::Column(plain) => match plain[1..].parse::<usize>() {
            Ok(number) if number < names.len() => {
                Ok(Tree::Column(names[number].clone()))
            }
            _ => Err(unreadable(&printed)),
        },
        other => Ok(other.clone()),
    })
}

fn unreadable(printed: &str) -> Stop {
    Stop::cannot_ask(format!("can't read back {printed:?}"))
}

/// The condition as it prints once the builders have folded it.
pub fn print_built(tree: &Tree) -> Said<String> {
    match build(tree) {
        Ok(expr) => Said::Gave(expr.to_string()),
        Err(stop) => stop.at(0),
    }
}

/// The condition as it prints unfolded: columns named like the printed
/// literals stand for the literals.
pub fn print_unfolded(tree: &Tree) -> Said<String> {
    match literals_as_names(tree).and_then(|tree| build(&tree)) {
        Ok(expr) => Said::Gave(expr.to_string()),
        Err(stop) => stop.at(0),
    }
}

/// What a query's condition is after `with(old)` and `with(new)`, as it
/// prints. The statement around it is taken off.
pub fn print_with(
    old: Option<&Tree>,
    new: &Tree,
    built: Built,
) -> Said<String> {
    let expr = |tree: &Tree| match built {
        Built::Folding => build(tree),
        Built::Unfolded => {
            literals_as_names(tree).and_then(|tree| build(&tree))
        }
    };
    let ask = || -> Result<String, Stop> {
        let mut query = Delete::from("T");
        if let Some(old) = old {
            query = query.with(expr(old)?);
        }
        let printed = query.with(expr(new)?).to_string();
        let condition = printed.strip_prefix("DELETE FROM T WHERE ");
        condition.map(str::to_string).ok_or_else(|| unreadable(&printed))
    };
    match ask() {
        Ok(printed) => Said::Gave(printed),
        Err(stop) => stop.at(0),
    }
}

/// The columns that a condition names.
pub fn column_names(tree: &Tree) -> Said<BTreeSet<String>> {
    match literals_as_columns(tree, "", &mut FreshNames::new([], Some(tree))) {
        Ok((unfolded, hidden)) => match build(&unfolded) {
            Ok(expr) => {
                let names = expr.column_names().into_iter();
                let given = names.filter(|&name| {
                    hidden.iter().all(|hidden| hidden.name != name)
                });
                Said::Gave(given.map(str::to_string).collect())
            }
            Err(stop) => stop.at(0),
        },
        Err(stop) => stop.at(0),
    }
}

/// The value of a condition on one row, whose cells go by the names given.
/// No storage is involved, so any cells can be asked.
pub fn evaluate(
    names: &[String],
    row: &[Cell],
    tree: &Tree,
    built: Built,
) -> Said<Cell> {
    match evaluated(names, row, tree, built) {
        Ok(cell) => Said::Gave(cell),
        Err(stop) => stop.at(0),
    }
}

fn evaluated(
    names: &[String],
    row: &[Cell],
    tree: &Tree,
    built: Built,
) -> Result<Cell, Stop> {
    if names.len() != row.len() {
        return Err(Stop::cannot_ask("a row of another length"));
    }
    let mut names = names.to_vec();
    let mut row = row.to_vec();
    let mut tree = tree.clone();
    if built == Built::Unfolded {
        let given = names.iter().map(String::as_str);
        let mut fresh = FreshNames::new(given, Some(&tree));
        let (unfolded, hidden) = literals_as_columns(&tree, "", &mut fresh)?;
        tree = unfolded;
        for column in hidden {
            names.push(column.name);
            row.push(column.cell);
        }
    }
    let expr = build(&tree)?;
    // The kinds of the columns don't matter: evaluation never looks at them.
    let columns =
        names.into_iter().map(|name| Column::build(name).int32()).collect();
    let table = Table::new("T".to_string(), columns, false);
    let row = Row::new(table, values_of(&row));
    caught(|| cell_of(&expr.eval(&row))).map_err(Stop::Panicked)
}
