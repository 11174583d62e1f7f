//! Select over an inner or left join: one query inside another.

use super::asked::built as built_condition;
use super::build::{build, literals_as_columns, FreshNames};
use super::columns::joined_columns;
use super::join::{join, prefix_of};
use super::select::select;
use super::stop::Stop;
use super::store::{number_in, with_hidden, with_numbers, Store};
use crate::internal::query::Select;
use crate::plain::{Built, JoinKind, Nested, Row, Said, TableSpec, Tree};

/// The rows of a select over a join; an empty list asks for all columns.
pub fn select_over_join(nested: &Nested, built: Built) -> Said<Vec<Row>> {
    let width = nested.left.columns.len();
    ask(nested, built).map(|(mut rows, wider)| {
        if nested.list.is_empty() {
            for row in &mut rows {
                row.drain(width..wider);
            }
        }
        rows
    })
}

/// The pairs of row numbers behind the rows that the same select keeps; a
/// padded row has no right one.
pub fn selected_pairs(
    nested: &Nested,
    built: Built,
) -> Said<Vec<(u64, Option<u64>)>> {
    let mut fresh = names_of(nested);
    let mut numbered = nested.clone();
    for side in [&mut numbered.left, &mut numbered.right] {
        let prefix = prefix_of(side);
        let name = fresh.make(&prefix);
        *side = with_numbers(side, &name);
        numbered.list.push(prefix + &name);
    }
    ask(&numbered, built).map(|(rows, _)| {
        let pair = |row: &Row| {
            let [.., left, right] = &row[..] else {
                return None;
            };
            Some((number_in(left)?, number_in(right)))
        };
        rows.iter().filter_map(pair).collect()
    })
}

fn names_of(nested: &Nested) -> FreshNames {
    let sides = [&nested.left, &nested.right].into_iter();
    let columns = sides.flat_map(|side| &side.columns);
    let columns = columns.map(|column| column.name.as_str());
    let list = nested.list.iter().map(String::as_str);
    let conditions = [Some(&nested.on), nested.condition.as_ref()];
    let conditions = conditions.into_iter().flatten();
    let named = conditions.flat_map(Tree::bound_columns);
    let names = columns.chain(list).chain(named.map(|(_, name)| name));
    FreshNames::new(names, None)
}

/// The rows, and how many columns the left table has with the hidden ones.
fn ask(nested: &Nested, built: Built) -> Said<(Vec<Row>, usize)> {
    // A stop of the inner query is told by that query alone.
    let Nested { kind, left, right, on, .. } = nested;
    join(*kind, left, right, on, built).and_then(|joined| {
        match unfolded(nested, built).and_then(|nested| run(&nested)) {
            Ok(given) => Said::Gave(given),
            Err(stop) => stop_of_select(stop, nested, joined, built),
        }
    })
}

/// The place of a stop of the outer query: it is asked again over a table of
/// the inner one's rows, where it must stop alike.
fn stop_of_select<T>(
    stop: Stop,
    nested: &Nested,
    joined: Vec<Row>,
    built: Built,
) -> Said<T> {
    let Nested { kind, left, right, list, condition, .. } = nested;
    let (first, second) = (left.name.as_str(), right.name.as_str());
    let columns =
        joined_columns(*kind, first, &left.columns, second, &right.columns);
    let alone = columns.and_then(|columns| {
        let name = String::from("joined");
        let table = TableSpec { name, columns, rows: joined };
        select(&table, list, condition.as_ref(), built)
    });
    match (stop.at::<T>(0).stop(), alone.stop()) {
        (Some((number, _)), Some((other, place))) if number == other => {
            Said::Refused { number, place }
        }
        _ => Said::CannotAsk("the place of the stop is unknown".to_string()),
    }
}

/// With every literal of both conditions in a hidden column behind the left
/// table's, if that was asked.
fn unfolded(nested: &Nested, built: Built) -> Result<Nested, Stop> {
    let mut wider = nested.clone();
    if built == Built::Unfolded {
        let mut fresh = names_of(nested);
        let prefix = prefix_of(&nested.left);
        let conditions = [Some(&mut wider.on), wider.condition.as_mut()];
        for condition in conditions.into_iter().flatten() {
            let (tree, hidden) =
                literals_as_columns(condition, &prefix, &mut fresh)?;
            *condition = tree;
            wider.left = with_hidden(&wider.left, &hidden);
        }
    }
    Ok(wider)
}

fn run(nested: &Nested) -> Result<(Vec<Row>, usize), Stop> {
    let Nested { kind, left, right, on, list, condition } = nested;
    let on = build(on)?;
    let mut store = Store::with_table(left)?;
    store.add(right)?;
    let first = Select::table(left.name.as_str());
    let second = Select::table(right.name.as_str());
    let joined = match kind {
        JoinKind::Inner => first.inner_join(second, on),
        JoinKind::Left => first.left_join(second, on),
    };
    let mut query = joined.columns(list);
    if let Some(condition) = built_condition(condition.as_ref())? {
        query = query.with(condition);
    }
    Ok((store.selected(query)?, left.columns.len()))
}
