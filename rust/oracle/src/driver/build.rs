//! Conditions into `Expr`, through its public builders, and the two ways to
//! keep them from folding: literals as hidden columns, literals as names.

use super::panics::caught;
use super::stop::Stop;
use super::translate::value_of;
use crate::internal::expr::Expr;
use crate::plain::{Cell, Tree};
use std::collections::HashSet;

/// Builds in postfix order, so that the first builder that panics belongs to
/// the first operator that can't be folded.
pub fn build(tree: &Tree) -> Result<Expr, Stop> {
    build_from(tree, &mut 0)
}

fn build_from(tree: &Tree, node: &mut u64) -> Result<Expr, Stop> {
    let expr = match tree {
        Tree::Literal(cell) => literal(cell)?,
        Tree::Column(name) => Expr::col(name.as_str()),
        Tree::Unary(kind, operand) => {
            let operand = build_from(operand, node)?;
            caught_at(*node, || unary(*kind, operand))?
        }
        Tree::Binary(kind, left, right) => {
            let left = build_from(left, node)?;
            let right = build_from(right, node)?;
            caught_at(*node, || binary(*kind, left, right))?
        }
    };
    *node += 1;
    Ok(expr)
}

fn caught_at(
    node: u64,
    builder: impl FnOnce() -> Result<Expr, Stop>,
) -> Result<Expr, Stop> {
    match caught(builder) {
        Ok(built) => built,
        Err(panic) => Err(Stop::BuildPanicked { node, panic }),
    }
}

fn literal(cell: &Cell) -> Result<Expr, Stop> {
    match cell {
        Cell::Null => Ok(Expr::null()),
        Cell::Int(number) => Ok(Expr::integer(*number)),
        Cell::Text(text) => Ok(Expr::string(text.as_str())),
        Cell::Binary => Err(no_binary_literal()),
    }
}

fn no_binary_literal() -> Stop {
    Stop::cannot_ask("no builder makes a Binary literal")
}

fn unary(kind: u8, operand: Expr) -> Result<Expr, Stop> {
    match kind {
        16 => Ok(-operand),
        17 => Ok(operand.bitinv()),
        18 => Ok(operand.not()),
        _ => Err(Stop::cannot_ask(format!("no unary operator {kind}"))),
    }
}

fn binary(kind: u8, left: Expr, right: Expr) -> Result<Expr, Stop> {
    match kind {
        32 => Ok(left.eq(right)),
        33 => Ok(left.ne(right)),
        34 => Ok(left.lt(right)),
        35 => Ok(left.le(right)),
        36 => Ok(left.gt(right)),
        37 => Ok(left.ge(right)),
        38 => Ok(left + right),
        39 => Ok(left - right),
        40 => Ok(left * right),
        41 => Ok(left / right),
        42 => Ok(left & right),
        43 => Ok(left | right),
        44 => Ok(left ^ right),
        45 => Ok(left << right),
        46 => Ok(left >> right),
        48 => Ok(left.and(right)),
        49 => Ok(left.or(right)),
        _ => Err(Stop::cannot_ask(format!("no binary operator {kind}"))),
    }
}

/// The same tree with other leaves.
pub fn with_leaves<F>(tree: &Tree, leaf: &mut F) -> Result<Tree, Stop>
where
    F: FnMut(&Tree) -> Result<Tree, Stop>,
{
    Ok(match tree {
        Tree::Literal(_) | Tree::Column(_) => leaf(tree)?,
        Tree::Unary(kind, operand) => {
            Tree::Unary(*kind, Box::new(with_leaves(operand, leaf)?))
        }
        Tree::Binary(kind, left, right) => {
            let left = Box::new(with_leaves(left, leaf)?);
            let right = Box::new(with_leaves(right, leaf)?);
            Tree::Binary(*kind, left, right)
        }
    })
}

/// The tree with a column named like the printed literal in place of each
/// literal. It prints as the unfolded condition does, because a column prints
/// as its name, and nothing in it folds.
pub fn literals_as_names(tree: &Tree) -> Result<Tree, Stop> {
    with_leaves(tree, &mut |leaf| match leaf {
        Tree::Literal(Cell::Binary) => Err(no_binary_literal()),
        Tree::Literal(cell) => Ok(Tree::Column(value_of(cell).to_string())),
        other => Ok(other.clone()),
    })
}

/// A column that the caller didn't give, with the cell it has in every row.
pub struct Hidden {
    pub name: String,
    pub cell: Cell,
}

/// Makes names that none of the given ones equals.
pub struct FreshNames {
    taken: HashSet<String>,
}

impl FreshNames {
    /// Names that occur neither among the given ones nor in the condition.
    pub fn new<'a>(
        names: impl IntoIterator<Item = &'a str>,
        condition: Option<&'a Tree>,
    ) -> FreshNames {
        let in_condition = condition.map_or(Vec::new(), Tree::bound_columns);
        let in_condition = in_condition.into_iter().map(|(_, name)| name);
        let all = names.into_iter().chain(in_condition);
        FreshNames { taken: all.map(str::to_string).collect() }
    }

    /// A new name, which stays new behind the prefix too.
    pub fn make(&mut self, prefix: &str) -> String {
        let mut name = format!("_hidden{}", self.taken.len());
        while self.taken.contains(&name)
            || self.taken.contains(&(prefix.to_string() + &name))
        {
            name.push('_');
        }
        self.taken.insert(name.clone());
        name
    }
}

/// The tree with a hidden column in place of each literal, named behind the
/// prefix. The lowest Int is the difference of two hidden ones, because the
/// original Int columns can't store it.
pub fn literals_as_columns(
    tree: &Tree,
    prefix: &str,
    names: &mut FreshNames,
) -> Result<(Tree, Vec<Hidden>), Stop> {
    let mut hidden = Vec::new();
    let mut hide = |cell: Cell| {
        let name = names.make(prefix);
        let column = Tree::Column(prefix.to_string() + &name);
        hidden.push(Hidden { name, cell });
        column
    };
    let tree = with_leaves(tree, &mut |leaf| match leaf {
        Tree::Literal(Cell::Binary) => Err(no_binary_literal()),
        Tree::Literal(Cell::Int(i32::MIN)) => {
            let next = Box::new(hide(Cell::Int(i32::MIN + 1)));
            let one = Box::new(hide(Cell::Int(1)));
            Ok(Tree::Binary(39, next, one))
        }
        Tree::Literal(cell) => Ok(hide(cell.clone())),
        other => Ok(other.clone()),
    })?;
    Ok((tree, hidden))
}
