//! The checked examples of document 01 that the Rust can answer, each by
//! folding (where it folds) and by evaluation of the unfolded condition.

mod short;

use oracle::driver::*;
use oracle::plain::{Built, Cell, JoinKind, Said, Tree};
use short::*;
use std::cmp::Ordering;

/// The value of a condition without columns, which both ways must agree on.
fn value(tree: &Tree) -> Cell {
    let unfolded = given(evaluate(&[], &[], tree, Built::Unfolded));
    let folded = given(evaluate(&[], &[], tree, Built::Folding));
    assert_eq!(folded, unfolded);
    assert_eq!(given(fold(tree)), Tree::Literal(folded.clone()));
    folded
}

/// The number with which both folding and evaluation stop.
fn stopped(tree: &Tree) -> u8 {
    let unfolded = evaluate(&[], &[], tree, Built::Unfolded);
    let (number, place) = unfolded.stop().unwrap();
    assert_eq!(place, 0);
    let (folding, _) = fold(tree).stop().unwrap();
    assert_eq!(folding, number);
    number
}

#[test]
fn this_build_sees_overflow() {
    assert!(overflow_is_caught());
    assert!(oracle_document::driver::overflow_is_caught());
}

#[test]
fn examples_1_to_5_order() {
    assert_eq!(value(&two(null(), "=", null())), Cell::Int(1));
    assert_eq!(value(&two(null(), "<", int(i32::MIN))), Cell::Int(1));
    assert_eq!(value(&two(int(7), "<", text(""))), Cell::Int(1));
    assert_eq!(value(&two(text("B"), "<", text("a"))), Cell::Int(1));
    assert_eq!(compare(&cell("z"), &Cell::Binary), Ordering::Less);
    // Binary has no literal; a cell of the row brings it in.
    let smaller = two(text("z"), "<", col("b"));
    let row = [Cell::Binary];
    let said = evaluate(&names(&["b"]), &row, &smaller, Built::Folding);
    assert_eq!(said, Said::Gave(Cell::Int(1)));
}

#[test]
fn examples_6_to_8_division() {
    assert_eq!(value(&two(int(-7), "/", int(2))), Cell::Int(-3));
    assert_eq!(value(&two(text("a"), "/", int(0))), Cell::Null);
    assert_eq!(stopped(&two(int(i32::MIN), "/", int(-1))), 5);
}

#[test]
fn examples_9_and_10_shifts() {
    assert_eq!(value(&two(int(1), "<<", int(31))), Cell::Int(i32::MIN));
    assert_eq!(stopped(&two(int(1), "<<", int(32))), 6);
    assert_eq!(stopped(&two(int(1), ">>", int(-1))), 6);
    assert_eq!(value(&two(int(-8), ">>", int(1))), Cell::Int(-4));
    // High bits are dropped without a word.
    assert_eq!(value(&two(int(3), "<<", int(31))), Cell::Int(i32::MIN));
}

#[test]
fn example_11_unary() {
    assert_eq!(value(&un("NOT", null())), Cell::Int(1));
    assert_eq!(value(&un("~", null())), Cell::Null);
    assert_eq!(stopped(&un("-", int(i32::MIN))), 5);
}

#[test]
fn example_12_short_circuit() {
    let sum = two(int(i32::MAX), "+", int(1));
    let tree = two(int(0), "AND", sum);
    let unfolded = evaluate(&[], &[], &tree, Built::Unfolded);
    assert_eq!(unfolded, Said::Gave(Cell::Int(0)));
    // The builder of `+` panics. It is node 3; two Ints of 5 bytes and one
    // more stand before it, so its offset is 15.
    assert_eq!(fold(&tree).stop(), Some((5, 3)));
}

#[test]
fn example_13_folding() {
    assert_eq!(given(fold(&two(null(), "=", null()))), int(1));
}

#[test]
fn example_14_left_join() {
    let rows = |numbers: &[i32]| numbers.iter().map(|&n| ints(&[n])).collect();
    let left = table("L", vec![column("a", 1)], rows(&[1, 2, 3]));
    let right = table("R", vec![column("b", 1)], rows(&[3, 1, 1]));
    let equal = two(col("L.a"), "=", col("R.b"));
    let joined = join(JoinKind::Left, &left, &right, &equal, Built::Folding);
    let padded = vec![Cell::Int(2), Cell::Null];
    let wanted = vec![ints(&[1, 1]), ints(&[1, 1]), padded, ints(&[3, 3])];
    assert_eq!(given(joined), wanted);
    let pairs =
        joined_pairs(JoinKind::Left, &left, &right, &equal, Built::Folding);
    let wanted = vec![(0, Some(1)), (0, Some(2)), (1, None), (2, Some(0))];
    assert_eq!(given(pairs), wanted);
}

#[test]
fn truth_order_and_equality_of_all_kinds() {
    let ascending = [
        (Cell::Null, false),
        (Cell::Int(i32::MIN), true),
        (Cell::Int(-1), true),
        (Cell::Int(0), false),
        (Cell::Int(7), true),
        (cell(""), false),
        (cell("B"), true),
        (cell("Ba"), true),
        (cell("a"), true),
        (cell("\u{e9}"), true),
        (Cell::Binary, true),
    ];
    for (i, (first, is_true)) in ascending.iter().enumerate() {
        assert_eq!(truth(first), *is_true, "{first:?}");
        for (j, (second, _)) in ascending.iter().enumerate() {
            assert_eq!(compare(first, second), i.cmp(&j));
            assert_eq!(equal(first, second), i == j);
        }
    }
}

#[test]
fn other_kinds_give_null() {
    for sign in ["+", "-", "*", "/", "&", "|", "^", "<<", ">>"] {
        assert_eq!(value(&two(text("a"), sign, int(1))), Cell::Null);
        assert_eq!(value(&two(int(1), sign, null())), Cell::Null);
    }
    assert_eq!(value(&two(text("a"), "-", text("b"))), Cell::Null);
    assert_eq!(value(&two(text("a"), "+", text("b"))), cell("ab"));
    assert_eq!(value(&un("-", text("1"))), Cell::Null);
}
