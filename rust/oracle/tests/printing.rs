//! Printing, and reading a folded condition back from it.

mod short;

use oracle::driver::*;
use oracle::plain::{Built, Cell, Said, Tree};
use short::*;

fn printed(tree: &Tree) -> String {
    given(print_built(tree))
}

#[test]
fn the_four_of_document_01() {
    let (a, b, c) = (|| col("a"), || col("b"), || col("c"));
    let tree = two(a(), "-", two(b(), "-", c()));
    assert_eq!(printed(&tree), "a - (b - c)");
    let tree = un("NOT", two(a(), "=", b()));
    assert_eq!(printed(&tree), "NOT (a = b)");
    let tree = two(two(a(), "OR", b()), "AND", c());
    assert_eq!(printed(&tree), "(a OR b) AND c");
    let tree = two(two(a(), "AND", b()), "OR", two(c(), "=", text("q\"")));
    assert_eq!(printed(&tree), r#"a AND b OR c = "q\"""#);
}

#[test]
fn unfolded_conditions_print_too() {
    let tree = two(two(int(1), "+", int(-2)), "*", text("a"));
    assert_eq!(given(print_unfolded(&tree)), "(1 + -2) * \"a\"");
    assert_eq!(printed(&tree), "NULL");
    assert_eq!(given(print_unfolded(&un("-", int(-1)))), "--1");
    assert_eq!(given(print_unfolded(&un("NOT", null()))), "NOT NULL");
}

#[test]
fn unary_operators_get_no_parentheses() {
    let tree = two(un("NOT", col("a")), "=", col("b"));
    assert_eq!(printed(&tree), "NOT a = b");
    let tree = un("-", un("-", col("a")));
    assert_eq!(printed(&tree), "--a");
}

#[test]
fn with_is_and_of_old_and_new() {
    let old = two(col("a"), "OR", col("b"));
    let new = two(int(1), "+", int(1));
    let say = |old, built| given(print_with(old, &new, built));
    assert_eq!(say(None, Built::Folding), "2");
    assert_eq!(say(Some(&old), Built::Folding), "(a OR b) AND 2");
    assert_eq!(say(Some(&old), Built::Unfolded), "(a OR b) AND 1 + 1");
}

/// Document 01's rule for quoted text, over all of ASCII.
fn quoted_as_document_01_says(byte: u8) -> String {
    let inner = match byte {
        b'"' | b'\\' => format!("\\{}", byte as char),
        0 => "\\0".to_string(),
        9 => "\\t".to_string(),
        10 => "\\n".to_string(),
        13 => "\\r".to_string(),
        0..32 | 127 => format!("\\u{{{byte:x}}}"),
        _ => (byte as char).to_string(),
    };
    format!("\"{inner}\"")
}

#[test]
fn every_ascii_byte_prints_as_document_01_says() {
    for byte in 0..128 {
        let content = cell(&(byte as char).to_string());
        assert_eq!(print_cell(&content), quoted_as_document_01_says(byte));
    }
}

#[test]
fn other_values_print() {
    assert_eq!(print_cell(&Cell::Null), "NULL");
    assert_eq!(print_cell(&Cell::Int(i32::MIN)), "-2147483648");
    assert_eq!(print_cell(&Cell::Binary), "BINARY_STREAM");
}

/// Trees of two levels over every operator, with and without columns.
fn many_trees() -> Vec<Tree> {
    let leaves = [
        col("a"),
        col("a b"),
        int(-7),
        int(3),
        text("q\" \\\n\u{e9}'"),
        null(),
    ];
    let mut trees: Vec<Tree> = leaves.to_vec();
    for (sign, _) in SIGNS {
        for left in &leaves {
            for right in &leaves {
                trees.push(two(left.clone(), sign, right.clone()));
            }
        }
    }
    let firsts: Vec<Tree> = trees.iter().step_by(7).cloned().collect();
    for tree in firsts {
        for sign in ["-", "~", "NOT"] {
            trees.push(un(sign, tree.clone()));
        }
        for (sign, _) in SIGNS {
            trees.push(two(col("a"), sign, tree.clone()));
            trees.push(two(tree.clone(), sign, un("-", col("b"))));
        }
    }
    trees
}

/// Whether any operator but AND and OR has literals only below it.
fn can_fold(tree: &Tree) -> bool {
    let literal = |tree: &Tree| matches!(tree, Tree::Literal(_));
    match tree {
        Tree::Literal(_) | Tree::Column(_) => false,
        Tree::Unary(_, operand) => literal(operand) || can_fold(operand),
        Tree::Binary(kind, left, right) => {
            (*kind < 48 && literal(left) && literal(right))
                || can_fold(left)
                || can_fold(right)
        }
    }
}

#[test]
fn folded_conditions_are_read_back() {
    let mut unchanged = 0;
    for tree in many_trees() {
        match fold(&tree) {
            Said::Gave(folded) => {
                assert!(!can_fold(&folded), "{tree:?} gave {folded:?}");
                assert_eq!(printed(&folded), printed(&tree));
                if !can_fold(&tree) {
                    assert_eq!(folded, tree);
                    unchanged += 1;
                }
            }
            said => assert_eq!(said.stop().unwrap().0, 6, "{tree:?}"),
        }
    }
    assert!(unchanged > 1000);
}

#[test]
fn columns_of_a_condition() {
    let tree = two(col("a"), "AND", two(col("b"), "+", col("a")));
    let found = given(column_names(&tree));
    assert_eq!(found.into_iter().collect::<Vec<_>>(), names(&["a", "b"]));
}
