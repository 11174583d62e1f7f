//! Select over a join: results, pairs, refusals of both queries and their
//! places.

mod short;

use oracle::driver::*;
use oracle::plain::{Built, Cell, JoinKind, Nested, Said, Tree};
use short::*;

const BOTH: [Built; 2] = [Built::Folding, Built::Unfolded];

/// Entries 1, 2, 3 and the entries of clues 3, 1, 1: the second has none.
fn nested(kind: JoinKind, list: &[&str], condition: Option<Tree>) -> Nested {
    let rows = |numbers: [i32; 3]| numbers.map(|n| ints(&[n])).to_vec();
    Nested {
        kind,
        left: table("L", vec![key("a", 1)], rows([1, 2, 3])),
        right: table("R", vec![column("b", 1)], rows([3, 1, 1])),
        on: two(col("L.a"), "=", col("R.b")),
        list: names(list),
        condition,
    }
}

#[test]
fn rows_of_a_select_over_a_join() {
    let orphan = two(col("R.b"), "=", null());
    let below = two(col("L.a"), "<", int(3));
    let padded = vec![Cell::Int(2), Cell::Null];
    for built in BOTH {
        let ask = |kind, list: &[&str], condition: &Tree| {
            let nested = nested(kind, list, Some(condition.clone()));
            let pairs = given(selected_pairs(&nested, built));
            (given(select_over_join(&nested, built)), pairs)
        };
        let (rows, pairs) = ask(JoinKind::Left, &["L.a"], &orphan);
        assert_eq!((rows, pairs), (vec![ints(&[2])], vec![(1, None)]));
        let (rows, pairs) = ask(JoinKind::Left, &[], &below);
        assert_eq!(rows, [ints(&[1, 1]), ints(&[1, 1]), padded.clone()]);
        assert_eq!(pairs, [(0, Some(1)), (0, Some(2)), (1, None)]);
        let (rows, pairs) = ask(JoinKind::Inner, &["R.b", "R.b"], &below);
        assert_eq!(rows, [ints(&[1, 1]), ints(&[1, 1])]);
        assert_eq!(pairs, [(0, Some(1)), (0, Some(2))]);
    }
    let all = nested(JoinKind::Left, &[], None);
    let rows = given(select_over_join(&all, Built::Folding));
    assert_eq!(rows.len(), 4);
}

#[test]
fn places_of_both_queries() {
    let over = |name: &str| two(col(name), "+", int(i32::MAX - 2));
    let missing = two(int(7), "=", col("x"));
    for built in BOTH {
        let stop = |nested: &Nested| {
            let said: Said<_> = select_over_join(nested, built);
            assert_eq!(said.stop(), selected_pairs(nested, built).stop());
            said.stop()
        };
        // In the join left row 2 has its pairs 6, 7 and 8; in the select
        // it is the last of four rows, of three in an inner join.
        let mut inner_query = nested(JoinKind::Left, &["x"], None);
        inner_query.on = over("L.a");
        assert_eq!(stop(&inner_query), Some((5, 6)));
        let outer = nested(JoinKind::Left, &[], Some(over("L.a")));
        assert_eq!(stop(&outer), Some((5, 3)));
        let outer = nested(JoinKind::Inner, &[], Some(over("L.a")));
        assert_eq!(stop(&outer), Some((5, 2)));
        let outer = nested(JoinKind::Left, &["L.a", "b"], None);
        assert_eq!(stop(&outer), Some((4, 1)));
        let outer = nested(JoinKind::Left, &[], Some(missing.clone()));
        assert_eq!(stop(&outer), Some((4, 5)));
    }
}
