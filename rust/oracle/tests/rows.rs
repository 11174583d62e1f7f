//! The row calls: results, the order of rows, refusals and their places.

mod short;

use oracle::driver::*;
use oracle::plain::{Built, Cell, JoinKind, Row, Said, TableSpec};
use short::*;

const BOTH: [Built; 2] = [Built::Folding, Built::Unfolded];

fn refused(number: u8, place: u64) -> Option<(u8, u64)> {
    Some((number, place))
}

/// A table of two Int columns, the first one the key.
fn pairs(rows: &[[i32; 2]]) -> TableSpec {
    let rows = rows.iter().map(|row| ints(row)).collect();
    table("T", vec![key("k", 1), column("v", 1)], rows)
}

#[test]
fn select_keeps_true_rows_in_order_then_projects() {
    let given_table = pairs(&[[3, 1], [1, 0], [3, 1], [2, 5]]);
    let more = two(col("v"), ">", int(0));
    for built in BOTH {
        let all = select(&given_table, &[], Some(&more), built);
        let wanted = vec![ints(&[3, 1]), ints(&[3, 1]), ints(&[2, 5])];
        assert_eq!(given(all), wanted);
        let list = names(&["v", "k", "v"]);
        let some = select(&given_table, &list, Some(&more), built);
        let wanted =
            vec![ints(&[1, 3, 1]), ints(&[1, 3, 1]), ints(&[5, 2, 5])];
        assert_eq!(given(some), wanted);
        let numbers = selected_rows(&given_table, &list, Some(&more), built);
        assert_eq!(given(numbers), vec![0, 2, 3]);
    }
    let everything = given(select(&given_table, &[], None, Built::Folding));
    assert_eq!(everything, given_table.rows);
}

#[test]
fn select_stops_at_the_first_row_that_overflows() {
    let rows: Vec<[i32; 2]> = (0..100).map(|n| [n, n / 40]).collect();
    let given_table = pairs(&rows);
    let sum = two(int(i32::MAX - 1), "+", col("v"));
    let shift = two(int(1), "<<", two(col("v"), "+", int(30)));
    for built in BOTH {
        let said = select(&given_table, &[], Some(&sum), built);
        assert_eq!(said.stop(), refused(5, 80));
        let said = selected_rows(&given_table, &[], Some(&shift), built);
        assert_eq!(said.stop(), refused(6, 80));
        let said = delete(&given_table, Some(&sum), built);
        assert_eq!(said.stop(), refused(5, 80));
        let said = update(&given_table, &[], Some(&sum), built);
        assert_eq!(said.stop(), refused(5, 80));
    }
}

#[test]
fn a_condition_that_never_meets_its_overflow() {
    let given_table = pairs(&[[1, 0]]);
    let tree = two(col("v"), "AND", two(int(i32::MAX), "+", int(1)));
    let unfolded = select(&given_table, &[], Some(&tree), Built::Unfolded);
    assert_eq!(given(unfolded), Vec::<Row>::new());
    // The builders fold the right side at once: no row was read, no place.
    let folding = select(&given_table, &[], Some(&tree), Built::Folding);
    assert!(matches!(folding, Said::Panicked { number: 5, place: None, .. }));
}

#[test]
fn missing_columns_are_refused_before_rows() {
    let given_table = pairs(&[]);
    let both = two(two(col("k"), "=", int(1)), "AND", col("x"));
    let tree = two(both, "AND", col("y"));
    for built in BOTH {
        // k takes 2 bytes, the Int 5, `=` 1; of x and y the first counts.
        let said = select(&given_table, &[], Some(&tree), built);
        assert_eq!(said.stop(), refused(4, 8));
        let list = names(&["k", "v", "z"]);
        let said = select(&given_table, &list, Some(&tree), built);
        assert_eq!(said.stop(), refused(4, 2));
        assert_eq!(
            delete(&given_table, Some(&tree), built).stop(),
            refused(4, 8)
        );
    }
}

#[test]
fn delete_keeps_the_other_rows() {
    let given_table = pairs(&[[3, 1], [1, 0], [3, 1], [2, 5]]);
    let condition = two(col("k"), "=", int(3));
    for built in BOTH {
        let rows = given(delete(&given_table, Some(&condition), built));
        assert_eq!(rows, vec![ints(&[1, 0]), ints(&[2, 5])]);
        let numbers = given(kept_rows(&given_table, Some(&condition), built));
        assert_eq!(numbers, vec![1, 3]);
        assert_eq!(given(delete(&given_table, None, built)).len(), 0);
    }
}

#[test]
fn update_tests_the_old_row_and_neither_sorts_nor_checks_keys() {
    let given_table = pairs(&[[3, 1], [1, 0], [2, 5]]);
    let set = |name: &str, number| (name.to_string(), Cell::Int(number));
    let sets = [set("v", 0), set("k", 9), set("v", 7)];
    let condition = two(col("v"), ">", int(0));
    for built in BOTH {
        let rows = given(update(&given_table, &sets, Some(&condition), built));
        let wanted = vec![ints(&[9, 7]), ints(&[1, 0]), ints(&[9, 7])];
        assert_eq!(rows, wanted);
        let changed =
            updated_rows(&given_table, &sets, Some(&condition), built);
        assert_eq!(given(changed), vec![0, 2]);
    }
}

#[test]
fn update_refuses_sets_in_order() {
    let given_table = pairs(&[[1, 1]]);
    let valid = ("v".to_string(), Cell::Int(1));
    let unknown = ("x".to_string(), Cell::Int(1));
    let wrong = ("v".to_string(), cell("a"));
    let missing = col("y");
    let say = |sets: &[(String, Cell)]| {
        update(&given_table, sets, Some(&missing), Built::Folding).stop()
    };
    assert_eq!(say(&[valid.clone(), unknown, wrong.clone()]), refused(4, 1));
    assert_eq!(say(&[valid.clone(), valid.clone(), wrong]), refused(13, 2));
    assert_eq!(say(&[valid]), refused(4, 0));
}

#[test]
fn insert_writes_all_rows_in_key_order() {
    let given_table = pairs(&[[5, 0], [1, 0], [3, 0]]);
    let new = vec![ints(&[4, 1]), ints(&[0, 1]), vec![Cell::Null, Cell::Null]];
    let rows = given(insert(&given_table, &new));
    let keys: Vec<Cell> = rows.iter().map(|row| row[0].clone()).collect();
    let mut wanted = vec![Cell::Null];
    wanted.extend(ints(&[0, 1, 3, 4, 5]));
    assert_eq!(keys, wanted);
    let order = given(inserted_order(&given_table, &new));
    assert_eq!(order, vec![5, 4, 1, 2, 3, 0]);
}

#[test]
fn insert_refuses_double_keys() {
    let old = pairs(&[[5, 0], [1, 0], [3, 0]]);
    let new = |keys: &[i32]| -> Vec<Row> {
        keys.iter().map(|&key| ints(&[key, 0])).collect()
    };
    assert_eq!(insert(&old, &new(&[2, 4, 3, 4])).stop(), refused(11, 2));
    assert_eq!(insert(&old, &new(&[2, 4, 2, 3])).stop(), refused(12, 2));
    let double = pairs(&[[5, 0], [1, 0], [7, 0], [1, 1], [5, 2]]);
    assert_eq!(insert(&double, &new(&[5])).stop(), refused(14, 3));
    assert_eq!(insert(&double, &[]).stop(), refused(14, 3));
    assert_eq!(inserted_order(&double, &[]).stop(), refused(14, 3));
}

#[test]
fn insert_looks_at_values_first() {
    let double = pairs(&[[5, 0], [5, 0]]);
    let wrong = vec![Cell::Int(5), cell("a")];
    let new = vec![ints(&[5, 0]), wrong, vec![Cell::Binary, cell("b")]];
    assert_eq!(insert(&double, &new).stop(), refused(13, 3));
}

#[test]
fn without_key_columns_all_keys_are_equal() {
    let unkeyed = |rows| table("T", vec![column("v", 1)], rows);
    let none = unkeyed(vec![]);
    let one = unkeyed(vec![ints(&[1])]);
    let two_rows = unkeyed(vec![ints(&[1]), ints(&[2])]);
    let row = |n| ints(&[n]);
    assert_eq!(given(insert(&none, &[row(1)])), vec![row(1)]);
    assert_eq!(insert(&none, &[row(1), row(2)]).stop(), refused(12, 1));
    assert_eq!(insert(&one, &[row(2)]).stop(), refused(11, 0));
    assert_eq!(insert(&two_rows, &[]).stop(), refused(14, 1));
}

#[test]
fn joins_list_pairs_left_row_by_left_row() {
    let left = table("L", vec![column("a", 1)], vec![ints(&[1]), ints(&[2])]);
    let nulls = vec![Cell::Null];
    let right = table("R", vec![column("b", 1)], vec![nulls, ints(&[2])]);
    let condition =
        two(two(col("R.b"), "=", null()), "AND", two(col("L.a"), "=", int(1)));
    for built in BOTH {
        let say =
            |kind| given(joined_pairs(kind, &left, &right, &condition, built));
        // A right row of Nulls that matches is a pair, not padding.
        assert_eq!(say(JoinKind::Inner), vec![(0, Some(0))]);
        assert_eq!(say(JoinKind::Left), vec![(0, Some(0)), (1, None)]);
        let rows =
            given(join(JoinKind::Left, &left, &right, &condition, built));
        let one = vec![Cell::Int(1), Cell::Null];
        assert_eq!(rows, vec![one, vec![Cell::Int(2), Cell::Null]]);
    }
}

#[test]
fn a_join_stops_at_the_first_pair_that_overflows() {
    let rows = |count: i32| (0..count).map(|n| ints(&[n])).collect();
    let left = table("L", vec![column("a", 1)], rows(9));
    let right = table("R", vec![column("b", 1)], rows(7));
    let product = two(col("L.a"), "*", col("R.b"));
    // Only 5 × 6 and larger products reach 30.
    let sum = two(product, "+", int(i32::MAX - 29));
    for built in BOTH {
        for kind in [JoinKind::Inner, JoinKind::Left] {
            let said = join(kind, &left, &right, &sum, built);
            assert_eq!(said.stop(), refused(5, 5 * 7 + 6));
        }
    }
}

#[test]
fn joined_columns_get_prefixes_and_left_joins_make_nullable() {
    let mut a = key("a", 2);
    a.nullable = false;
    a.bound = 9;
    let mut b = key("b", 3);
    b.nullable = false;
    let say = |kind, left: &str, right: &str| {
        given(joined_columns(kind, left, &[a.clone()], right, &[b.clone()]))
    };
    let inner = say(JoinKind::Inner, "L", "L");
    assert_eq!((&*inner[0].name, &*inner[1].name), ("L.a", "L.b"));
    assert!(!inner[0].nullable && !inner[1].nullable);
    let left = say(JoinKind::Left, "", "R");
    assert_eq!((&*left[0].name, &*left[1].name), ("a", "R.b"));
    assert!(!left[0].nullable && left[1].nullable);
    assert_eq!((left[0].kind, left[0].bound, left[0].key), (2, 9, true));
    assert_eq!((left[1].kind, left[1].key), (3, true));
}

#[test]
fn keys_are_compared_column_by_column() {
    use std::cmp::Ordering::{Equal, Less};
    let columns = vec![key("a", 1), column("v", 1), key("b", 2)];
    let row = |a, v, b: &str| vec![Cell::Int(a), Cell::Int(v), cell(b)];
    let say = |first: &Row, second: &Row| {
        given(compare_keys(&columns, first, second))
    };
    assert_eq!(say(&row(1, 9, "b"), &row(2, 0, "a")), Less);
    assert_eq!(say(&row(1, 9, "a"), &row(1, 0, "ab")), Less);
    assert_eq!(say(&row(1, 9, "a"), &row(1, 0, "a")), Equal);
}

#[test]
fn rows_of_the_full_count() {
    let rows: Vec<[i32; 2]> = (0..4096).map(|n| [4095 - n, n]).collect();
    let given_table = pairs(&rows);
    let sorted = given(insert(&given_table, &[]));
    assert_eq!(sorted[0], ints(&[0, 4095]));
    assert_eq!(sorted.len(), 4096);
    let late = two(col("v"), "+", int(i32::MAX - 4094));
    let said = select(&given_table, &[], Some(&late), Built::Unfolded);
    assert_eq!(said.stop(), refused(5, 4095));
}
