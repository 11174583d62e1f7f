//! Refusals in words: what was wrong, and where. Each by the library's own answer.

use ruffleknoll::{Column, Expr, Refusal, Table, Value};

fn numbers(name: &str, numbers: impl IntoIterator<Item = i32>) -> Table {
    let rows = numbers.into_iter().map(|number| vec![number.into()]).collect();
    Table::new(name, vec![Column::build("Number").int32()]).with_rows(rows).unwrap()
}

fn number() -> Expr {
    Expr::col("Number")
}

#[track_caller]
fn refused<T: std::fmt::Debug>(result: Result<T, Refusal>, number: u8, message: &str) {
    let refusal = result.unwrap_err();
    assert_eq!((refusal.to_string().as_str(), refusal.number()), (message, Some(number)));
}

#[test]
fn a_large_condition() {
    let sum = |count| (1..count).fold(number(), |sum, _| sum.or(number()));
    let clues = numbers("Clue", [1]);
    refused(
        clues.select(&[], Some(&sum(33))),
        2,
        "the condition has 65 nodes: at most 64 are allowed",
    );
    refused(clues.select(&[], Some(&sum(17))), 2, "the condition is more than 16 nodes deep");
    assert_eq!(clues.select(&[], Some(&sum(16))).map(|table| table.len()), Ok(1));
}

#[test]
fn names_of_a_wrong_length() {
    let clues = numbers("Clue", [1]);
    let message = "the condition has a column name of 0 bytes: 1 to 255 are allowed";
    refused(clues.select(&[], Some(&Expr::col(""))), 3, message);
    let nameless = Table::new("Clue", vec![Column::build("").int32()]);
    let message = "column 1 of Clue has a name of 0 bytes: 1 to 255 are allowed";
    refused(nameless.select(&[], None), 3, message);
    let long = numbers(&"x".repeat(256), [1]);
    let message = "a table's name has 256 bytes: at most 255 fit";
    refused(clues.left_join(&long, &number()), 3, message);
    let longish = numbers(&"x".repeat(249), [1]);
    let message = "column 2 of the join: a name of 256 bytes, at most 255 fit";
    refused(clues.left_join(&longish, &number()), 7, message);
}

#[test]
fn columns_that_are_not_there() {
    let clues = numbers("Clue", [1]);
    refused(clues.select(&["Number", "Row"], None), 4, "Clue has no column Row; it has Number");
    refused(clues.delete(Some(&Expr::col("Row"))), 4, "Clue has no column Row; it has Number");
    let set = clues.update(&[("Row", 1.into())], None);
    refused(set, 4, "Clue has no column Row; it has Number");
    let joined = clues.inner_join(&numbers("Entry", [1]), &number());
    refused(joined, 4, "Clue and Entry joined have no column Number");
}

#[test]
fn numbers_shifts_and_texts_that_grow_too_large() {
    let clues = numbers("Clue", [1, i32::MAX, 40]);
    let more = (number() + Expr::integer(1)).gt(Expr::integer(0));
    refused(clues.select(&[], Some(&more)), 5, "Clue 2: a number outside 32 bits");
    let (entries, clues_too) = (numbers("Entry", [0, 5]), numbers("Clue", [1, 40, i32::MAX]));
    let on = Expr::col("Entry.Number") + Expr::col("Clue.Number");
    let joined = entries.inner_join(&clues_too, &on);
    refused(joined, 5, "Entry 2 with Clue 3: a number outside 32 bits");
    let shifted = Expr::integer(1) << number();
    let message = "Clue 2: a shift by less than 0 or more than 31";
    refused(clues.delete(Some(&shifted)), 6, message);
    let long = || Expr::string("x".repeat(600));
    refused(
        clues.update(&[], Some(&(long() + long()))),
        7,
        "Clue 1: a joined text of more than 1024 bytes",
    );
    let message = "node 3 of the condition, +: a joined text of more than 1024 bytes";
    refused((long() + long()).fold(), 7, message);
    let row = clues.row(1).unwrap();
    refused((number() + Expr::integer(1)).eval(&row), 5, "a number outside 32 bits");
}

#[test]
fn counts_outside_their_bounds() {
    let wide =
        Table::new("Grid", (0..33).map(|n| Column::build(format!("c{n}")).int32()).collect());
    refused(wide.select(&[], None), 8, "Grid has 33 columns: 1 to 32 are allowed");
    let half =
        Table::new("Grid", (0..17).map(|n| Column::build(format!("c{n}")).int32()).collect());
    let message = "34 columns in the join: at most 32 are allowed";
    refused(half.left_join(&half, &Expr::null()), 8, message);
    let many = numbers("Clue", 0..4097);
    refused(many.delete(None), 8, "Clue has 4097 rows: at most 4096 are allowed");
    let clues = numbers("Clue", [1]);
    let message = "33 columns listed: at most 32 are allowed";
    refused(clues.select(&["Number"; 33], None), 8, message);
    let sets = vec![("Number", Value::Int(1)); 65];
    refused(clues.update(&sets, None), 8, "65 columns set: at most 64 are allowed");
}

#[test]
fn values_that_are_not_valid() {
    let clues = numbers("Clue", [1]);
    let set = clues.update(&[("Number", 2.into()), ("Number", "two".into())], None);
    refused(set, 13, "column Number: not a valid value (\"two\")");
}

#[test]
fn texts_that_cannot_be_printed() {
    let accent = number().eq(Expr::string("é"));
    let message = "node 2 of the condition, a text: a text that is not ASCII can't be printed";
    refused(accent.print(), 15, message);
}

#[test]
fn rows_of_another_length_are_not_asked_about() {
    let refusal = numbers("", [1]).with_rows(vec![vec![1.into(), 2.into()]]).unwrap_err();
    assert_eq!(refusal.to_string(), "row 1 has 2 values, not 1");
    assert_eq!(refusal.number(), None);
}

#[test]
fn rows_that_cannot_be_inserted() {
    let columns = vec![Column::build("Number").primary_key().int32()];
    let rows = vec![vec![1.into()], vec![4.into()]];
    let clues = Table::new("Clue", columns).with_rows(rows).unwrap();
    let inserted = |numbers: &[i32]| {
        clues.insert(&numbers.iter().map(|&number| vec![number.into()]).collect::<Vec<_>>())
    };
    refused(inserted(&[3, 4]), 11, "new Clue 2: its key is already in the table");
    refused(inserted(&[3, 2, 3]), 12, "new Clue 3: an earlier new row has its key");
    let null = clues.insert(&[vec![2.into()], vec![3.into()], vec![Value::Null]]);
    refused(null, 13, "new Clue 3, column Number: not a valid value (NULL)");
    let double = clues.clone().with_rows(vec![vec![1.into()], vec![1.into()]]).unwrap();
    refused(double.insert(&[]), 14, "Clue 2: an earlier row has its key");
    refused(inserted(&vec![9; 4097]), 8, "4097 new rows: at most 4096 are allowed");
    assert!(inserted(&[]).is_ok_and(|same| same == clues));
}
