//! Where the Rust and document 01 differ, or where the Rust can't be asked;
//! docs/DIFFERENCES.md tells the same points in words. `rust` is the original,
//! `document` the build with document 01's added rules for columns.

mod short;

use oracle::driver as rust;
use oracle::plain::{
    Built, Cell, ColumnSpec, JoinKind, Row, Said, TableSpec, Tree,
};
use oracle_document::driver as document;
use short::*;

fn one_column(column: ColumnSpec, rows: Vec<Row>) -> TableSpec {
    table("T", vec![column], rows)
}

fn bounded(bound: u16) -> ColumnSpec {
    ColumnSpec { bound, ..column("t", 2) }
}

#[test]
fn lowest_int_in_a_column() {
    let lowest = Cell::Int(i32::MIN);
    let numbers = column("n", 1);
    assert!(!given(rust::valid_value(&numbers, &lowest)));
    assert!(given(document::valid_value(&numbers, &lowest)));
    let next = Cell::Int(i32::MIN + 1);
    assert!(given(rust::valid_value(&numbers, &next)));
    // Written as it stands, it comes back as Null.
    let stored = one_column(numbers.clone(), vec![vec![lowest.clone()]]);
    assert_eq!(given(rust::read_back(&stored)), vec![vec![Cell::Null]]);
    assert_eq!(given(document::read_back(&stored)), stored.rows);
    let is_null = two(col("n"), "=", null());
    let say = rust::select(&stored, &[], Some(&is_null), Built::Folding);
    assert_eq!(reason(say), "row 0 reads back as [Null]");
    let empty = one_column(key("n", 1), vec![]);
    let said = rust::insert(&empty, &[vec![lowest.clone()]]);
    assert_eq!(said.stop(), Some((13, 0)));
    let said = document::insert(&empty, &[vec![lowest.clone()]]);
    assert_eq!(given(said), vec![vec![lowest]]);
}

#[test]
fn null_in_a_binary_column() {
    let binary = column("b", 3);
    assert!(!given(rust::valid_value(&binary, &Cell::Null)));
    assert!(given(document::valid_value(&binary, &Cell::Null)));
    let stored = one_column(binary.clone(), vec![vec![Cell::Null]]);
    let why = reason(rust::read_back(&stored));
    assert_eq!(why, "Cannot write Null to BINARY column");
    assert_eq!(given(document::read_back(&stored)), stored.rows);
    let set = [("b".to_string(), Cell::Null)];
    let full = one_column(binary, vec![vec![Cell::Binary]]);
    let said = rust::update(&full, &set, None, Built::Folding);
    assert_eq!(said.stop(), Some((13, 0)));
    let said = document::update(&full, &set, None, Built::Folding);
    assert_eq!(given(said), vec![vec![Cell::Null]]);
}

#[test]
fn a_left_join_pads_binary_columns_with_null_all_the_same() {
    let left = table("L", vec![column("a", 1)], vec![ints(&[1])]);
    let right = table("R", vec![column("b", 3)], vec![vec![Cell::Binary]]);
    let never = two(col("L.a"), "=", col("R.b"));
    let rows =
        rust::join(JoinKind::Left, &left, &right, &never, Built::Folding);
    assert_eq!(given(rows), vec![vec![Cell::Int(1), Cell::Null]]);
}

#[test]
fn cells_of_another_kind_than_their_column() {
    let cells = [Cell::Null, Cell::Int(7), cell("a"), Cell::Binary];
    for kind in 1..=3 {
        for cell in &cells {
            let stored =
                one_column(column("c", kind), vec![vec![cell.clone()]]);
            let rows = given(document::read_back(&stored));
            assert_eq!(rows, stored.rows);
            let fits = given(rust::valid_value(&stored.columns[0], cell));
            match rust::read_back(&stored) {
                Said::Gave(rows) => assert!(fits && rows == stored.rows),
                said => assert!(!fits, "{cell:?}: {said:?}"),
            }
        }
    }
    let stored = one_column(column("t", 2), vec![ints(&[7])]);
    let why = reason(rust::read_back(&stored));
    assert_eq!(why, "Cannot write Int(7) to VARCHAR(0) column");
    // The build with other columns can still be asked about such rows.
    let is_seven = two(col("t"), "=", int(7));
    let rows = document::select(&stored, &[], Some(&is_seven), Built::Folding);
    assert_eq!(given(rows), vec![ints(&[7])]);
}

#[test]
fn text_bounds_count_characters_in_the_rust() {
    let content = cell("\u{e9}");
    assert!(given(rust::valid_value(&bounded(1), &content)));
    assert!(!given(document::valid_value(&bounded(1), &content)));
    assert!(given(document::valid_value(&bounded(2), &content)));
    assert!(!given(rust::valid_value(&bounded(1), &cell("ab"))));
    assert!(given(rust::valid_value(&bounded(0), &cell("ab"))));
}

#[test]
fn an_empty_text_stays_a_text() {
    let stored = one_column(column("t", 2), vec![vec![cell("")]]);
    assert_eq!(given(rust::read_back(&stored)), vec![vec![cell("")]]);
    let texts = ["", "a", "", "\u{e9}"].map(str::to_string);
    let wanted: Vec<Cell> = texts.iter().map(|text| cell(text)).collect();
    assert_eq!(given(rust::read_back_pool(&texts)), wanted);
    let is_null = two(col("t"), "=", null());
    let numbers =
        rust::selected_rows(&stored, &[], Some(&is_null), Built::Unfolded);
    assert_eq!(given(numbers), Vec::<u64>::new());
}

#[test]
fn missing_columns_in_joins() {
    let rows =
        |count: i32| -> Vec<Row> { (0..count).map(|n| ints(&[n])).collect() };
    let left = |count| table("L", vec![column("a", 1)], rows(count));
    let right = |count| table("R", vec![column("b", 1)], rows(count));
    let say = |kind, lefts, rights, condition: &Tree| {
        rust::join(
            kind,
            &left(lefts),
            &right(rights),
            condition,
            Built::Folding,
        )
    };
    let missing = col("x");
    let message = other_panic(say(JoinKind::Inner, 1, 1, &missing));
    assert_eq!(message, "Anonymous table has no column named \"x\"");
    // No pair, no panic.
    assert_eq!(given(say(JoinKind::Inner, 0, 1, &missing)).len(), 0);
    let padded = vec![vec![Cell::Int(0), Cell::Null]];
    assert_eq!(given(say(JoinKind::Left, 1, 0, &missing)), padded);
    // Nor where the left side of AND decides in every pair.
    let hidden = two(int(0), "AND", col("x"));
    assert_eq!(given(say(JoinKind::Inner, 2, 2, &hidden)).len(), 0);
    let later = two(col("R.b"), "AND", col("x"));
    match say(JoinKind::Inner, 2, 2, &later) {
        Said::Panicked { place, .. } => assert_eq!(place, Some(1)),
        other => panic!("{other:?}"),
    }
}

#[test]
fn text_outside_ascii_prints_in_the_rust() {
    assert_eq!(rust::print_cell(&cell("\u{e9}")), "\"\u{e9}\"");
    assert_eq!(rust::print_cell(&cell("\u{80}")), "\"\\u{80}\"");
    assert_eq!(rust::print_cell(&cell("\u{a0}")), "\"\\u{a0}\"");
    assert_eq!(rust::print_cell(&cell("\u{200b}")), "\"\\u{200b}\"");
    assert_eq!(rust::print_cell(&cell("e\u{301}")), "\"e\\u{301}\"");
    let tree = two(col("\u{e9}"), "=", int(1));
    assert_eq!(given(rust::print_built(&tree)), "\u{e9} = 1");
}

#[test]
fn joined_texts_have_no_limit() {
    let long = "a".repeat(1_000);
    let tree = two(text(&long), "+", text(&long));
    let say = |built| given(rust::evaluate(&[], &[], &tree, built));
    assert_eq!(say(Built::Folding), cell(&"a".repeat(2_000)));
    assert_eq!(say(Built::Unfolded), cell(&"a".repeat(2_000)));
    let name = "n".repeat(255);
    let joined = rust::joined_columns(
        JoinKind::Inner,
        &name,
        &[column(&name, 1)],
        "R",
        &[column("b", 1)],
    );
    assert_eq!(given(joined)[0].name.len(), 511);
}

#[test]
fn conditions_have_no_bounds() {
    let mut deep = col("a");
    let mut wide = col("a");
    for _ in 0..100 {
        deep = un("NOT", deep);
        wide = two(wide, "+", int(1));
    }
    let say = |tree: &Tree| {
        let names = names(&["a"]);
        given(rust::evaluate(&names, &ints(&[1]), tree, Built::Folding))
    };
    assert_eq!(say(&deep), Cell::Int(1));
    assert_eq!(say(&wide), Cell::Int(101));
}

#[test]
fn columns_and_rows_have_no_bounds() {
    let width = 40;
    let columns = (0..width).map(|n| column(&format!("c{n}"), 1)).collect();
    let rows = vec![ints(&vec![1; width]); 5_000];
    let wide = table("T", columns, rows);
    let said = rust::select(&wide, &names(&["c39"]), None, Built::Folding);
    assert_eq!(given(said).len(), 5_000);
    let list = names(&["c0"; 33]);
    let said = rust::select(&wide, &list, None, Built::Folding);
    assert_eq!(given(said)[0].len(), 33);
    let sets = vec![("c0".to_string(), Cell::Int(2)); 65];
    let said = rust::update(&wide, &sets, None, Built::Folding);
    assert_eq!(given(said)[0][0], Cell::Int(2));
    let tall = one_column(column("n", 1), vec![ints(&[1]); 65_537]);
    let why = reason(rust::select(&tall, &[], None, Built::Folding));
    assert_eq!(why, "Number of rows is too large (65537 > 65536)");
}

#[test]
fn of_equal_names_the_first_is_taken() {
    let columns = vec![column("a", 1), column("a", 2), column("b", 1)];
    assert_eq!(given(rust::column_number(&columns, "a")), Some(0));
    assert_eq!(given(rust::column_number(&columns, "b")), Some(2));
    assert_eq!(given(rust::column_number(&columns, "c")), None);
}

#[test]
fn questions_that_cannot_be_put() {
    let binary = Tree::Literal(Cell::Binary);
    let why = reason(rust::print_built(&binary));
    assert_eq!(why, "no builder makes a Binary literal");
    let side = table("T", vec![column("a", 1)], vec![ints(&[1])]);
    let said =
        rust::join(JoinKind::Inner, &side, &side, &int(1), Built::Folding);
    assert_eq!(reason(said), "two tables of one name");
    let short = rust::insert(&side, &[vec![]]);
    assert_eq!(
        reason(short),
        "Table \"T\" has 1 columns, but a row with 0 values was provided"
    );
}

#[test]
fn names_are_checked_by_no_query() {
    assert!(!rust::valid_column_name("a b"));
    assert!(!rust::valid_table_name(""));
    let odd = table("", vec![column("a b \u{e9}", 1)], vec![ints(&[4])]);
    let four = two(col("a b \u{e9}"), "=", int(4));
    let rows = rust::select(&odd, &[], Some(&four), Built::Folding);
    assert_eq!(given(rows), vec![ints(&[4])]);
    for length in [0, 256] {
        let name = "n".repeat(length);
        let odd = table("T", vec![column(&name, 1)], vec![ints(&[4])]);
        let rows = rust::select(&odd, &[], Some(&col(&name)), Built::Folding);
        assert_eq!(given(rows), vec![ints(&[4])]);
    }
}

#[test]
fn with_joins_what_the_builders_have_folded() {
    let same = two(int(1), "=", int(1));
    let say = |built| given(rust::print_with(Some(&same), &col("v"), built));
    assert_eq!(say(Built::Folding), "1 AND v");
    assert_eq!(say(Built::Unfolded), "1 = 1 AND v");
}

#[test]
fn the_column_number_of_a_file_loses_long_bounds() {
    let say = |column: &ColumnSpec| given(rust::column_from_file(column));
    assert_eq!(say(&bounded(255)).bound, 255);
    assert_eq!(say(&bounded(256)).bound, 0);
    let hard = ColumnSpec { nullable: false, ..bounded(0x1000) };
    assert!(say(&hard).nullable);
    // A Binary key column comes back as a text column.
    assert_eq!(say(&key("b", 3)).kind, 2);
}
