//! The crate makes the buffers: whatever is within document 01's bounds is answered, never refused for want of room.

use ruffleknoll::{Column, Expr, Row, Table, Value};

fn table(name: &str, columns: usize, rows: usize, value: impl Fn(usize) -> Value) -> Table {
    let columns: Vec<Column> =
        (0..columns).map(|number| Column::build(format!("c{number}")).string(0)).collect();
    let rows = (0..rows).map(|row| columns.iter().map(|_| value(row)).collect()).collect();
    Table::new(name, columns).with_rows(rows).unwrap()
}

fn int(row: usize) -> Value {
    Value::Int(row as i32)
}

#[test]
fn the_largest_tables() {
    let largest = table("Grid", 32, 4096, int);
    assert_eq!(largest.select(&[], None), Ok(largest.clone()));
    assert_eq!(largest.delete(Some(&Expr::integer(0))), Ok(largest.clone()));
    let set = largest.update(&[("c31", "x".into())], Some(&Expr::integer(1))).unwrap();
    let is_set = |(number, row): (usize, Row)| row.values()[30..] == [int(number), "x".into()];
    assert!(set.len() == 4096 && set.rows().enumerate().all(is_set));
    let narrow = table("Grid", 1, 4096, int);
    assert_eq!(narrow.select(&["c0"; 32], None).map(|wide| wide.columns().len()), Ok(32));
}

/// Old and new rows together, in the order of their keys.
#[test]
fn an_insert_that_doubles_a_table() {
    let key = Column::build("Number").primary_key().int32();
    let more = (1..32).map(|number| Column::build(format!("c{number}")).int32());
    let columns: Vec<Column> = [key].into_iter().chain(more).collect();
    let rows =
        |first: usize| (0..500).map(|row| vec![int(2 * row + first); 32]).collect::<Vec<_>>();
    let odd = Table::new("Clue", columns).with_rows(rows(1)).unwrap();
    let all = odd.insert(&rows(0)).unwrap();
    let numbers: Vec<Value> = all.rows().map(|row| row.values()[31].clone()).collect();
    assert_eq!(numbers, (0..1000).map(int).collect::<Vec<_>>());
}

/// The first output is made for a row of each side: here the library asks for more.
#[test]
fn joins_larger_than_both_sides() {
    let (left, right) = (table("Left", 1, 300, int), table("Right", 2, 200, int));
    let pairs = left.inner_join(&right, &Expr::integer(1)).unwrap();
    assert_eq!(pairs.len(), 60_000);
    assert_eq!(pairs.row(59_999).unwrap().values(), [int(299), int(199), int(199)]);
    assert_eq!(pairs.row(201).unwrap().values(), [int(1), int(1), int(1)]);
    let padded = left.left_join(&right, &Expr::integer(0)).unwrap();
    assert_eq!(padded.len(), 300);
    assert!(padded.rows().all(|row| row.values()[1..] == [Value::Null, Value::Null]));
}

/// More than 16 MB, with which the process on other processors starts.
#[test]
fn a_very_large_join() {
    let (left, right) = (table("Left", 1, 1100, int), table("Right", 1, 1000, int));
    let pairs = left.inner_join(&right, &Expr::integer(1)).unwrap();
    assert_eq!(pairs.len(), 1_100_000);
    assert_eq!(pairs.row(1_099_999).unwrap().values(), [int(1099), int(999)]);
    assert_eq!(left.select(&[], None), Ok(left));
}

#[test]
fn as_much_text_as_fits_one_call() {
    let text = |length: usize| move |_| Value::Str("x".repeat(length));
    // One text in all rows is stored once; the name takes two bytes.
    let full = table("Clue", 1, 500, text(65_534));
    assert_eq!(full.select(&[], None), Ok(full.clone()));
    let over = table("Clue", 1, 1, text(65_535)).select(&[], None).unwrap_err();
    let message = "the texts take 65537 bytes: at most 65536 fit one call";
    assert_eq!((over.to_string().as_str(), over.number()), (message, Some(10)));
    let half = table("Clue", 1, 2, text(32_766));
    assert_eq!(half.select(&[], Some(&Expr::col("c0"))), Ok(half.clone()));
    let over = table("Clue", 1, 2, text(32_767)).select(&[], Some(&Expr::col("c0"))).unwrap_err();
    let message = "the texts take 32769 bytes: at most 32768 fit one call";
    assert_eq!((over.to_string().as_str(), over.number()), (message, Some(10)));
    let longer = table("Clue", 1, 1, text(65_536)).select(&[], None).unwrap_err();
    assert_eq!(longer.to_string(), "a text of 65536 bytes: at most 65535 fit a cell");
}

#[test]
fn a_long_condition_is_printed_and_folded() {
    let long = (0..5)
        .fold(Expr::string("y".repeat(1000)), |sum, _| sum.eq(Expr::string("\u{1}".repeat(1000))));
    assert_eq!(long.print().map(|text| text.len()), Ok(1002 + 5 * (5 * 1000 + 2 + 3)));
    let text = Expr::string("a".repeat(512)) + Expr::string("b".repeat(512));
    let folded = text.fold().unwrap().print().unwrap();
    assert_eq!(folded, format!("\"{}{}\"", "a".repeat(512), "b".repeat(512)));
}

#[test]
fn texts_come_back_as_they_were() {
    let texts = ["", "é", "a\0b", "\u{10ffff}", "a"];
    let clues = table("Clue", 1, 5, |row| texts[row].into());
    assert_eq!(clues.select(&["c0"], None).unwrap().rows().count(), 5);
    let nonempty = clues.select(&[], Some(&Expr::col("c0"))).unwrap();
    let found: Vec<_> = nonempty.rows().map(|row| row.values()[0].clone()).collect();
    assert_eq!(found, texts[1..].iter().map(|&text| text.into()).collect::<Vec<Value>>());
}

/// Printing needs no room above its texts, folding does.
#[test]
fn as_much_text_as_fits_a_condition() {
    let texts =
        |length: usize| Expr::string("x".repeat(length)).eq(Expr::string("y".repeat(length)));
    assert_eq!(texts(32_768).print().map(|text| text.len()), Ok(2 * 32_768 + 7));
    let message = |refusal: ruffleknoll::Refusal| refusal.to_string();
    let over = "the texts take 65538 bytes: at most 65536 fit one call";
    assert_eq!(texts(32_769).print().map_err(message), Err(over.to_string()));
    assert_eq!(texts(16_384).fold().and_then(|folded| folded.print()), Ok("0".to_string()));
    let over = "the texts take 32770 bytes: at most 32768 fit one call";
    assert_eq!(texts(16_385).fold().map(|_| ()).map_err(message), Err(over.to_string()));
}

/// However deep an expression is, it is refused and not crashed on.
#[test]
fn an_endless_expression() {
    let deep = (0..1_000_000).fold(Expr::col("c0"), |deep, _| deep.not());
    let clues = table("Clue", 1, 1, int);
    assert_eq!(clues.select(&[], Some(&deep)).unwrap_err().number(), Some(2));
}

/// Threads share the library.
#[test]
fn many_threads() {
    let ask = |number: i32| (Expr::integer(number) + Expr::integer(1)).fold()?.print();
    let threads: Vec<_> =
        (0..8).map(|number| std::thread::spawn(move || (number, ask(number)))).collect();
    for thread in threads {
        let (number, said) = thread.join().unwrap();
        assert_eq!(said, Ok((number + 1).to_string()));
    }
}
