//! The data and the conditions that are measured: no chance in them, so that every run has the same.

use work::{Cell, ColumnSpec, Row, TableSpec, Task, Tree};

pub struct Named {
    pub name: String,
    pub task: Task,
}

fn named(name: impl Into<String>, task: Task) -> Named {
    Named { name: name.into(), task }
}

/// What the table of docs/SPEED.md has.
pub fn tasks() -> Vec<Named> {
    let insert = |count| Task::Insert { table: entries(4096, 4), new_rows: new_rows(count) };
    let mut tasks = vec![
        named("select, 5 nodes over Ints, 4,096 rows", select(4096, 4)),
        named("select, 5 nodes with a text, 4,096 rows", select_text()),
    ];
    for rows in [512, 2048] {
        tasks.push(named(format!("left join {rows}×{rows}, int key"), join_ints(rows)));
        tasks.push(named(format!("left join {rows}×{rows}, text key"), join_texts(rows)));
    }
    tasks.push(named("insert of 1 row into 4,096", insert(1)));
    tasks.push(named("insert of 256 rows into 4,096", insert(256)));
    tasks.push(named("evaluate 15 nodes", evaluate(15)));
    tasks.push(named("fold 15 nodes", Task::Fold(foldable())));
    tasks.push(named("print 15 nodes", Task::Print(wide_condition(15))));
    tasks
}

/// The same at three sizes, to see how cost grows.
pub fn growing() -> Vec<Named> {
    let mut tasks = Vec::new();
    for rows in [1024, 2048, 4096] {
        tasks.push(named(format!("select, {rows} rows of 4 columns"), select(rows, 4)));
    }
    for columns in [4, 8, 16] {
        tasks.push(named(format!("select, 4096 rows of {columns} columns"), select(4096, columns)));
    }
    for rows in [512, 1024, 2048] {
        tasks.push(named(format!("left join {rows}×{rows}, int key"), join_ints(rows)));
    }
    for rows in [512, 1024, 2048] {
        tasks.push(named(format!("left join {rows}×{rows}, text key"), join_texts(rows)));
    }
    for rows in [1024, 2048, 4096] {
        let task = Task::Insert { table: entries(rows, 4), new_rows: new_rows(1) };
        tasks.push(named(format!("insert of 1 row into {rows}"), task));
    }
    for nodes in [7, 15, 31] {
        tasks.push(named(format!("evaluate {nodes} nodes"), evaluate(nodes)));
    }
    for nodes in [7, 15, 31] {
        tasks.push(named(format!("print {nodes} nodes"), Task::Print(wide_condition(nodes))));
    }
    tasks
}

fn int(number: i32) -> Tree {
    Tree::Literal(Cell::Int(number))
}

fn text(text: &str) -> Tree {
    Tree::Literal(Cell::Text(text.to_string()))
}

fn column(name: &str) -> Tree {
    Tree::Column(name.to_string())
}

fn two(left: Tree, kind: u8, right: Tree) -> Tree {
    Tree::Binary(kind, Box::new(left), Box::new(right))
}

const EQUAL: u8 = 32;
const LESS: u8 = 34;
const MORE: u8 = 36;
const PLUS: u8 = 38;
const MINUS: u8 = 39;
const TIMES: u8 = 40;
const BIT_AND: u8 = 42;
const AND: u8 = 48;
const OR: u8 = 49;

fn spec(name: &str, kind: u8, key: bool) -> ColumnSpec {
    ColumnSpec { name: name.to_string(), kind, nullable: !key, key, bound: 0 }
}

/// A table of grid entries: number (the key), length, square, clue, then further Ints.
fn entries(rows: i32, columns: usize) -> TableSpec {
    let mut specs = vec![
        spec("Number", 1, true),
        spec("Length", 1, false),
        spec("Square", 1, false),
        spec("Clue", 2, false),
    ];
    specs.extend((4..columns).map(|index| spec(&format!("More{index}"), 1, false)));
    // Odd numbers are left to the rows that are inserted.
    let row = |number: i32| entry(2 * number, columns);
    TableSpec { name: "Entries".to_string(), columns: specs, rows: (0..rows).map(row).collect() }
}

fn entry(number: i32, columns: usize) -> Row {
    let clue = format!("A clue of a length that is common, number {:02}", number % 61);
    let first = [number, number % 13 + 3, number * 7 % 225].map(Cell::Int);
    let mut row: Row = first.into_iter().chain([Cell::Text(clue)]).collect();
    row.extend((4..columns).map(|index| Cell::Int(index as i32)));
    row
}

/// New rows with keys between those of the table, not in key order.
fn new_rows(count: i32) -> Vec<Row> {
    (0..count).map(|index| entry(index * 37 % 256 * 16 + 1001, 4)).collect()
}

/// Number & 7 < Length
fn select(rows: i32, columns: usize) -> Task {
    let condition = two(two(column("Number"), BIT_AND, int(14)), LESS, column("Length"));
    Task::Select { table: entries(rows, columns), condition }
}

/// Length AND Clue = ".."
fn select_text() -> Task {
    let clue = text("A clue of a length that is common, number 17");
    let condition = two(column("Length"), AND, two(column("Clue"), EQUAL, clue));
    Task::Select { table: entries(4096, 4), condition }
}

fn side(name: &str, rows: i32, kind: u8, key: impl Fn(i32) -> Cell) -> TableSpec {
    let row = |number: i32| vec![Cell::Int(number), key(number)];
    TableSpec {
        name: name.to_string(),
        columns: vec![spec("Id", 1, true), spec("Key", kind, false)],
        rows: (0..rows).map(row).collect(),
    }
}

fn equal_keys() -> Tree {
    two(column("Left.Key"), EQUAL, column("Right.Key"))
}

/// All keys of a side differ; every second left row has a right one, in another order.
fn join_ints(rows: i32) -> Task {
    Task::LeftJoin {
        left: side("Left", rows, 1, |number| Cell::Int(number * 3)),
        right: side("Right", rows, 1, |number| Cell::Int((number * 5 + 1) % rows * 6)),
        condition: equal_keys(),
    }
}

/// 512 keys of 31 bytes a side, of which the first 27 are the same: above 512 rows they come again. Every second left
/// row has right ones. More keys, or longer ones, would not fit the text that a call takes.
fn join_texts(rows: i32) -> Task {
    let key = |number: i32| Cell::Text(format!("puzzles/issue-0417/entries/{number:04}"));
    Task::LeftJoin {
        left: side("Left", rows, 2, |number| key(number % 512 * 3)),
        right: side("Right", rows, 2, |number| key((number * 5 + 1) % 512 * 6)),
        condition: equal_keys(),
    }
}

fn evaluate(nodes: usize) -> Task {
    Task::Evaluate { table: entries(1, 4), condition: wide_condition(nodes) }
}

/// A full tree of 7, 15 or 31 nodes in which the left never decides and no operator has two literals.
fn wide_condition(nodes: usize) -> Tree {
    let seven =
        two(two(column("Number"), PLUS, int(30)), MORE, two(column("Length"), TIMES, int(3)));
    if nodes == 7 {
        return seven;
    }
    let other = two(
        two(column("Square"), BIT_AND, int(7)),
        LESS,
        two(column("Length"), MINUS, column("Number")),
    );
    let fifteen = two(seven, AND, other);
    if nodes == 15 {
        return fifteen;
    }
    let clue =
        two(two(column("Clue"), EQUAL, text("Q")), OR, two(column("Square"), LESS, int(100)));
    let last =
        two(two(column("Length"), MORE, int(2)), AND, two(column("Number"), LESS, int(9000)));
    two(fifteen, AND, two(clue, AND, last))
}

/// 15 nodes, of which six operators fold: (3 + 4) * (10 - 2) < Number is left as 56 < Number, and so on.
fn foldable() -> Tree {
    let left = two(two(int(3), PLUS, int(4)), TIMES, two(int(10), MINUS, int(2)));
    let right = two(two(int(5), TIMES, int(6)), MINUS, two(column("Number"), BIT_AND, int(7)));
    two(left, LESS, right)
}

#[cfg(test)]
mod tests {
    use super::*;

    fn nodes(tree: &Tree) -> usize {
        match tree {
            Tree::Literal(_) | Tree::Column(_) => 1,
            Tree::Unary(_, operand) => 1 + nodes(operand),
            Tree::Binary(_, left, right) => 1 + nodes(left) + nodes(right),
        }
    }

    #[test]
    fn conditions_have_the_nodes_that_are_named() {
        for count in [7, 15, 31] {
            assert_eq!(nodes(&wide_condition(count)), count);
        }
        assert_eq!(nodes(&foldable()), 15);
        for task in [select(1, 4), select_text()] {
            let Task::Select { condition, .. } = task else { panic!("no select") };
            assert_eq!(nodes(&condition), 5);
        }
    }
}
