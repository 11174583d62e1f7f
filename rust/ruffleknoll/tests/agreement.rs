//! Drawn tables and conditions, asked of this crate and of msi's own files: the same rows, the same refusals and places.

use oracle::driver;
use oracle::plain::{Built, Cell, ColumnSpec, JoinKind, Row, Said, TableSpec, Tree};
use ruffleknoll::{Column, Expr, Refusal, Table, Value};

/// splitmix64: a seed gives the same questions everywhere.
struct Random(u64);

impl Random {
    fn below(&mut self, bound: u64) -> u64 {
        self.0 = self.0.wrapping_add(0x9e37_79b9_7f4a_7c15);
        let mixed = (self.0 ^ self.0 >> 30).wrapping_mul(0xbf58_476d_1ce4_e5b9);
        let mixed = (mixed ^ mixed >> 27).wrapping_mul(0x94d0_49bb_1331_11eb);
        (mixed ^ mixed >> 31) % bound
    }

    fn pick<T: Copy>(&mut self, from: &[T]) -> T {
        from[self.below(from.len() as u64) as usize]
    }

    fn cell(&mut self) -> Cell {
        match self.below(5) {
            0 => Cell::Null,
            1 | 2 => Cell::Int(self.pick(&[0, 1, 2, -7, 33, i32::MAX])),
            _ => Cell::Text(self.pick(&["", "a", "b", "ab", "a\"\\\n"]).to_string()),
        }
    }

    /// A condition over these columns, built both ways.
    fn condition(&mut self, columns: &[&str], depth: u64) -> (Tree, Expr) {
        let kind = if depth == 0 { self.below(2) } else { self.below(6) };
        match kind {
            0 => {
                let cell = self.cell();
                let literal = literal(&cell);
                (Tree::Literal(cell), literal)
            }
            1 => {
                let name = self.pick(columns);
                (Tree::Column(name.to_string()), Expr::col(name))
            }
            2 => {
                let kind = self.pick(&[16, 17, 18]);
                let (tree, expr) = self.condition(columns, depth - 1);
                (Tree::Unary(kind, Box::new(tree)), unary(kind, expr))
            }
            _ => {
                let kind = self
                    .pick(&[32, 33, 34, 35, 36, 37, 38, 39, 40, 41, 42, 43, 44, 45, 46, 48, 49]);
                let (left, first) = self.condition(columns, depth - 1);
                let (right, second) = self.condition(columns, depth - 1);
                let tree = Tree::Binary(kind, Box::new(left), Box::new(right));
                (tree, binary(kind, first, second))
            }
        }
    }

    /// Numbers and texts, either of which may be Null.
    fn table(&mut self, name: &str) -> TableSpec {
        let column = |name: &str, kind: u8| {
            let name = name.to_string();
            ColumnSpec { name, kind, nullable: true, key: kind == 1, bound: 0 }
        };
        let columns = vec![column("Number", 1), column("Text", 2)];
        let count = self.below(5);
        let rows = (0..count).map(|_| self.row()).collect();
        TableSpec { name: name.to_string(), columns, rows }
    }

    fn row(&mut self) -> Row {
        let number = loop {
            let cell = self.cell();
            if !matches!(cell, Cell::Text(_)) {
                break cell;
            }
        };
        let text = loop {
            let cell = self.cell();
            // msi's files keep no empty text apart from Null.
            if !matches!(cell, Cell::Int(_)) && cell != Cell::Text(String::new()) {
                break cell;
            }
        };
        vec![number, text]
    }
}

fn literal(cell: &Cell) -> Expr {
    match cell {
        Cell::Null => Expr::null(),
        Cell::Int(number) => Expr::integer(*number),
        Cell::Text(text) => Expr::string(text.as_str()),
        Cell::Binary => unreachable!("not drawn"),
    }
}

fn unary(kind: u8, expr: Expr) -> Expr {
    match kind {
        16 => -expr,
        17 => expr.bitinv(),
        _ => expr.not(),
    }
}

fn binary(kind: u8, left: Expr, right: Expr) -> Expr {
    match kind {
        32 => left.eq(right),
        33 => left.ne(right),
        34 => left.lt(right),
        35 => left.le(right),
        36 => left.gt(right),
        37 => left.ge(right),
        38 => left + right,
        39 => left - right,
        40 => left * right,
        41 => left / right,
        42 => left & right,
        43 => left | right,
        44 => left ^ right,
        45 => left << right,
        46 => left >> right,
        48 => left.and(right),
        _ => left.or(right),
    }
}

fn value(cell: &Cell) -> Value {
    match cell {
        Cell::Null => Value::Null,
        Cell::Int(number) => Value::Int(*number),
        Cell::Text(text) => Value::Str(text.clone()),
        Cell::Binary => Value::Binary,
    }
}

fn values(rows: &[Row]) -> Vec<Vec<Value>> {
    rows.iter().map(|row| row.iter().map(value).collect()).collect()
}

fn table(spec: &TableSpec) -> Table {
    let column = |column: &ColumnSpec| {
        let builder = Column::build(column.name.as_str()).nullable();
        match column.kind {
            1 => builder.primary_key().int32(),
            _ => builder.string(column.bound),
        }
    };
    let columns = spec.columns.iter().map(column).collect();
    Table::new(spec.name.as_str(), columns).with_rows(values(&spec.rows)).unwrap()
}

/// What both said, as far as msi's files could be asked.
#[derive(Default)]
struct Tally {
    alike: usize,
    refused: usize,
}

impl Tally {
    #[track_caller]
    fn compare(&mut self, said: Said<Vec<Row>>, answered: Result<Table, Refusal>) {
        if let Said::Gave(rows) = &said {
            let table = answered.unwrap();
            let found: Vec<Vec<Value>> = table.rows().map(|row| row.values().to_vec()).collect();
            assert_eq!(found, values(rows));
            self.alike += 1;
        } else if let Some((number, place)) = said.stop() {
            let refusal = answered.unwrap_err();
            assert_eq!((refusal.number(), refusal.place()), (Some(number), place), "{refusal}");
            self.refused += 1;
        }
    }
}

#[test]
fn rows_are_those_of_msi() {
    let mut random = Random(13);
    let mut tally = Tally::default();
    for _ in 0..1000 {
        let (entries, clues) = (random.table("Entry"), random.table("Clue"));
        let (left, right) = (table(&entries), table(&clues));
        let (tree, expr) = random.condition(&["Number", "Text"], 3);
        let list = ["Text", "Number", "Text"];
        let names = list.map(str::to_string);
        let said = driver::select(&entries, &names, Some(&tree), Built::Unfolded);
        tally.compare(said, left.select(&list, Some(&expr)));
        let said = driver::delete(&entries, Some(&tree), Built::Unfolded);
        tally.compare(said, left.delete(Some(&expr)));
        let set = ("Text".to_string(), Cell::Text("new".to_string()));
        let said = driver::update(&entries, &[set], Some(&tree), Built::Unfolded);
        tally.compare(said, left.update(&[("Text", "new".into())], Some(&expr)));
        let joined = ["Entry.Number", "Entry.Text", "Clue.Number", "Clue.Text"];
        let (tree, expr) = random.condition(&joined, 3);
        let said = driver::join(JoinKind::Inner, &entries, &clues, &tree, Built::Unfolded);
        tally.compare(said, left.inner_join(&right, &expr));
        let said = driver::join(JoinKind::Left, &entries, &clues, &tree, Built::Unfolded);
        tally.compare(said, left.left_join(&right, &expr));
    }
    assert!(tally.alike > 4000 && tally.refused > 40, "{} {}", tally.alike, tally.refused);
}

#[test]
fn conditions_print_and_fold_as_in_msi() {
    let mut random = Random(14);
    let mut folded = 0;
    for _ in 0..1000 {
        let (tree, expr) = random.condition(&["Number", "Text"], 4);
        assert_eq!(driver::print_unfolded(&tree), Said::Gave(expr.print().unwrap()));
        match driver::print_built(&tree) {
            Said::Gave(text) => {
                assert_eq!(expr.fold().unwrap().print().unwrap(), text);
                folded += 1;
            }
            said => {
                let number = expr.fold().unwrap_err().number();
                assert!(matches!(said, Said::Panicked { number: n, .. } if Some(n) == number));
            }
        }
    }
    assert!((700..1000).contains(&folded), "{folded}");
}

#[test]
fn inserts_are_those_of_msi() {
    let mut random = Random(15);
    let mut tally = Tally::default();
    for _ in 0..400 {
        let (old, new) = (random.table("Clue"), random.table("Clue").rows);
        let said = driver::insert(&old, &new);
        tally.compare(said, table(&old).insert(&values(&new)));
    }
    assert!(tally.alike > 50 && tally.refused > 50, "{} {}", tally.alike, tally.refused);
}
