//! Each task as a program that uses the crate would put it.

use crate::driver::translate::{cell_of, values_of};
use crate::internal::expr::Expr;
use crate::internal::query::{Insert, Select};
use crate::internal::table::Row;
use crate::store::{table_of, Store};
use std::hint::black_box;
use std::time::Duration;
use work::{clock, Answer, Cell, Ready, TableSpec, Task, Tree};

pub fn ready(task: &Task) -> Box<dyn Ready> {
    match task {
        Task::Select { table, condition } => {
            let (name, condition) = (table.name.clone(), condition.clone());
            let query = move || Select::table(name.as_str()).with(build(&condition));
            Box::new(Queried { store: Store::of(&[table]), query: Box::new(query) })
        }
        Task::LeftJoin { left, right, condition } => {
            let store = Store::of(&[left, right]);
            let (left, right) = (left.name.clone(), right.name.clone());
            let condition = condition.clone();
            let query = move || {
                let other = Select::table(right.as_str());
                Select::table(left.as_str()).left_join(other, build(&condition))
            };
            Box::new(Queried { store, query: Box::new(query) })
        }
        Task::Insert { table, new_rows } => {
            Box::new(Inserted { table: table.clone(), new_rows: new_rows.clone() })
        }
        Task::Evaluate { table, condition } => {
            let row = Row::new(table_of(table), values_of(&table.rows[0]));
            Box::new(Evaluated { row, condition: build(condition) })
        }
        Task::Fold(tree) => Box::new(Folded(tree.clone())),
        Task::Print(tree) => Box::new(Printed(build(tree))),
    }
}

struct Queried {
    store: Store,
    /// A query is used up by running it.
    query: Box<dyn Fn() -> Select>,
}

impl Ready for Queried {
    fn answer(&mut self) -> Answer {
        let query = (self.query)();
        Answer::Rows(self.store.rows(query))
    }

    fn time(&mut self, runs: u32) -> Duration {
        let mut total = Duration::ZERO;
        for _ in 0..runs {
            let query = (self.query)();
            let start = clock();
            // The rows are left as references into the string pool, the form they come in.
            drop(black_box(self.store.select(query).expect("rows")));
            total += clock() - start;
        }
        total
    }
}

struct Inserted {
    table: TableSpec,
    new_rows: Vec<work::Row>,
}

impl Inserted {
    fn made(&self) -> (Store, Insert) {
        let new_rows = self.new_rows.iter().map(|row| values_of(row)).collect();
        (Store::of(&[&self.table]), Insert::into(self.table.name.as_str()).rows(new_rows))
    }
}

impl Ready for Inserted {
    fn answer(&mut self) -> Answer {
        let (mut store, query) = self.made();
        store.insert(query).expect("an accepted insert");
        let all = Select::table(self.table.name.as_str());
        Answer::Rows(store.rows(all))
    }

    fn time(&mut self, runs: u32) -> Duration {
        let mut total = Duration::ZERO;
        for _ in 0..runs {
            let (mut store, query) = self.made();
            let start = clock();
            store.insert(query).expect("an accepted insert");
            total += clock() - start;
            black_box(&store);
        }
        total
    }
}

struct Evaluated {
    row: Row,
    condition: Expr,
}

impl Ready for Evaluated {
    fn answer(&mut self) -> Answer {
        Answer::Cell(cell_of(&self.condition.eval(&self.row)))
    }

    fn time(&mut self, runs: u32) -> Duration {
        timed(runs, || self.condition.eval(black_box(&self.row)))
    }
}

/// The builders fold as they build.
struct Folded(Tree);

impl Ready for Folded {
    fn answer(&mut self) -> Answer {
        Answer::Printed(build(&self.0).to_string())
    }

    fn time(&mut self, runs: u32) -> Duration {
        timed(runs, || build(black_box(&self.0)))
    }
}

struct Printed(Expr);

impl Ready for Printed {
    fn answer(&mut self) -> Answer {
        Answer::Printed(self.0.to_string())
    }

    fn time(&mut self, runs: u32) -> Duration {
        timed(runs, || black_box(&self.0).to_string())
    }
}

fn timed<T>(runs: u32, mut run: impl FnMut() -> T) -> Duration {
    let start = clock();
    for _ in 0..runs {
        black_box(run());
    }
    clock() - start
}

/// By the builders alone: the driver's `build` catches panics at every operator, which the clock would see.
fn build(tree: &Tree) -> Expr {
    match tree {
        Tree::Literal(Cell::Int(number)) => Expr::integer(*number),
        Tree::Literal(Cell::Text(text)) => Expr::string(text.as_str()),
        Tree::Literal(_) => Expr::null(),
        Tree::Column(name) => Expr::col(name.as_str()),
        Tree::Unary(kind, operand) => unary(*kind, build(operand)),
        Tree::Binary(kind, left, right) => binary(*kind, build(left), build(right)),
    }
}

fn unary(kind: u8, operand: Expr) -> Expr {
    match kind {
        16 => -operand,
        17 => operand.bitinv(),
        _ => operand.not(),
    }
}

fn binary(kind: u8, left: Expr, right: Expr) -> Expr {
    match kind {
        32 => left.eq(right),
        33 => left.ne(right),
        34 => left.lt(right),
        35 => left.le(right),
        36 => left.gt(right),
        37 => left.ge(right),
        38 => left + right,
        39 => left - right,
        40 => left * right,
        41 => left / right,
        42 => left & right,
        43 => left | right,
        44 => left ^ right,
        45 => left << right,
        46 => left >> right,
        48 => left.and(right),
        _ => left.or(right),
    }
}
