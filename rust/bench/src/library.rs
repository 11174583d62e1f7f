//! This library's side: buffers are lent once, and every run is one call.

use crate::lent::{names, Texts};
use cases::call::{EVALUATE, FOLD, INSERT, LEFT_JOIN, PRINT, SELECT};
use compare::calls::by_number;
use std::hint::black_box;
use std::time::Duration;
use work::{clock, Answer, Ready, Side, Task};

pub struct Ruffleknoll;

impl Side for Ruffleknoll {
    fn name(&self) -> &'static str {
        "Ruffleknoll"
    }

    fn ready(&self, task: &Task) -> Option<Box<dyn Ready>> {
        Some(Box::new(Lent::of(task)))
    }
}

/// All that a call of any kind is lent; what it doesn't take is empty.
struct Lent {
    /// By docs/CASES.md's number.
    call: u8,
    texts: Texts,
    columns: Vec<u64>,
    rows: Vec<u64>,
    right_columns: Vec<u64>,
    /// The right rows of a join, the new rows of an insert.
    more_rows: Vec<u64>,
    condition: Vec<u8>,
    words: Vec<u64>,
    bytes: Vec<u8>,
    /// The words of a row of the result.
    width: usize,
}

impl Lent {
    fn new(call: u8) -> Lent {
        Lent {
            call,
            texts: Texts::new(),
            columns: Vec::new(),
            rows: Vec::new(),
            right_columns: Vec::new(),
            more_rows: Vec::new(),
            condition: Vec::new(),
            words: Vec::new(),
            bytes: vec![0; 4096],
            width: 1,
        }
    }

    fn of(task: &Task) -> Lent {
        match task {
            Task::Select { table, condition } => Lent::over(SELECT, table, condition),
            Task::Evaluate { table, condition } => Lent::over(EVALUATE, table, condition),
            Task::LeftJoin { left, right, condition } => Lent::join(left, right, condition),
            Task::Insert { table, new_rows } => {
                let mut lent = Lent::new(INSERT);
                lent.columns = lent.texts.columns(table);
                lent.rows = lent.texts.rows(&table.rows);
                lent.more_rows = lent.texts.rows(new_rows);
                lent.width = table.columns.len();
                lent.words = vec![0; lent.rows.len() + lent.more_rows.len()];
                lent
            }
            Task::Fold(tree) => Lent::named(FOLD, tree),
            Task::Print(tree) => Lent::named(PRINT, tree),
        }
    }

    /// A condition over one table.
    fn over(call: u8, table: &work::TableSpec, condition: &work::Tree) -> Lent {
        let mut lent = Lent::new(call);
        lent.columns = lent.texts.columns(table);
        lent.rows = lent.texts.rows(&table.rows);
        // A literal lies in another place than equal texts of the rows.
        lent.texts.forget();
        lent.condition = lent.texts.condition(condition, &names(table, false));
        lent.width = table.columns.len();
        lent.words = vec![0; lent.rows.len()];
        lent
    }

    fn join(left: &work::TableSpec, right: &work::TableSpec, condition: &work::Tree) -> Lent {
        let mut lent = Lent::new(LEFT_JOIN);
        lent.columns = lent.texts.columns(left);
        lent.rows = lent.texts.rows(&left.rows);
        lent.texts.forget();
        lent.right_columns = lent.texts.columns(right);
        lent.more_rows = lent.texts.rows(&right.rows);
        let names = [names(left, true), names(right, true)].concat();
        lent.condition = lent.texts.condition(condition, &names);
        lent.width = names.len();
        lent.words = vec![0; 16_384 * names.len()];
        lent
    }

    fn named(call: u8, tree: &work::Tree) -> Lent {
        let mut lent = Lent::new(call);
        lent.condition = lent.texts.condition(tree, &[]);
        lent
    }

    /// The arguments in the header's order. They stay right as long as no buffer is changed in length.
    fn arguments(&mut self) -> [u64; 15] {
        let words = |words: &[u64]| vec![words.as_ptr() as u64, words.len() as u64];
        let (columns, rows) = (words(&self.columns), words(&self.rows));
        let (right_columns, more_rows) = (words(&self.right_columns), words(&self.more_rows));
        let condition = vec![self.condition.as_ptr() as u64, self.condition.len() as u64];
        let text = &mut self.texts.bytes;
        let text = vec![text.as_mut_ptr() as u64, text.len() as u64, self.texts.used as u64];
        let words_out = vec![self.words.as_mut_ptr() as u64, self.words.len() as u64];
        let bytes_out = vec![self.bytes.as_mut_ptr() as u64, self.bytes.len() as u64];
        let parts = match self.call {
            EVALUATE => vec![condition, rows, text],
            FOLD | PRINT => vec![condition, text, bytes_out],
            // No right columns are lent here: an empty list of columns.
            SELECT => vec![columns, rows, right_columns, condition, text, words_out],
            LEFT_JOIN => {
                vec![columns, rows, right_columns, more_rows, condition, text, words_out]
            }
            _ => vec![columns, rows, more_rows, text, words_out],
        };
        let mut arguments = [0; 15];
        let all = parts.concat();
        arguments[..all.len()].copy_from_slice(&all);
        arguments
    }

    fn ask(&self, arguments: &[u64; 15]) -> [u64; 4] {
        // SAFETY: each pointer comes with its buffer's length, and the written buffers overlap none.
        unsafe { by_number(self.call, arguments) }.expect("a call of the header")
    }
}

impl Ready for Lent {
    fn answer(&mut self) -> Answer {
        let arguments = self.arguments();
        let [number, place, value, used] = self.ask(&arguments);
        assert_eq!(number, 0, "refused at {place}");
        let count = value as usize;
        match self.call {
            EVALUATE => Answer::Cell(self.texts.read(value)),
            PRINT => {
                let printed = self.bytes[..count].to_vec();
                Answer::Printed(String::from_utf8(printed).expect("UTF-8"))
            }
            FOLD => {
                // The folded condition is printed.
                let mut printed = Lent::new(PRINT);
                printed.condition = self.bytes[..count].to_vec();
                printed.texts.bytes.clone_from(&self.texts.bytes);
                printed.texts.used = used as usize;
                printed.answer()
            }
            _ => {
                let rows = self.words[..count * self.width].chunks_exact(self.width);
                let read = |&word| self.texts.read(word);
                Answer::Rows(rows.map(|row| row.iter().map(read).collect()).collect())
            }
        }
    }

    fn time(&mut self, runs: u32) -> Duration {
        let arguments = self.arguments();
        match self.call {
            SELECT => timed::<SELECT>(&arguments, runs),
            LEFT_JOIN => timed::<LEFT_JOIN>(&arguments, runs),
            INSERT => timed::<INSERT>(&arguments, runs),
            EVALUATE => timed::<EVALUATE>(&arguments, runs),
            FOLD => timed::<FOLD>(&arguments, runs),
            PRINT => timed::<PRINT>(&arguments, runs),
            other => panic!("{other} is not timed"),
        }
    }
}

/// Runs of one call. Which one is known when this is compiled: choosing it is off the clock.
fn timed<const CALL: u8>(arguments: &[u64; 15], runs: u32) -> Duration {
    let start = clock();
    for _ in 0..runs {
        // SAFETY: as in `ask`.
        black_box(unsafe { by_number(CALL, black_box(arguments)) });
    }
    clock() - start
}
