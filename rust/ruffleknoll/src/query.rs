//! Select, joins, insert, update and delete, as calls of the library.

use crate::calls::{Answer, Head, Join, Lent, Library, Text};
use crate::pool::{written, Pool};
use crate::scene::{Places, Scene};
use crate::{library, Column, Expr, Refusal, Row, Table, Value};

/// The most rows and columns that a call takes; more of them are refused before the output is looked at.
const ROWS: usize = 4096;
const COLUMNS: usize = 32;

/// A table and a condition as one call takes them.
struct Ready {
    pool: Pool,
    columns: Vec<u64>,
    rows: Vec<u64>,
    condition: Vec<u8>,
}

impl Ready {
    fn new(table: &Table, condition: Option<&Expr>) -> Result<Ready, Refusal> {
        let mut pool = Pool::default();
        let columns = pool.columns(table.columns())?;
        let rows = pool.rows(table)?;
        let condition = match condition {
            Some(condition) => {
                let scene =
                    Scene { tables: &[table], condition: Some(condition), ..Scene::default() };
                condition.bind(table.columns(), &scene)?.encode(&mut pool)?
            }
            None => Vec::new(),
        };
        Ok(Ready { pool, columns, rows, condition })
    }

    /// What is lent: the table, the bound condition, and the text with the room that it needs.
    fn lent(&mut self) -> (Lent<'_>, &[u8], Text<'_>) {
        let table = Lent { columns: &self.columns, rows: &self.rows };
        (table, &self.condition, self.pool.room_for(&self.condition))
    }

    /// The call in words, without what only some calls have.
    fn scene<'a>(&self, condition: Option<&'a Expr>) -> Scene<'a> {
        let (stored, room) = (self.pool.used(), condition.is_some());
        Scene { places: Places::Rows, condition, stored, room, ..Scene::default() }
    }
}

fn output_for(rows: usize, columns: usize) -> Vec<u64> {
    vec![0; rows.min(2 * ROWS) * columns.min(COLUMNS)]
}

impl Table {
    /// The rows of which the condition is true (all, without one), with the columns of these names (all, for none).
    /// The result of a choice of columns has no name, as in msi.
    ///
    /// ```
    /// use ruffleknoll::{Column, Expr, Table};
    /// let columns = vec![Column::build("Number").int32(), Column::build("Text").string(0)];
    /// let clues = Table::new("Clue", columns);
    /// let clues = clues.with_rows(vec![
    ///     vec![1.into(), "Small knoll".into()],
    ///     vec![4.into(), "Ruffled".into()],
    /// ])?;
    /// let late = clues.select(&["Text"], Some(&Expr::col("Number").gt(Expr::integer(1))))?;
    /// assert_eq!(late.len(), 1);
    /// assert_eq!(late.row(0).unwrap().values(), ["Ruffled".into()]);
    /// # Ok::<(), ruffleknoll::Refusal>(())
    /// ```
    pub fn select(&self, columns: &[&str], condition: Option<&Expr>) -> Result<Table, Refusal> {
        let mut ready = Ready::new(self, condition)?;
        // A name that is no column becomes a number that is none: the library says in which order that counts.
        let number = |name: &&str| self.column_number(name).map_or(u64::MAX, |found| found as u64);
        let list: Vec<u64> = columns.iter().map(number).collect();
        let width = if list.is_empty() { self.columns().len() } else { list.len() };
        let mut output = output_for(self.len(), width);
        let scene = Scene { tables: &[self], listed: columns, ..ready.scene(condition) };
        let (lent, bound, text) = ready.lent();
        let answer = library().select(lent, &list, bound, text, &mut output)?;
        let answer = scene.accepted(answer)?;
        let result = match columns {
            [] => Table::new(self.name(), self.columns().to_vec()),
            _ => Table::new("", self.listed(&list)),
        };
        result.with_rows(ready.pool.read_rows(&output, width, answer.value)?)
    }

    fn listed(&self, list: &[u64]) -> Vec<Column> {
        let column = |number: &u64| self.columns().get(usize::try_from(*number).ok()?).cloned();
        list.iter().filter_map(column).collect()
    }

    /// The rows of which the condition is not true: none, without one.
    ///
    /// ```
    /// use ruffleknoll::{Column, Expr, Table};
    /// let clues = Table::new("Clue", vec![Column::build("Number").int32()]);
    /// let clues = clues.with_rows(vec![vec![1.into()], vec![4.into()]])?;
    /// let left = clues.delete(Some(&Expr::col("Number").eq(Expr::integer(1))))?;
    /// assert_eq!(left.row(0).unwrap().values(), [4.into()]);
    /// assert!(clues.delete(None)?.is_empty());
    /// # Ok::<(), ruffleknoll::Refusal>(())
    /// ```
    pub fn delete(&self, condition: Option<&Expr>) -> Result<Table, Refusal> {
        let mut ready = Ready::new(self, condition)?;
        let mut output = output_for(self.len(), self.columns().len());
        let scene = Scene { tables: &[self], ..ready.scene(condition) };
        let (lent, bound, text) = ready.lent();
        let answer = library().delete(lent, bound, text, &mut output)?;
        self.result(scene.accepted(answer)?, &output, &ready.pool)
    }

    /// All rows, those of which the condition is true (all, without one) with the columns set. Keys are not looked at.
    ///
    /// ```
    /// use ruffleknoll::{Column, Expr, Table, Value};
    /// let clues = Table::new("Clue", vec![Column::build("Number").int32()]);
    /// let clues = clues.with_rows(vec![vec![1.into()], vec![4.into()]])?;
    /// let four = Expr::col("Number").eq(Expr::integer(4));
    /// let moved = clues.update(&[("Number", 5.into())], Some(&four))?;
    /// assert_eq!(moved.row(1).unwrap().values(), [5.into()]);
    /// let refusal = clues.update(&[("Number", Value::Null)], None).unwrap_err();
    /// assert_eq!(refusal.to_string(), "column Number: not a valid value (NULL)");
    /// # Ok::<(), ruffleknoll::Refusal>(())
    /// ```
    pub fn update(
        &self,
        sets: &[(&str, Value)],
        condition: Option<&Expr>,
    ) -> Result<Table, Refusal> {
        let mut ready = Ready::new(self, condition)?;
        let mut words = Vec::new();
        for (name, value) in sets {
            words.push(self.column_number(name).map_or(u64::MAX, |found| found as u64));
            words.push(ready.pool.cell(value)?);
        }
        let mut output = output_for(self.len(), self.columns().len());
        let scene = Scene { tables: &[self], sets, ..ready.scene(condition) };
        let (lent, bound, text) = ready.lent();
        let answer = library().update(lent, &words, bound, text, &mut output)?;
        self.result(scene.accepted(answer)?, &output, &ready.pool)
    }

    /// The table with new rows among its own, in the order of their keys. Each value must be valid for its column, and
    /// each key new.
    ///
    /// ```
    /// use ruffleknoll::{Column, Table, Value};
    /// let clues = Table::new("Clue", vec![Column::build("Number").primary_key().int32()]);
    /// let clues = clues.insert(&[vec![4.into()], vec![1.into()]])?;
    /// assert_eq!(clues.row(0).unwrap().values(), [1.into()]);
    /// let twice = clues.insert(&[vec![3.into()], vec![4.into()]]).unwrap_err();
    /// assert_eq!(twice.to_string(), "new Clue 2: its key is already in the table");
    /// let wrong = clues.insert(&[vec![Value::Null]]).unwrap_err();
    /// assert_eq!(wrong.to_string(), "new Clue 1, column Number: not a valid value (NULL)");
    /// # Ok::<(), ruffleknoll::Refusal>(())
    /// ```
    pub fn insert(&self, new: &[Vec<Value>]) -> Result<Table, Refusal> {
        self.check_lengths(new)?;
        let mut ready = Ready::new(self, None)?;
        let words = ready.pool.cells(new.iter().flatten())?;
        let mut output = output_for(self.len().saturating_add(new.len()), self.columns().len());
        let scene = Scene { tables: &[self], new_rows: new, ..ready.scene(None) };
        let lent = Lent { columns: &ready.columns, rows: &ready.rows };
        let answer = library().insert(lent, &words, ready.pool.stored(), &mut output)?;
        self.result(scene.accepted(answer)?, &output, &ready.pool)
    }

    fn result(&self, answer: Answer, output: &[u64], pool: &Pool) -> Result<Table, Refusal> {
        let rows = pool.read_rows(output, self.columns().len(), answer.value)?;
        Table::new(self.name(), self.columns().to_vec()).with_rows(rows)
    }

    /// The pairs of rows of which the condition is true, left row by left row. Columns are named `Table.Column`, in the
    /// condition too; the result itself has no name.
    ///
    /// ```
    /// use ruffleknoll::{Column, Expr, Table};
    /// let number = || vec![Column::build("Number").int32()];
    /// let entries = Table::new("Entry", number()).with_rows(vec![vec![1.into()], vec![2.into()]])?;
    /// let clues = Table::new("Clue", number()).with_rows(vec![vec![2.into()]])?;
    /// let same = Expr::col("Entry.Number").eq(Expr::col("Clue.Number"));
    /// let pairs = entries.inner_join(&clues, &same)?;
    /// assert_eq!(pairs.len(), 1);
    /// assert_eq!(pairs.row(0).unwrap().value("Clue.Number")?, &2.into());
    /// # Ok::<(), ruffleknoll::Refusal>(())
    /// ```
    pub fn inner_join(&self, right: &Table, on: &Expr) -> Result<Table, Refusal> {
        self.join(Join::Inner, right, on)
    }

    /// The same, and for a left row without such a pair one row with Null on the right.
    ///
    /// ```
    /// use ruffleknoll::{Column, Expr, Table, Value};
    /// let number = || vec![Column::build("Number").int32()];
    /// let entries = Table::new("Entry", number()).with_rows(vec![vec![1.into()], vec![2.into()]])?;
    /// let clues = Table::new("Clue", number()).with_rows(vec![vec![2.into()]])?;
    /// let same = Expr::col("Entry.Number").eq(Expr::col("Clue.Number"));
    /// let rows = entries.left_join(&clues, &same)?;
    /// assert_eq!(rows.row(0).unwrap().values(), [1.into(), Value::Null]);
    /// assert_eq!(rows.row(1).unwrap().values(), [2.into(), 2.into()]);
    /// # Ok::<(), ruffleknoll::Refusal>(())
    /// ```
    pub fn left_join(&self, right: &Table, on: &Expr) -> Result<Table, Refusal> {
        self.join(Join::Left, right, on)
    }

    fn join(&self, join: Join, right: &Table, on: &Expr) -> Result<Table, Refusal> {
        let tables = [self, right];
        let head = joined_columns(join, tables)?;
        let scene = Scene { tables: &tables, condition: Some(on), ..Scene::default() };
        let bound = on.bind(&head, &scene)?;
        let rows = joined_rows(join, tables, &bound, &scene)?;
        Table::new("", head).with_rows(rows)
    }
}

/// The columns of a join.
fn joined_columns(join: Join, tables: [&Table; 2]) -> Result<Vec<Column>, Refusal> {
    let mut pool = Pool::default();
    let words = [pool.columns(tables[0].columns())?, pool.columns(tables[1].columns())?];
    let head = |side: usize| Head { name: tables[side].name().as_bytes(), columns: &words[side] };
    let mut output = [0; 2 * COLUMNS];
    let answer = library().join_columns(join, head(0), head(1), pool.room(), &mut output)?;
    let scene = Scene { places: Places::Columns, tables: &tables, ..Scene::default() };
    let answer = Scene { stored: pool.used(), room: true, ..scene }.accepted(answer)?;
    pool.read_columns(written(&output, answer.value)?)
}

/// The rows of a join with a bound condition.
fn joined_rows(
    join: Join,
    tables: [&Table; 2],
    bound: &Expr,
    scene: &Scene,
) -> Result<Vec<Vec<Value>>, Refusal> {
    let [left, right] = tables;
    let mut pool = Pool::default();
    let columns = [pool.columns(left.columns())?, pool.columns(right.columns())?];
    let rows = [pool.rows(left)?, pool.rows(right)?];
    let condition = bound.encode(&mut pool)?;
    let scene = Scene { places: Places::Rows, stored: pool.used(), room: true, ..*scene };
    let sides = [0, 1].map(|side: usize| Lent { columns: &columns[side], rows: &rows[side] });
    let width = left.columns().len() + right.columns().len();
    // Mostly enough; where it isn't, the library says what is.
    let mut output = output_for(left.len().saturating_add(right.len()), width);
    let mut answer = library().join(join, sides, &condition, pool.room(), &mut output)?;
    if answer.number == 9 {
        grow(&mut output, answer.place).ok_or_else(|| scene.refusal(9, answer.place))?;
        answer = library().join(join, sides, &condition, pool.room(), &mut output)?;
    }
    pool.read_rows(&output, width, scene.accepted(answer)?.value)
}

/// None where there is not so much memory.
fn grow(output: &mut Vec<u64>, words: u64) -> Option<()> {
    let words = usize::try_from(words).ok()?;
    output.try_reserve_exact(words.saturating_sub(output.len())).ok()?;
    output.resize(words, 0);
    Some(())
}

impl<'a> Row<'a> {
    /// The one that comes first by the key of its table: this one if the keys are equal.
    ///
    /// ```
    /// use ruffleknoll::{Column, Table};
    /// let clues = Table::new("Clue", vec![Column::build("Number").primary_key().int32()]);
    /// let clues = clues.with_rows(vec![vec![4.into()], vec![1.into()]])?;
    /// let (four, one) = (clues.row(0).unwrap(), clues.row(1).unwrap());
    /// assert_eq!(four.earlier(&one)?.values(), [1.into()]);
    /// # Ok::<(), ruffleknoll::Refusal>(())
    /// ```
    pub fn earlier(&self, other: &Row<'a>) -> Result<Row<'a>, Refusal> {
        let mut pool = Pool::default();
        let columns = pool.columns(self.columns())?;
        let (first, second) = (pool.cells(self.values())?, pool.cells(other.values())?);
        match library().earlier(&columns, pool.stored(), &first, &second)?.value {
            1 => Ok(*self),
            2 => Ok(*other),
            _ => Err(Refusal::unasked("the two rows can't be compared by the key of the first")),
        }
    }
}
