//! Questions about tables: joined columns and the row calls.

use super::conditions::numbered;
use super::domain::*;
use super::driver::{shown, shown_rows, shown_words, Driver, Pair, WAYS};
use super::values::can_judge;
use crate::call::*;
use crate::seen::{expression_at, Expression, Seen};
use oracle::plain::{Built, Cell, ColumnSpec, JoinKind, Row, Said, TableSpec, Tree};

pub fn joined_columns(driver: &Driver, call: &Call) -> Option<Vec<Seen>> {
    let text = text_of(call, true)?;
    let (names, words) = (call.byte_inputs(), call.word_inputs());
    let [left, right] = [columns_at(words[0], &text)?, columns_at(words[1], &text)?];
    let table_name = |name: &[u8]| match name.len() {
        0..=255 => String::from_utf8(name.to_vec()).ok(),
        _ => None,
    };
    let [left_name, right_name] = [table_name(names[0])?, table_name(names[1])?];
    let words = 2 * (left.len() + right.len());
    if words > 2 * MOST_COLUMNS || words > call.output_length() {
        return None;
    }
    let kind = if call.number == LEFT_JOIN_COLUMNS { JoinKind::Left } else { JoinKind::Inner };
    let said = (driver.joined_columns)(kind, &left_name, &left, &right_name, &right);
    Some(Vec::from_iter(shown(said, shown_columns)))
}

/// Nothing where a joined name is longer than document 01 lets it be.
fn shown_columns(columns: Vec<ColumnSpec>) -> Option<Seen> {
    let is_bounded = columns.iter().all(|column| column.name.len() <= 255);
    let shown = |column: ColumnSpec| (column.name.clone().into_bytes(), rule_of(&column));
    is_bounded.then(|| Seen::Columns(columns.into_iter().map(shown).collect()))
}

/// A condition over a table's columns. One of a missing column is put too:
/// the Rust refuses it, as document 01 does.
fn condition_over(bytes: &[u8], table: &TableSpec, text: &[u8]) -> Option<Tree> {
    let expression = expression_at(bytes, text)?;
    let longest = longest_texts(table.columns.len(), &table.rows);
    let tree = tree_of(&expression, &numbered(256))?;
    joins_stay_short(&expression, &longest).then_some(tree)
}

pub fn one_table(driver: &Driver, call: &Call) -> Option<Vec<Seen>> {
    let condition = call.byte_inputs()[0];
    let text = text_of(call, !condition.is_empty())?;
    let words = call.word_inputs();
    let table = table_at("T", words[0], words[1], &text)?;
    let condition = match condition {
        [] => None,
        bytes => Some(condition_over(bytes, &table, &text)?),
    };
    let third = words.get(2).copied().unwrap_or(&[]);
    let question = Question::new(driver, call.number, &table, third, &text)?;
    let given: Vec<&[u64]> = words[1].chunks_exact(table.columns.len()).collect();
    let room = call.output_length();
    let ask = |built| {
        let said = question.ask(driver, &table, condition.as_ref(), built);
        let rows = shown(said, |rows| shown_rows(rows, room));
        let said = question.ask_numbers(driver, &table, condition.as_ref(), built);
        let result = |numbers: Vec<u64>| result_words(call.number, &given, third, &numbers);
        [rows, shown(said, |numbers| shown_words(result(numbers), room))]
    };
    Some(WAYS.into_iter().flat_map(ask).flatten().collect())
}

/// The words of a result, by the numbers of the rows that are selected, kept
/// or updated.
fn result_words(kind: u8, given: &[&[u64]], third: &[u64], numbers: &[u64]) -> Vec<u64> {
    let row = |&number: &u64| given[number as usize];
    match kind {
        SELECT if !third.is_empty() => {
            let projected = |row: &[u64]| third.iter().map(|&n| row[n as usize]).collect();
            numbers.iter().map(row).flat_map(|row| -> Vec<u64> { projected(row) }).collect()
        }
        SELECT | DELETE => numbers.iter().flat_map(row).copied().collect(),
        _ => {
            let mut rows: Vec<Vec<u64>> = given.iter().map(|row| row.to_vec()).collect();
            for &number in numbers {
                for set in third.chunks_exact(2) {
                    rows[number as usize][set[0] as usize] = set[1];
                }
            }
            rows.concat()
        }
    }
}

/// What is asked of one table, beside its condition.
enum Question {
    Select(Vec<String>),
    Delete,
    Update(Vec<(String, Cell)>),
}

impl Question {
    fn new(
        driver: &Driver,
        kind: u8,
        table: &TableSpec,
        third: &[u64],
        text: &[u8],
    ) -> Option<Question> {
        match kind {
            SELECT if third.len() > MOST_COLUMNS => None,
            SELECT => {
                Some(Question::Select(third.iter().map(|&entry| number_name(entry)).collect()))
            }
            DELETE => Some(Question::Delete),
            _ => sets_at(driver, table, third, text).map(Question::Update),
        }
    }

    fn ask(
        &self,
        driver: &Driver,
        table: &TableSpec,
        condition: Option<&Tree>,
        built: Built,
    ) -> Said<Vec<Row>> {
        match self {
            Question::Select(list) => (driver.select)(table, list, condition, built),
            Question::Delete => (driver.delete)(table, condition, built),
            Question::Update(sets) => (driver.update)(table, sets, condition, built),
        }
    }

    /// Which rows are selected, kept or updated.
    fn ask_numbers(
        &self,
        driver: &Driver,
        table: &TableSpec,
        condition: Option<&Tree>,
        built: Built,
    ) -> Said<Vec<u64>> {
        match self {
            Question::Select(list) => (driver.selected_rows)(table, list, condition, built),
            Question::Delete => (driver.kept_rows)(table, condition, built),
            Question::Update(sets) => (driver.updated_rows)(table, sets, condition, built),
        }
    }
}

fn sets_at(
    driver: &Driver,
    table: &TableSpec,
    words: &[u64],
    text: &[u8],
) -> Option<Vec<(String, Cell)>> {
    if !words.len().is_multiple_of(2) || words.len() / 2 > 64 {
        return None;
    }
    let set = |set: &[u64]| {
        let cell = cell_at(set[1], text)?;
        let column = usize::try_from(set[0]).ok().and_then(|number| table.columns.get(number));
        let is_judged = column.is_none_or(|column| can_judge(driver, column, &cell));
        is_judged.then(|| (number_name(set[0]), cell))
    };
    words.chunks_exact(2).map(set).collect()
}

pub fn join(driver: &Driver, call: &Call) -> Option<Vec<Seen>> {
    let text = text_of(call, true)?;
    let words = call.word_inputs();
    let left = table_at("L", words[0], words[1], &text)?;
    let right = table_at("R", words[2], words[3], &text)?;
    let count = left.columns.len() + right.columns.len();
    let expression = expression_at(call.byte_inputs()[0], &text)?;
    let longest = [&left, &right].map(|side| longest_texts(side.columns.len(), &side.rows));
    if count > MOST_COLUMNS || !joins_stay_short(&expression, &longest.concat()) {
        return None;
    }
    // The Rust looks for a missing column only at pairs that read it.
    let condition = tree_of(&expression, &joined_name(left.columns.len(), count))?;
    let kind = if call.number == LEFT_JOIN { JoinKind::Left } else { JoinKind::Inner };
    let room = call.output_length();
    let widths = [&left, &right].map(|side| side.columns.len());
    let ask = |built| {
        let said = (driver.join)(kind, &left, &right, &condition, built);
        let rows = shown(said, |rows| shown_rows(rows, room));
        let said = (driver.joined_pairs)(kind, &left, &right, &condition, built);
        let result = |pairs: Vec<Pair>| pair_words([words[1], words[3]], widths, &pairs);
        [rows, shown(said, |pairs| shown_words(result(pairs), room))]
    };
    Some(WAYS.into_iter().flat_map(ask).flatten().collect())
}

/// The words of pairs by row numbers, Null where there is no right row.
pub fn pair_words(rows: [&[u64]; 2], widths: [usize; 2], pairs: &[Pair]) -> Vec<u64> {
    let row = |side: usize, number: u64| {
        let first = number as usize * widths[side];
        rows[side][first..first + widths[side]].to_vec()
    };
    let mut words = Vec::new();
    for &(left, right) in pairs {
        words.extend(row(0, left));
        words.extend(right.map_or(vec![0; widths[1]], |right| row(1, right)));
    }
    words
}

/// The name of a joined column by number, of those that are there.
pub fn joined_name(left: usize, count: usize) -> impl Fn(&Expression) -> Option<String> {
    move |leaf| match leaf {
        Expression::Number(number) if (*number as usize) < left => {
            Some(format!("L.{}", number_name(*number as u64)))
        }
        Expression::Number(number) if (*number as usize) < count => {
            Some(format!("R.{}", number_name(*number as u64 - left as u64)))
        }
        _ => None,
    }
}

pub fn insert(driver: &Driver, call: &Call) -> Option<Vec<Seen>> {
    let text = text_of(call, false)?;
    let words = call.word_inputs();
    let table = table_at("T", words[0], words[1], &text)?;
    let new_rows = rows_at(&table.columns, words[2], &text)?;
    let is_judged = |row: &Row| {
        let mut cells = table.columns.iter().zip(row);
        cells.all(|(column, cell)| can_judge(driver, column, cell))
    };
    if !new_rows.iter().all(is_judged) {
        return None;
    }
    let room = call.output_length();
    let rows = shown((driver.insert)(&table, &new_rows), |rows| shown_rows(rows, room));
    // Old rows and new ones are numbered through.
    let given = [words[1], words[2]].concat();
    let given: Vec<&[u64]> = given.chunks_exact(table.columns.len()).collect();
    let said = (driver.inserted_order)(&table, &new_rows);
    let result = |numbers: Vec<u64>| result_words(DELETE, &given, &[], &numbers);
    let words = shown(said, |numbers| shown_words(result(numbers), room));
    Some([rows, words].into_iter().flatten().collect())
}
