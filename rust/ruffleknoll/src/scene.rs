//! What was asked, so that a refusal can be told in words: the library gives a number and a place.

use crate::calls::Answer;
use crate::expr::Node;
use crate::pool::ROOM;
use crate::{Expr, Refusal, Table, Value};

/// What the places of a call count.
#[derive(Clone, Copy, Default, Eq, PartialEq)]
pub enum Places {
    /// Bytes of the condition.
    #[default]
    Condition,
    /// Words, rows or pairs.
    Rows,
    /// Columns of a join.
    Columns,
    /// Nothing: one evaluation.
    Nothing,
}

/// A call in the words of its caller.
#[derive(Clone, Copy, Default)]
pub struct Scene<'a> {
    pub places: Places,
    /// The table, or both sides of a join.
    pub tables: &'a [&'a Table],
    pub condition: Option<&'a Expr>,
    pub listed: &'a [&'a str],
    pub sets: &'a [(&'a str, Value)],
    pub new_rows: &'a [Vec<Value>],
    /// The bytes of text that were stored, and whether room was needed above them.
    pub stored: usize,
    pub room: bool,
}

const SIGNS: [&str; 15] =
    ["=", "!=", "<", "<=", ">", ">=", "+", "-", "*", "/", "&", "|", "^", "<<", ">>"];

impl Scene<'_> {
    /// The answer if it is one, else the refusal.
    pub fn accepted(&self, answer: Answer) -> Result<Answer, Refusal> {
        match answer.number {
            0 => Ok(answer),
            number => Err(self.refusal(number, answer.place)),
        }
    }

    pub fn refusal(&self, number: u64, place: u64) -> Refusal {
        Refusal::numbered(number, place, self.message(number, place))
    }

    fn message(&self, number: u64, place: u64) -> String {
        match number {
            1 => format!("the condition is malformed at byte {place}"),
            2 => self.too_large(),
            3 => self.bad_name(),
            4 => self.no_column(place),
            5 => self.at(place, "a number outside 32 bits"),
            6 => self.at(place, "a shift by less than 0 or more than 31"),
            7 if self.places == Places::Columns => self.long_name(place),
            7 => self.at(place, "a joined text of more than 1024 bytes"),
            8 => self.bad_count().unwrap_or(format!("word {place} is malformed")),
            9 => format!("output needs {place} words"),
            10 => self.too_much_text(),
            11 => format!("{}: its key is already in the table", self.new_row(place)),
            12 => format!("{}: an earlier new row has its key", self.new_row(place)),
            13 => self.not_valid(place),
            14 => format!("{}: an earlier row has its key", self.row(place)),
            15 => self.at(place, "a text that is not ASCII can't be printed"),
            _ => format!("refusal {number} at {place}"),
        }
    }

    fn too_large(&self) -> String {
        match self.condition.map_or(0, |condition| condition.nodes().len()) {
            count @ 65.. => format!("the condition has {count} nodes: at most 64 are allowed"),
            _ => "the condition is more than 16 nodes deep".to_string(),
        }
    }

    /// The same check as the library's, for its words alone: it has decided already.
    fn bad_name(&self) -> String {
        let long = self.tables.iter().find(|table| table.name().len() > 255);
        if let (Places::Columns, Some(table)) = (self.places, long) {
            return format!("a table's name has {} bytes: at most 255 fit", table.name().len());
        }
        let bad = |name: &str| !(1..=255).contains(&name.len());
        for table in self.tables {
            let columns = table.columns();
            if let Some(number) = columns.iter().position(|column| bad(column.name())) {
                let length = columns[number].name().len();
                let which = format!("column {} of {}", number + 1, named(table));
                return format!("{which} has a name of {length} bytes: 1 to 255 are allowed");
            }
        }
        let nodes = self.condition.map_or(&[][..], Expr::nodes).iter();
        let names =
            nodes.filter_map(|node| if let Node::Name(name) = node { Some(name) } else { None });
        match names.into_iter().find(|name| bad(name)) {
            Some(name) => {
                let length = name.len();
                format!("the condition has a column name of {length} bytes: 1 to 255 are allowed")
            }
            None => "a text lies outside what is stored".to_string(),
        }
    }

    fn no_column(&self, place: u64) -> String {
        let number = usize::try_from(place).unwrap_or(usize::MAX);
        let listed = self.listed.get(number).copied();
        let set = || self.sets.get(number).map(|set| set.0);
        let in_condition = || {
            let condition = self.condition?;
            match condition.nodes().get(condition.node_at(place)?)? {
                Node::Name(name) => Some(name.as_str()),
                _ => None,
            }
        };
        let name =
            if self.places == Places::Condition { in_condition() } else { listed.or_else(set) };
        match (self.tables, name) {
            ([table], Some(name)) => table.lacks(name),
            ([left, right], Some(name)) => {
                format!("{} and {} joined have no column {name}", named(left), named(right))
            }
            _ => "no such column".to_string(),
        }
    }

    /// What went wrong, after the row, the pair or the node that it went wrong at.
    fn at(&self, place: u64, what: &str) -> String {
        match (self.places, self.tables) {
            (Places::Rows, [_]) => format!("{}: {what}", self.row(place)),
            (Places::Rows, [left, right]) => {
                let rights = (right.len() as u64).max(1);
                let (first, second) = (place / rights, place % rights);
                format!("{} with {}: {what}", left.row_label(first), right.row_label(second))
            }
            (Places::Nothing, _) => what.to_string(),
            _ => match self.node(place) {
                Some(node) => format!("{node}: {what}"),
                None => what.to_string(),
            },
        }
    }

    /// A node of the condition as people call it, counted from 1.
    fn node(&self, place: u64) -> Option<String> {
        let condition = self.condition?;
        let number = condition.node_at(place)?;
        let sign = match condition.nodes().get(number)? {
            Node::Operator(operator @ 32..) => SIGNS.get(usize::from(operator - 32)).copied()?,
            Node::Operator(16) => "-",
            Node::Text(_) => "a text",
            _ => return None,
        };
        Some(format!("node {} of the condition, {sign}", number + 1))
    }

    fn row(&self, place: u64) -> String {
        match self.tables {
            [table, ..] => table.row_label(place),
            [] => format!("row {}", place.saturating_add(1)),
        }
    }

    fn new_row(&self, place: u64) -> String {
        format!("new {}", self.row(place))
    }

    fn long_name(&self, place: u64) -> String {
        let mut columns = self.tables.iter().flat_map(|table| {
            table.columns().iter().map(|column| format!("{}.{}", table.name(), column.name()))
        });
        let name = usize::try_from(place).ok().and_then(|number| columns.nth(number));
        let length = name.map_or(256, |name| name.len());
        format!(
            "column {} of the join: a name of {length} bytes, at most 255 fit",
            place.saturating_add(1)
        )
    }

    /// The same counts as the library's, for its words alone.
    fn bad_count(&self) -> Option<String> {
        for table in self.tables {
            let (columns, rows) = (table.columns().len(), table.len());
            if !(1..=32).contains(&columns) {
                return Some(format!(
                    "{} has {columns} columns: 1 to 32 are allowed",
                    named(table)
                ));
            }
            if rows > 4096 {
                return Some(format!("{} has {rows} rows: at most 4096 are allowed", named(table)));
            }
        }
        let columns: usize = self.tables.iter().map(|table| table.columns().len()).sum();
        let too_many = [
            (columns, 32, "columns in the join"),
            (self.listed.len(), 32, "columns listed"),
            (self.sets.len(), 64, "columns set"),
            (self.new_rows.len(), 4096, "new rows"),
        ];
        let (count, most, what) = too_many.into_iter().find(|(count, most, _)| count > most)?;
        Some(format!("{count} {what}: at most {most} are allowed"))
    }

    fn too_much_text(&self) -> String {
        let most = if self.room { 65_536 - ROOM } else { 65_536 };
        format!("the texts take {} bytes: at most {most} fit one call", self.stored)
    }

    fn not_valid(&self, place: u64) -> String {
        let number = usize::try_from(place).unwrap_or(usize::MAX);
        let told = |column: &str, value: &Value| {
            let shown: String = value.to_string().chars().take(40).collect();
            format!("column {column}: not a valid value ({shown})")
        };
        if let Some((column, value)) = self.sets.get(number) {
            return told(column, value);
        }
        let found = self.tables.first().and_then(|table| {
            let columns = table.columns().len().max(1);
            let value = self.new_rows.get(number / columns)?.get(number % columns)?;
            let column = table.columns().get(number % columns)?;
            let row = self.new_row((number / columns) as u64);
            Some(format!("{row}, {}", told(column.name(), value)))
        });
        found.unwrap_or(format!("word {place}: not a valid value"))
    }
}

fn named(table: &Table) -> &str {
    match table.name() {
        "" => "the table",
        name => name,
    }
}
