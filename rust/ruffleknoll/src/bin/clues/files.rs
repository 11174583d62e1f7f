//! Tables as plain text: a line of column names, then a line a row, with `|` between the columns.

use ruffleknoll::{Column, Refusal, Table, Value};
use std::fs;
use std::ops::RangeInclusive;
use std::path::Path;

/// What may stand in a column.
enum Content {
    Number(RangeInclusive<i32>),
    /// One of these words.
    Word(&'static [&'static str]),
    /// A text of at least 1 and at most so many bytes.
    Text(u16),
}

type Layout = [(&'static str, Content)];

const DIRECTIONS: &[&str] = &["across", "down"];

/// The greatest number of an entry, and of a row or a column of the grid.
const NUMBERS: RangeInclusive<i32> = 1..=999;
const SQUARES: RangeInclusive<i32> = 1..=99;

/// The columns that tell a row from the others: number and direction.
const KEY: usize = 2;

pub fn entries(path: &Path) -> Result<Table, String> {
    let layout = [
        ("Number", Content::Number(NUMBERS)),
        ("Direction", Content::Word(DIRECTIONS)),
        ("Row", Content::Number(SQUARES)),
        ("Column", Content::Number(SQUARES)),
        ("Answer", Content::Text(99)),
    ];
    table(path, "Entry", &layout)
}

pub fn clues(path: &Path) -> Result<Table, String> {
    let layout = [
        ("Number", Content::Number(NUMBERS)),
        ("Direction", Content::Word(DIRECTIONS)),
        ("Text", Content::Text(255)),
    ];
    table(path, "Clue", &layout)
}

fn table(path: &Path, name: &str, layout: &Layout) -> Result<Table, String> {
    let text = read(path)?;
    let told = |(line, fault): (usize, String)| format!("{}, line {line}, {fault}", path.display());
    let rows = rows(&text, layout).map_err(told)?;
    let columns = layout.iter().enumerate().map(|(number, column)| column_of(number, column));
    let filled = Table::new(name, columns.collect()).with_rows(rows);
    filled.map_err(|refusal: Refusal| format!("{}: {refusal}", path.display()))
}

fn read(path: &Path) -> Result<String, String> {
    let bytes = fs::read(path).map_err(|error| format!("{}: {error}", path.display()))?;
    String::from_utf8(bytes).map_err(|error| {
        let good = &error.as_bytes()[..error.utf8_error().valid_up_to()];
        let line = good.iter().filter(|&&byte| byte == b'\n').count() + 1;
        let column = good.iter().rev().take_while(|&&byte| byte != b'\n');
        let column = column.filter(|&&byte| byte == b'|').count() + 1;
        format!("{}, line {line}, column {column}: not UTF-8", path.display())
    })
}

/// The rows, or the line that is wrong, from 1, and what is wrong with it.
fn rows(text: &str, layout: &Layout) -> Result<Vec<Vec<Value>>, (usize, String)> {
    let mut lines = text.lines().enumerate().filter(|(_, line)| !line.trim().is_empty());
    let (number, names) = lines.next().unwrap_or((0, ""));
    check_names(names, layout).map_err(|fault| (number + 1, fault))?;
    let mut rows: Vec<Vec<Value>> = Vec::new();
    for (number, line) in lines {
        let row = row(line, layout).map_err(|fault| (number + 1, fault))?;
        if rows.iter().any(|earlier| earlier[..KEY] == row[..KEY]) {
            let key: Vec<&str> = line.split('|').map(str::trim).take(KEY).collect();
            let fault = format!("columns Number and Direction: {} stands above", key.join(" "));
            return Err((number + 1, fault));
        }
        rows.push(row);
    }
    Ok(rows)
}

/// The parts of a line, as many as there are columns.
fn parts<'a>(line: &'a str, layout: &Layout) -> Result<Vec<&'a str>, String> {
    let parts: Vec<&str> = line.split('|').map(str::trim).collect();
    let (found, wanted) = (parts.len(), layout.len());
    match layout.get(found) {
        Some((name, _)) => Err(format!("column {name}: missing ({found} columns of {wanted})")),
        None if found > wanted => {
            Err(format!("column {}: too many ({found} columns, not {wanted})", wanted + 1))
        }
        None => Ok(parts),
    }
}

fn check_names(line: &str, layout: &Layout) -> Result<(), String> {
    for (found, (name, _)) in parts(line, layout)?.iter().zip(layout) {
        if found != name {
            return Err(format!("column {name}: the first line calls it \"{found}\""));
        }
    }
    Ok(())
}

fn row(line: &str, layout: &Layout) -> Result<Vec<Value>, String> {
    let parts = parts(line, layout)?;
    let value = |(part, (name, content)): (&&str, &(&str, Content))| {
        value(part, content).map_err(|fault| format!("column {name}: {fault}"))
    };
    parts.iter().zip(layout).map(value).collect()
}

fn value(part: &str, content: &Content) -> Result<Value, String> {
    match content {
        Content::Number(range) => number(part, range),
        Content::Word(words) if words.contains(&part) => Ok(part.into()),
        Content::Word(words) => Err(format!("\"{part}\" is not {}", words.join(" or "))),
        Content::Text(_) if part.is_empty() => Err("empty".to_string()),
        Content::Text(most) if part.len() > usize::from(*most) => {
            Err(format!("{} bytes, and at most {most} are allowed", part.len()))
        }
        Content::Text(_) => Ok(part.into()),
    }
}

fn number(part: &str, range: &RangeInclusive<i32>) -> Result<Value, String> {
    let digits = part.strip_prefix('-').unwrap_or(part);
    if digits.is_empty() || !digits.bytes().all(|byte| byte.is_ascii_digit()) {
        return Err(format!("\"{part}\" is not a number"));
    }
    // What doesn't fit 32 bits is out of range all the more.
    match part.parse() {
        Ok(number) if range.contains(&number) => Ok(Value::Int(number)),
        _ => Err(format!("{part} is outside {} to {}", range.start(), range.end())),
    }
}

fn column_of(number: usize, (name, content): &(&str, Content)) -> Column {
    let builder = Column::build(*name);
    let builder = if number < KEY { builder.primary_key() } else { builder };
    match content {
        Content::Number(_) => builder.int32(),
        Content::Word(_) => builder.string(0),
        Content::Text(most) => builder.string(*most),
    }
}
