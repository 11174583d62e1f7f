//! What belongs together and what doesn't, by joins, as aligned tables.

use ruffleknoll::{ColumnType, Expr, Refusal, Table, Value};

const ENTRY: [&str; 5] =
    ["Entry.Number", "Entry.Direction", "Entry.Row", "Entry.Column", "Entry.Answer"];
const CLUE: [&str; 3] = ["Clue.Number", "Clue.Direction", "Clue.Text"];

/// All that is to be printed.
pub fn report(entries: &Table, clues: &Table) -> Result<String, Refusal> {
    let same =
        |column: &str| Expr::col(format!("Entry.{column}")).eq(Expr::col(format!("Clue.{column}")));
    let belong = same("Number").and(same("Direction"));
    let by_entry = entries.left_join(clues, &belong)?;
    let by_clue = clues.left_join(entries, &belong)?;
    let is_lacking = |side: &str| Expr::col(format!("{side}.Number")).eq(Expr::null());

    let columns = [&ENTRY[..], &CLUE[2..]].concat();
    let paired = by_entry.select(&columns, Some(&is_lacking("Clue").not()))?;
    let unclued = by_entry.select(&ENTRY, Some(&is_lacking("Clue")))?;
    let unplaced = by_clue.select(&CLUE, Some(&is_lacking("Entry")))?;
    let counts = format!(
        "{} with a clue, {} without; {} without an entry\n",
        counted(paired.len(), "entry", "entries"),
        unclued.len(),
        counted(unplaced.len(), "clue", "clues"),
    );
    let parts = [
        titled("Entries with their clues", &paired),
        titled("Entries without a clue", &unclued),
        titled("Clues without an entry", &unplaced),
        counts,
    ];
    Ok(parts.join("\n"))
}

fn counted(count: usize, one: &str, more: &str) -> String {
    format!("{count} {}", if count == 1 { one } else { more })
}

fn titled(title: &str, table: &Table) -> String {
    if table.is_empty() {
        return format!("{title}: none\n");
    }
    format!("{title}\n{}", aligned(table))
}

/// A table with numbers to the right of their columns and all else to the left.
fn aligned(table: &Table) -> String {
    let short = |name: &str| name.rsplit('.').next().unwrap_or(name).to_string();
    let names = table.columns().iter().map(|column| short(column.name())).collect();
    let mut lines: Vec<Vec<String>> = vec![names];
    lines.extend(table.rows().map(|row| row.values().iter().map(shown).collect()));
    let width = |number: usize| {
        let cells = lines.iter().filter_map(|line| line.get(number));
        cells.map(|cell| cell.chars().count()).max().unwrap_or(0)
    };
    let columns = table.columns().iter().enumerate();
    let columns: Vec<(usize, bool)> = columns
        .map(|(number, column)| (width(number), column.coltype() == ColumnType::Int32))
        .collect();
    lines.iter().map(|line| padded(line, &columns)).collect()
}

fn padded(line: &[String], columns: &[(usize, bool)]) -> String {
    let cell = |(cell, &(width, right)): (&String, &(usize, bool))| {
        if right {
            format!("  {cell:>width$}")
        } else {
            format!("  {cell:<width$}")
        }
    };
    let cells: String = line.iter().zip(columns).map(cell).collect();
    format!("{}\n", cells.trim_end())
}

fn shown(value: &Value) -> String {
    match value {
        Value::Str(text) => text.clone(),
        other => other.to_string(),
    }
}
