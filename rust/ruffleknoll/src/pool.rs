//! Values, columns and conditions as the library's words and bytes, and back.

use crate::calls::{Stored, Text};
use crate::{Column, ColumnType, Refusal, Table, Value};
use std::collections::HashMap;

/// The room above the mark that calls with a condition need.
pub const ROOM: usize = 32_768;

const KIND: u32 = 56;
const INT: u64 = 1;
const TEXT: u64 = 2;
const BINARY: u64 = 3;

/// The texts of one call, each stored once.
#[derive(Default)]
pub struct Pool {
    bytes: Vec<u8>,
    places: HashMap<String, (u32, u16)>,
    /// The bytes below the mark.
    used: usize,
}

impl Pool {
    /// Where a text starts and how long it is.
    pub fn text(&mut self, text: &str) -> Result<(u32, u16), Refusal> {
        if let Some(place) = self.places.get(text) {
            return Ok(*place);
        }
        let length = u16::try_from(text.len()).map_err(|_| {
            Refusal::unasked(format!("a text of {} bytes: at most 65535 fit a cell", text.len()))
        })?;
        let start = u32::try_from(self.used)
            .map_err(|_| Refusal::unasked("the texts take more than 4294967295 bytes"))?;
        self.bytes.truncate(self.used);
        self.bytes.extend_from_slice(text.as_bytes());
        self.used = self.bytes.len();
        self.places.insert(text.to_string(), (start, length));
        Ok((start, length))
    }

    fn text_word(&mut self, text: &str) -> Result<u64, Refusal> {
        let (start, length) = self.text(text)?;
        Ok(TEXT << KIND | u64::from(start) << 16 | u64::from(length))
    }

    pub fn cell(&mut self, value: &Value) -> Result<u64, Refusal> {
        match value {
            Value::Null => Ok(0),
            Value::Int(number) => Ok(INT << KIND | u64::from(*number as u32)),
            Value::Str(text) => self.text_word(text),
            Value::Binary => Ok(BINARY << KIND),
        }
    }

    pub fn cells<'a>(
        &mut self,
        values: impl IntoIterator<Item = &'a Value>,
    ) -> Result<Vec<u64>, Refusal> {
        values.into_iter().map(|value| self.cell(value)).collect()
    }

    pub fn rows(&mut self, table: &Table) -> Result<Vec<u64>, Refusal> {
        self.cells(table.rows().flat_map(|row| row.values()))
    }

    /// Two words a column.
    pub fn columns(&mut self, columns: &[Column]) -> Result<Vec<u64>, Refusal> {
        let mut words = Vec::new();
        for column in columns {
            words.push(self.text_word(column.name())?);
            words.push(rule(column));
        }
        Ok(words)
    }

    /// The bytes that are stored.
    pub fn used(&self) -> usize {
        self.used
    }

    /// For a call that only reads it.
    pub fn stored(&self) -> Stored<'_> {
        Stored { bytes: &self.bytes, used: self.used }
    }

    /// For a call that may compute texts.
    pub fn room(&mut self) -> Text<'_> {
        self.bytes.resize(self.used + ROOM, 0);
        Text { bytes: &mut self.bytes, used: self.used }
    }

    /// For a row call, which needs the room only where it has a condition.
    pub fn room_for(&mut self, condition: &[u8]) -> Text<'_> {
        if condition.is_empty() {
            Text { bytes: &mut self.bytes, used: self.used }
        } else {
            self.room()
        }
    }

    /// The text at a place, as a call left it.
    pub fn read(&self, start: usize, length: usize) -> Result<String, Refusal> {
        let bytes = start.checked_add(length).and_then(|end| self.bytes.get(start..end));
        let text = bytes.and_then(|bytes| std::str::from_utf8(bytes).ok());
        text.map(str::to_string).ok_or_else(malformed)
    }

    pub fn value(&self, word: u64) -> Result<Value, Refusal> {
        match word >> KIND {
            0 => Ok(Value::Null),
            INT => Ok(Value::Int(word as u32 as i32)),
            TEXT => {
                let start = word >> 16 & u64::from(u32::MAX);
                self.read(start as usize, (word & 0xffff) as usize).map(Value::Str)
            }
            BINARY => Ok(Value::Binary),
            _ => Err(malformed()),
        }
    }

    /// So many rows from the start of an output.
    pub fn read_rows(
        &self,
        output: &[u64],
        columns: usize,
        rows: u64,
    ) -> Result<Vec<Vec<Value>>, Refusal> {
        let rows = usize::try_from(rows).map_err(|_| malformed())?;
        let words = rows.checked_mul(columns).and_then(|count| output.get(..count));
        let words = words.ok_or_else(malformed)?;
        let row = |row: &[u64]| row.iter().map(|word| self.value(*word)).collect();
        words.chunks(columns.max(1)).map(row).collect()
    }

    pub fn read_columns(&self, output: &[u64]) -> Result<Vec<Column>, Refusal> {
        output.chunks_exact(2).map(|column| self.read_column(column[0], column[1])).collect()
    }

    fn read_column(&self, name: u64, rule: u64) -> Result<Column, Refusal> {
        let Value::Str(name) = self.value(name)? else {
            return Err(malformed());
        };
        let mut builder = Column::build(name);
        if rule & NULLABLE != 0 {
            builder = builder.nullable();
        }
        if rule & KEY != 0 {
            builder = builder.primary_key();
        }
        match rule & 0xff {
            INT => Ok(builder.int32()),
            TEXT => Ok(builder.string((rule >> 16) as u16)),
            BINARY => Ok(builder.binary()),
            _ => Err(malformed()),
        }
    }
}

const NULLABLE: u64 = 1 << 8;
const KEY: u64 = 1 << 9;

/// A column's rule word.
fn rule(column: &Column) -> u64 {
    let kind = match column.coltype() {
        ColumnType::Int32 => INT,
        ColumnType::Str(bound) => TEXT | u64::from(bound) << 16,
        ColumnType::Binary => BINARY,
    };
    let nullable = if column.is_nullable() { NULLABLE } else { 0 };
    let key = if column.is_primary_key() { KEY } else { 0 };
    kind | nullable | key
}

/// What a call wrote at the start of its output.
pub fn written<T>(output: &[T], length: u64) -> Result<&[T], Refusal> {
    let length = usize::try_from(length).ok();
    length.and_then(|length| output.get(..length)).ok_or_else(malformed)
}

/// The library is proved to answer none of this; a broken link to it could.
pub fn malformed() -> Refusal {
    Refusal::unasked("the library's answer makes no sense")
}

#[cfg(test)]
mod tests {
    use super::*;

    #[test]
    fn words_are_document_01s() {
        let mut pool = Pool::default();
        assert_eq!(pool.text("ab"), Ok((0, 2)));
        assert_eq!(pool.cell(&"c".into()), Ok(2 << 56 | 2 << 16 | 1));
        assert_eq!(pool.cell(&"ab".into()), Ok(2 << 56 | 2), "stored once");
        assert_eq!(pool.cell(&Value::Int(-2)), Ok(1 << 56 | 0xffff_fffe));
        assert_eq!((pool.cell(&Value::Null), pool.cell(&Value::Binary)), (Ok(0), Ok(3 << 56)));
        let column = Column::build("c").nullable().primary_key().string(7);
        assert_eq!(rule(&column), 2 | 1 << 8 | 1 << 9 | 7 << 16);
    }

    #[test]
    fn what_is_written_reads_back() {
        let mut pool = Pool::default();
        let values = [Value::Null, Value::Int(i32::MIN), "é".into(), "".into(), Value::Binary];
        let words = pool.cells(&values).unwrap();
        assert_eq!(pool.read_rows(&words, 5, 1), Ok(vec![values.to_vec()]));
        let columns = [Column::build("a").nullable().int32(), Column::build("b").string(9)];
        let words = pool.columns(&columns).unwrap();
        assert_eq!(pool.read_columns(&words), Ok(columns.to_vec()));
    }

    #[test]
    fn nonsense_is_refused() {
        let pool = Pool::default();
        assert_eq!(pool.value(2 << 56 | 1), Err(malformed()));
        assert_eq!(pool.value(u64::MAX), Err(malformed()));
        assert_eq!(pool.read_rows(&[], 3, u64::MAX), Err(malformed()));
        assert!(Pool::default().text(&"a".repeat(65_536)).is_err());
    }
}
