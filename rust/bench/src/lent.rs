//! Tables, rows and conditions as the words and bytes that the library is lent.

use std::collections::HashMap;
use work::{Cell, Row, TableSpec, Tree};

/// The most text that a call is lent, and how much of it must be free above the mark.
const TEXT: usize = 65_536;
const ROOM: usize = 32_768;

/// Texts one after another; equal ones stand once, until they are forgotten.
pub struct Texts {
    pub bytes: Vec<u8>,
    pub used: usize,
    known: HashMap<String, usize>,
}

impl Texts {
    pub fn new() -> Texts {
        Texts { bytes: vec![0; TEXT], used: 0, known: HashMap::new() }
    }

    /// What comes next is stored anew, so that equal texts of two tables lie in two places.
    pub fn forget(&mut self) {
        self.known.clear();
    }

    fn start_of(&mut self, text: &str) -> usize {
        if let Some(&start) = self.known.get(text) {
            return start;
        }
        let start = self.used;
        self.used += text.len();
        assert!(self.used <= TEXT - ROOM, "more text than a call takes");
        self.bytes[start..self.used].copy_from_slice(text.as_bytes());
        self.known.insert(text.to_string(), start);
        start
    }

    fn text(&mut self, text: &str) -> u64 {
        2 << 56 | (self.start_of(text) as u64) << 16 | text.len() as u64
    }

    fn cell(&mut self, cell: &Cell) -> u64 {
        match cell {
            Cell::Null => 0,
            Cell::Int(number) => 1 << 56 | *number as u32 as u64,
            Cell::Text(text) => self.text(text),
            Cell::Binary => 3 << 56,
        }
    }

    pub fn columns(&mut self, table: &TableSpec) -> Vec<u64> {
        let mut words = Vec::new();
        for column in &table.columns {
            words.push(self.text(&column.name));
            let nullable = (column.nullable as u64) << 8;
            let key = (column.key as u64) << 9;
            words.push(column.kind as u64 | nullable | key | (column.bound as u64) << 16);
        }
        words
    }

    pub fn rows(&mut self, rows: &[Row]) -> Vec<u64> {
        rows.iter().flatten().map(|cell| self.cell(cell)).collect()
    }

    /// The postfix bytes; a column by its number among the names, or by its name where there are none.
    pub fn condition(&mut self, tree: &Tree, names: &[String]) -> Vec<u8> {
        let mut bytes = Vec::new();
        self.put(tree, names, &mut bytes);
        bytes
    }

    fn put(&mut self, tree: &Tree, names: &[String], bytes: &mut Vec<u8>) {
        match tree {
            Tree::Literal(Cell::Int(number)) => {
                bytes.push(1);
                bytes.extend(number.to_le_bytes());
            }
            Tree::Literal(Cell::Text(text)) => self.put_text(2, text, bytes),
            Tree::Literal(_) => bytes.push(0),
            Tree::Column(name) if names.is_empty() => self.put_text(3, name, bytes),
            Tree::Column(name) => {
                let number = names.iter().position(|known| known == name);
                bytes.extend([4, number.expect("a known column") as u8]);
            }
            Tree::Unary(kind, operand) => {
                self.put(operand, names, bytes);
                bytes.push(*kind);
            }
            Tree::Binary(kind, left, right) => {
                self.put(left, names, bytes);
                self.put(right, names, bytes);
                bytes.push(*kind);
            }
        }
    }

    fn put_text(&mut self, kind: u8, text: &str, bytes: &mut Vec<u8>) {
        bytes.push(kind);
        bytes.extend((self.start_of(text) as u32).to_le_bytes());
        bytes.extend((text.len() as u16).to_le_bytes());
    }

    /// A word back into what it says.
    pub fn read(&self, word: u64) -> Cell {
        match word >> 56 {
            0 => Cell::Null,
            1 => Cell::Int(word as u32 as i32),
            2 => {
                let start = (word >> 16) as u32 as usize;
                let bytes = &self.bytes[start..start + (word & 0xffff) as usize];
                Cell::Text(String::from_utf8(bytes.to_vec()).expect("UTF-8"))
            }
            _ => Cell::Binary,
        }
    }
}

/// The names of a table's columns, before a dot those of the table where there is a join.
pub fn names(table: &TableSpec, is_joined: bool) -> Vec<String> {
    let prefix = if is_joined { table.name.clone() + "." } else { String::new() };
    table.columns.iter().map(|column| prefix.clone() + &column.name).collect()
}
