//! Printing of values and of named conditions.

use crate::condition::{scan, Columns, Node, Tree};
use crate::expression::write_at_start;
use crate::table::check_text;
use crate::value::{content, decode, Cell};
use crate::Refusal;

const UNARY_PRECEDENCE: u8 = 10;

/// Prints a named condition.
pub fn print(
    condition: &[u8],
    text: &[u8],
    used: usize,
    output: &mut [u8],
) -> Result<usize, Refusal> {
    check_text(text, used)?;
    let tree = scan(condition, Columns::Named, used)?;
    let mut line = Vec::new();
    print_tree(&tree, 0, text, &mut line)?;
    if output.len() < line.len() {
        return Err(Refusal::at(9, line.len()));
    }
    write_at_start(&line, output);
    Ok(line.len())
}

/// Prints a tree of which its surroundings ask a precedence.
fn print_tree(tree: &Tree, asked: u8, text: &[u8], line: &mut Vec<u8>) -> Result<(), Refusal> {
    match tree.node {
        Node::Null => line.extend_from_slice(b"NULL"),
        Node::Int(number) => line.extend_from_slice(number.to_string().as_bytes()),
        Node::Text(word) => {
            let quoted = quote(bytes_of(word, text)).ok_or(Refusal::at(15, tree.offset))?;
            line.extend_from_slice(&quoted);
        }
        Node::Name(word) => line.extend_from_slice(bytes_of(word, text)),
        // A named condition has no column numbers.
        Node::Number(_) => {}
        Node::Unary(kind) => {
            line.extend_from_slice(unary_sign(kind));
            print_tree(&tree.operands[0], UNARY_PRECEDENCE, text, line)?;
        }
        Node::Binary(kind) => {
            let (own, sign) = precedence_and_sign(kind);
            if own < asked {
                line.push(b'(');
            }
            print_tree(&tree.operands[0], own, text, line)?;
            line.push(b' ');
            line.extend_from_slice(sign);
            line.push(b' ');
            print_tree(&tree.operands[1], own + 1, text, line)?;
            if own < asked {
                line.push(b')');
            }
        }
    }
    Ok(())
}

fn bytes_of(word: u64, text: &[u8]) -> &[u8] {
    content(word >> 16 & 0xffff_ffff, word & 0xffff, text)
}

fn unary_sign(kind: u8) -> &'static [u8] {
    match kind {
        16 => b"-",
        17 => b"~",
        _ => b"NOT ",
    }
}

fn precedence_and_sign(kind: u8) -> (u8, &'static [u8]) {
    match kind {
        32 => (3, b"="),
        33 => (3, b"!="),
        34 => (3, b"<"),
        35 => (3, b"<="),
        36 => (3, b">"),
        37 => (3, b">="),
        38 => (8, b"+"),
        39 => (8, b"-"),
        40 => (9, b"*"),
        41 => (9, b"/"),
        42 => (6, b"&"),
        43 => (4, b"|"),
        44 => (5, b"^"),
        45 => (7, b"<<"),
        46 => (7, b">>"),
        48 => (2, b"AND"),
        _ => (1, b"OR"),
    }
}

/// The quoted text, or nothing where a byte of 128 or more is in it.
fn quote(bytes: &[u8]) -> Option<Vec<u8>> {
    let mut quoted = vec![b'"'];
    for &byte in bytes {
        match byte {
            b'"' | b'\\' => quoted.extend_from_slice(&[b'\\', byte]),
            0 => quoted.extend_from_slice(b"\\0"),
            9 => quoted.extend_from_slice(b"\\t"),
            10 => quoted.extend_from_slice(b"\\n"),
            13 => quoted.extend_from_slice(b"\\r"),
            1..=31 | 127 => quoted.extend_from_slice(format!("\\u{{{byte:x}}}").as_bytes()),
            32..=126 => quoted.push(byte),
            128.. => return None,
        }
    }
    quoted.push(b'"');
    Some(quoted)
}

/// Prints one cell as a literal. Binary, which no condition can hold, prints
/// as value.rs does it; a malformed word prints as Null.
pub fn print_value(word: u64, text: &[u8], output: &mut [u8]) -> Result<usize, Refusal> {
    let line = match decode(word) {
        None | Some(Cell::Null) => b"NULL".to_vec(),
        Some(Cell::Int(number)) => number.to_string().into_bytes(),
        Some(Cell::Text { start, length }) => {
            quote(content(start, length, text)).ok_or(Refusal::at(15, 0))?
        }
        Some(Cell::Binary) => b"BINARY_STREAM".to_vec(),
    };
    if output.len() < line.len() {
        return Err(Refusal::at(9, line.len()));
    }
    write_at_start(&line, output);
    Ok(line.len())
}
