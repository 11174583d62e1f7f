//! Reads a printed condition back into a tree. The tree inside `Expr` is
//! private to expr.rs, so a folded condition can be seen only as it prints.
//! Precedences are those of `Ast::format_with_precedence`; the columns must
//! be plain identifiers that are no words of the language.

use crate::plain::{Cell, Tree};

const SIGNS: [(&str, u8, u8); 17] = [
    (" OR ", 49, 1),
    (" AND ", 48, 2),
    (" = ", 32, 3),
    (" != ", 33, 3),
    (" < ", 34, 3),
    (" <= ", 35, 3),
    (" > ", 36, 3),
    (" >= ", 37, 3),
    (" | ", 43, 4),
    (" ^ ", 44, 5),
    (" & ", 42, 6),
    (" << ", 45, 7),
    (" >> ", 46, 7),
    (" + ", 38, 8),
    (" - ", 39, 8),
    (" * ", 40, 9),
    (" / ", 41, 9),
];

/// The tree that printed as this text, or None if none did.
pub fn read(text: &str) -> Option<Tree> {
    let mut reader = Reader { rest: text };
    let tree = reader.condition(0)?;
    if reader.rest.is_empty() {
        Some(tree)
    } else {
        None
    }
}

struct Reader<'a> {
    rest: &'a str,
}

impl Reader<'_> {
    fn skip(&mut self, sign: &str) -> bool {
        match self.rest.strip_prefix(sign) {
            Some(rest) => {
                self.rest = rest;
                true
            }
            None => false,
        }
    }

    fn condition(&mut self, asked: u8) -> Option<Tree> {
        let mut left = self.operand()?;
        while let Some((kind, precedence)) = self.sign(asked) {
            let right = self.condition(precedence + 1)?;
            left = Tree::Binary(kind, Box::new(left), Box::new(right));
        }
        Some(left)
    }

    fn sign(&mut self, asked: u8) -> Option<(u8, u8)> {
        for (sign, kind, precedence) in SIGNS {
            if precedence >= asked && self.skip(sign) {
                return Some((kind, precedence));
            }
        }
        None
    }

    fn operand(&mut self) -> Option<Tree> {
        let unary = |kind, operand| Tree::Unary(kind, Box::new(operand));
        let signed = self.rest.strip_prefix('-').unwrap_or(self.rest);
        if signed.starts_with(|first: char| first.is_ascii_digit()) {
            self.number()
        } else if self.skip("-") {
            Some(unary(16, self.operand()?))
        } else if self.skip("~") {
            Some(unary(17, self.operand()?))
        } else if self.skip("NOT ") {
            Some(unary(18, self.operand()?))
        } else if self.skip("(") {
            let inner = self.condition(0)?;
            if self.skip(")") {
                Some(inner)
            } else {
                None
            }
        } else if self.skip("\"") {
            self.quoted()
        } else {
            self.word()
        }
    }

    fn number(&mut self) -> Option<Tree> {
        let digits = |last: char| !(last.is_ascii_digit() || last == '-');
        // A minus can stand only in front: behind a number comes a space.
        let end = self.rest.find(digits).unwrap_or(self.rest.len());
        let (number, rest) = self.rest.split_at(end);
        self.rest = rest;
        Some(Tree::Literal(Cell::Int(number.parse().ok()?)))
    }

    fn word(&mut self) -> Option<Tree> {
        let end = self.rest.find([' ', ')']).unwrap_or(self.rest.len());
        let (word, rest) = self.rest.split_at(end);
        self.rest = rest;
        match word {
            "" => None,
            "NULL" => Some(Tree::Literal(Cell::Null)),
            name => Some(Tree::Column(name.to_string())),
        }
    }

    fn quoted(&mut self) -> Option<Tree> {
        let mut text = String::new();
        loop {
            let next = self.rest.chars().next()?;
            self.rest = &self.rest[next.len_utf8()..];
            match next {
                '"' => return Some(Tree::Literal(Cell::Text(text))),
                '\\' => text.push(self.escaped()?),
                plain => text.push(plain),
            }
        }
    }

    /// The character behind a backslash, as `{:?}` writes it.
    fn escaped(&mut self) -> Option<char> {
        if let Some(rest) = self.rest.strip_prefix("u{") {
            let (hex, rest) = rest.split_once('}')?;
            self.rest = rest;
            return char::from_u32(u32::from_str_radix(hex, 16).ok()?);
        }
        let letter = self.rest.chars().next()?;
        self.rest = &self.rest[letter.len_utf8()..];
        match letter {
            '0' => Some('\0'),
            't' => Some('\t'),
            'n' => Some('\n'),
            'r' => Some('\r'),
            '"' | '\\' | '\'' => Some(letter),
            _ => None,
        }
    }
}
