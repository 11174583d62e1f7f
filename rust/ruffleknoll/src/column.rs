/// What a column holds.
#[derive(Clone, Copy, Debug, Eq, PartialEq)]
pub enum ColumnType {
    /// Numbers of 32 bits.
    Int32,
    /// Texts of at most so many bytes; 0 for no bound.
    Str(u16),
    /// Binary streams.
    Binary,
}

/// A column of a table, as in msi.
///
/// ```
/// use ruffleknoll::{Column, ColumnType};
/// let number = Column::build("Number").primary_key().int32();
/// let text = Column::build("Text").nullable().string(80);
/// assert_eq!((number.name(), number.coltype()), ("Number", ColumnType::Int32));
/// assert!(number.is_primary_key() && text.is_nullable());
/// ```
#[derive(Clone, Debug, Eq, PartialEq)]
pub struct Column {
    name: String,
    coltype: ColumnType,
    nullable: bool,
    key: bool,
}

/// A column whose type is still to be said.
#[derive(Clone, Debug)]
pub struct ColumnBuilder {
    name: String,
    nullable: bool,
    key: bool,
}

impl Column {
    /// A column of this name.
    pub fn build(name: impl Into<String>) -> ColumnBuilder {
        ColumnBuilder { name: name.into(), nullable: false, key: false }
    }

    /// Its name.
    pub fn name(&self) -> &str {
        &self.name
    }

    /// What it holds.
    pub fn coltype(&self) -> ColumnType {
        self.coltype
    }

    /// Whether Null is a valid value.
    pub fn is_nullable(&self) -> bool {
        self.nullable
    }

    /// Whether it is a part of the key.
    pub fn is_primary_key(&self) -> bool {
        self.key
    }
}

impl ColumnBuilder {
    /// Makes Null a valid value.
    pub fn nullable(mut self) -> ColumnBuilder {
        self.nullable = true;
        self
    }

    /// Makes it a part of the key.
    pub fn primary_key(mut self) -> ColumnBuilder {
        self.key = true;
        self
    }

    /// A column of numbers.
    pub fn int32(self) -> Column {
        self.of(ColumnType::Int32)
    }

    /// A column of texts of at most so many bytes; 0 for no bound.
    pub fn string(self, max_len: u16) -> Column {
        self.of(ColumnType::Str(max_len))
    }

    /// A column of binary streams.
    pub fn binary(self) -> Column {
        self.of(ColumnType::Binary)
    }

    /// A column of a type.
    pub fn of(self, coltype: ColumnType) -> Column {
        Column { name: self.name, coltype, nullable: self.nullable, key: self.key }
    }
}
