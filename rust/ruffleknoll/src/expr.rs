use crate::calls::{Answer, Library, Stored};
use crate::pool::{malformed, written, Pool};
use crate::scene::{Places, Scene};
use crate::{library, Column, Refusal, Row, Value};
use std::ops;

/// The output that folding, binding and `with` ask for.
const OUTPUT: usize = 448;

/// A condition or an expression over the columns of a row, built as in msi.
///
/// Nothing is folded while it is built: [`Expr::fold`] does that when asked.
///
/// ```
/// use ruffleknoll::Expr;
/// let across = Expr::col("Direction").eq(Expr::string("across"));
/// let late = (Expr::col("Number") + Expr::integer(1)).gt(Expr::integer(12));
/// let both = across.and(late);
/// assert_eq!(both.print()?, "Direction = \"across\" AND Number + 1 > 12");
/// # Ok::<(), ruffleknoll::Refusal>(())
/// ```
#[derive(Clone, Debug)]
pub struct Expr {
    /// In postfix order, as the library reads them: however deep it is, nothing here recurses.
    nodes: Vec<Node>,
}

#[derive(Clone, Debug, Eq, PartialEq)]
pub(crate) enum Node {
    Null,
    Int(i32),
    Text(String),
    Name(String),
    /// A column by number, in a bound condition.
    Number(u8),
    /// An operator, by the number that stands for it in the bytes.
    Operator(u8),
}

impl Node {
    fn length(&self) -> usize {
        match self {
            Node::Null | Node::Operator(_) => 1,
            Node::Number(_) => 2,
            Node::Int(_) => 5,
            Node::Text(_) | Node::Name(_) => 7,
        }
    }

    fn encode(&self, pool: &mut Pool, bytes: &mut Vec<u8>) -> Result<(), Refusal> {
        match self {
            Node::Null => bytes.push(0),
            Node::Int(number) => {
                bytes.push(1);
                bytes.extend(number.to_le_bytes());
            }
            Node::Text(text) => encode_text(2, pool.text(text)?, bytes),
            Node::Name(name) => encode_text(3, pool.text(name)?, bytes),
            Node::Number(number) => bytes.extend([4, *number]),
            Node::Operator(number) => bytes.push(*number),
        }
        Ok(())
    }

    /// The node at the start of the bytes.
    fn decode(bytes: &[u8], pool: &Pool) -> Result<Node, Refusal> {
        match *bytes {
            [0, ..] => Ok(Node::Null),
            [1, a, b, c, d, ..] => Ok(Node::Int(i32::from_le_bytes([a, b, c, d]))),
            [kind @ (2 | 3), a, b, c, d, e, f, ..] => {
                let start = u32::from_le_bytes([a, b, c, d]) as usize;
                let text = pool.read(start, u16::from_le_bytes([e, f]).into())?;
                Ok(if kind == 2 { Node::Text(text) } else { Node::Name(text) })
            }
            [4, number, ..] => Ok(Node::Number(number)),
            [number @ 16..=255, ..] => Ok(Node::Operator(number)),
            _ => Err(malformed()),
        }
    }
}

fn encode_text(kind: u8, (start, length): (u32, u16), bytes: &mut Vec<u8>) {
    bytes.push(kind);
    bytes.extend(start.to_le_bytes());
    bytes.extend(length.to_le_bytes());
}

// The names are msi's, and so are the ways to pass them.
#[allow(clippy::should_implement_trait)]
impl Expr {
    /// The value of a column.
    pub fn col(name: impl Into<String>) -> Expr {
        Expr::leaf(Node::Name(name.into()))
    }

    /// Null.
    pub fn null() -> Expr {
        Expr::leaf(Node::Null)
    }

    /// 1 or 0.
    pub fn boolean(truth: bool) -> Expr {
        Expr::integer(truth.into())
    }

    /// A number.
    pub fn integer(number: i32) -> Expr {
        Expr::leaf(Node::Int(number))
    }

    /// A text.
    pub fn string(text: impl Into<String>) -> Expr {
        Expr::leaf(Node::Text(text.into()))
    }

    /// `=`; Null equals Null.
    pub fn eq(self, right: Expr) -> Expr {
        self.binary(32, right)
    }

    /// `!=`
    pub fn ne(self, right: Expr) -> Expr {
        self.binary(33, right)
    }

    /// `<`, where Null < numbers < texts < binary streams.
    pub fn lt(self, right: Expr) -> Expr {
        self.binary(34, right)
    }

    /// `<=`
    pub fn le(self, right: Expr) -> Expr {
        self.binary(35, right)
    }

    /// `>`
    pub fn gt(self, right: Expr) -> Expr {
        self.binary(36, right)
    }

    /// `>=`
    pub fn ge(self, right: Expr) -> Expr {
        self.binary(37, right)
    }

    /// `~`, each bit inverted.
    pub fn bitinv(self) -> Expr {
        self.unary(17)
    }

    /// `AND`; the right side isn't looked at where the left decides.
    pub fn and(self, right: Expr) -> Expr {
        self.binary(48, right)
    }

    /// `OR`; the right side isn't looked at where the left decides.
    pub fn or(self, right: Expr) -> Expr {
        self.binary(49, right)
    }

    /// `NOT`
    pub fn not(self) -> Expr {
        self.unary(18)
    }

    fn leaf(node: Node) -> Expr {
        Expr { nodes: vec![node] }
    }

    fn unary(mut self, operator: u8) -> Expr {
        self.nodes.push(Node::Operator(operator));
        self
    }

    fn binary(mut self, operator: u8, right: Expr) -> Expr {
        self.nodes.extend(right.nodes);
        self.unary(operator)
    }
}

macro_rules! operators {
    ($($name:ident, $method:ident, $number:literal, $sign:literal;)+) => {$(
        #[doc = $sign]
        impl ops::$name for Expr {
            type Output = Expr;

            fn $method(self, right: Expr) -> Expr {
                self.binary($number, right)
            }
        }
    )+};
}

operators! {
    Add, add, 38, "`+`, of two numbers or of two texts.";
    Sub, sub, 39, "`-`";
    Mul, mul, 40, "`*`";
    Div, div, 41, "`/`, toward zero; Null for a division by 0.";
    BitAnd, bitand, 42, "`&`";
    BitOr, bitor, 43, "`|`";
    BitXor, bitxor, 44, "`^`";
    Shl, shl, 45, "`<<`, which drops high bits.";
    Shr, shr, 46, "`>>`, which keeps the sign.";
}

/// `-`
impl ops::Neg for Expr {
    type Output = Expr;

    fn neg(self) -> Expr {
        self.unary(16)
    }
}

/// What is asked of the library.
impl Expr {
    /// The value on a row.
    ///
    /// ```
    /// use ruffleknoll::{Column, Expr, Table, Value};
    /// let clues = Table::new("Clue", vec![Column::build("Number").int32()]);
    /// let clues = clues.with_rows(vec![vec![7.into()]])?;
    /// let half = Expr::col("Number") / Expr::integer(2);
    /// for row in clues.rows() {
    ///     assert_eq!(half.eval(&row)?, Value::Int(3));
    /// }
    /// # Ok::<(), ruffleknoll::Refusal>(())
    /// ```
    pub fn eval(&self, row: &Row) -> Result<Value, Refusal> {
        let scene = Scene { condition: Some(self), tables: &[row.table()], ..Scene::default() };
        let bound = self.bind(row.columns(), &scene)?;
        let mut pool = Pool::default();
        let cells = pool.cells(row.values())?;
        let condition = bound.encode(&mut pool)?;
        let answer = library().evaluate(&condition, &cells, pool.room())?;
        let scene = Scene { places: Places::Nothing, stored: pool.used(), room: true, ..scene };
        pool.value(scene.accepted(answer)?.value)
    }

    /// The condition with operators over literals replaced by their values, which msi does while building. AND and OR
    /// stay.
    ///
    /// ```
    /// use ruffleknoll::Expr;
    /// let sum = Expr::integer(1) + Expr::integer(2);
    /// assert_eq!(Expr::col("Number").eq(sum).fold()?.print()?, "Number = 3");
    /// let refusal = (Expr::integer(i32::MAX) + Expr::integer(1)).fold().unwrap_err();
    /// assert_eq!(refusal.to_string(), "node 3 of the condition, +: a number outside 32 bits");
    /// # Ok::<(), ruffleknoll::Refusal>(())
    /// ```
    pub fn fold(&self) -> Result<Expr, Refusal> {
        let mut pool = Pool::default();
        let condition = self.encode(&mut pool)?;
        let mut output = [0; OUTPUT];
        let answer = library().fold(&condition, pool.room(), &mut output)?;
        let scene = Scene { room: true, ..self.scene(&pool) };
        decoded(scene.accepted(answer)?, &output, &pool)
    }

    /// This condition AND another, as a query's `with` called twice joins them in msi.
    ///
    /// ```
    /// use ruffleknoll::Expr;
    /// let both = Expr::col("Number").with(&Expr::col("Text"))?;
    /// assert_eq!(both.print()?, "Number AND Text");
    /// # Ok::<(), ruffleknoll::Refusal>(())
    /// ```
    pub fn with(&self, new: &Expr) -> Result<Expr, Refusal> {
        let mut pool = Pool::default();
        let (first, second) = (self.encode(&mut pool)?, new.encode(&mut pool)?);
        let mut output = [0; OUTPUT];
        let answer = library().with(&first, &second, pool.stored(), &mut output)?;
        let both = self.clone().and(new.clone());
        decoded(both.scene(&pool).accepted(answer)?, &output, &pool)
    }

    /// The condition as msi prints it. A text literal to print must be ASCII.
    pub fn print(&self) -> Result<String, Refusal> {
        let mut pool = Pool::default();
        let condition = self.encode(&mut pool)?;
        let mut output = vec![0; 256];
        let mut answer = library().print(&condition, pool.stored(), &mut output)?;
        if answer.number == 9 {
            output.resize(usize::try_from(answer.place).map_err(|_| malformed())?, 0);
            answer = library().print(&condition, pool.stored(), &mut output)?;
        }
        let bytes = written(&output, self.scene(&pool).accepted(answer)?.value)?;
        String::from_utf8(bytes.to_vec()).map_err(|_| malformed())
    }

    /// The same with column numbers for names.
    pub(crate) fn bind(&self, columns: &[Column], scene: &Scene) -> Result<Expr, Refusal> {
        let mut pool = Pool::default();
        let columns = pool.columns(columns)?;
        let named = self.encode(&mut pool)?;
        // Binding asks for the room though it writes none.
        let text = pool.room();
        let text = Stored { bytes: text.bytes, used: text.used };
        let mut output = [0; OUTPUT];
        let answer = library().bind(&named, &columns, text, &mut output)?;
        let answer = Scene { stored: pool.used(), room: true, ..*scene }.accepted(answer)?;
        decoded(answer, &output, &pool)
    }

    fn scene(&self, pool: &Pool) -> Scene<'_> {
        Scene { condition: Some(self), stored: pool.used(), ..Scene::default() }
    }

    pub(crate) fn encode(&self, pool: &mut Pool) -> Result<Vec<u8>, Refusal> {
        let mut bytes = Vec::new();
        self.nodes.iter().try_for_each(|node| node.encode(pool, &mut bytes))?;
        Ok(bytes)
    }

    pub(crate) fn nodes(&self) -> &[Node] {
        &self.nodes
    }

    /// The number of the node at an offset in the bytes, from 0.
    pub(crate) fn node_at(&self, offset: u64) -> Option<usize> {
        let mut start = 0;
        self.nodes.iter().position(|node| {
            let is_it = start == offset;
            start += node.length() as u64;
            is_it
        })
    }
}

/// The condition that a call wrote.
fn decoded(answer: Answer, output: &[u8], pool: &Pool) -> Result<Expr, Refusal> {
    let mut left = written(output, answer.value)?;
    let mut nodes = Vec::new();
    while !left.is_empty() {
        let node = Node::decode(left, pool)?;
        left = left.get(node.length()..).ok_or_else(malformed)?;
        nodes.push(node);
    }
    Ok(Expr { nodes })
}
