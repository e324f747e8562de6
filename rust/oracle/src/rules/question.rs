//! A question as values: a list definition and one change.

/// The versions that a question can have.
pub const VERSIONS: [u16; 2] = [1, 2];
/// Most tables of a list definition.
pub const MOST_TABLES: usize = 6;
/// Most columns, all tables together.
pub const MOST_COLUMNS: usize = 12;
/// Most tokens of a condition.
pub const MOST_TOKENS: usize = 16;
/// Most comparisons of a condition.
pub const MOST_COMPARISONS: usize = 6;
/// Most rows of one insert.
pub const MOST_ROWS: usize = 4;
/// Most vertices of a formula, zero among them, and most that one cycle of a sheet names.
pub const MOST_VERTICES: usize = 1 + 2 * MOST_COLUMNS;
/// Bounds of a column's range: -MOST_VALUE ..= MOST_VALUE.
pub const MOST_VALUE: i32 = 1_000_000_000;
/// Bounds of a constant: -MOST_CONSTANT ..= MOST_CONSTANT.
pub const MOST_CONSTANT: i32 = 2_000_000_000;
/// The byte that stands for "no column".
pub const NO_COLUMN: u8 = 255;

/// How a comparison sets its left side against its right side.
#[derive(Clone, Copy, Debug, PartialEq, Eq)]
pub enum Op {
    /// `<`
    Less,
    /// `≤`
    AtMost,
    /// `=`
    Equal,
    /// `≥`
    AtLeast,
    /// `>`
    More,
    /// `≠`
    Unequal,
}

/// The operators in the order of their bytes 1 to 6.
pub const OPS: [Op; 6] = [Op::Less, Op::AtMost, Op::Equal, Op::AtLeast, Op::More, Op::Unequal];

impl Op {
    /// Whether `left op right`.
    pub fn holds(self, left: i64, right: i64) -> bool {
        match self {
            Op::Less => left < right,
            Op::AtMost => left <= right,
            Op::Equal => left == right,
            Op::AtLeast => left >= right,
            Op::More => left > right,
            Op::Unequal => left != right,
        }
    }
}

/// The right side of a comparison, or a new value: a constant, or a column plus a constant.
#[derive(Clone, Copy, Debug, PartialEq, Eq)]
pub enum Side {
    /// A constant.
    Constant(i32),
    /// A column plus a constant.
    Column(usize, i32),
}

/// One token of a postfix condition.
#[derive(Clone, Copy, Debug, PartialEq, Eq)]
pub enum Token {
    /// A column against a side.
    Compare(Op, usize, Side),
    /// The last two values joined by and.
    And,
    /// The last two values joined by or.
    Or,
    /// The last value negated.
    Not,
}

/// A postfix condition; no tokens means true.
pub type Condition = Vec<Token>;

/// A column: its range and whether the list shows it.
#[derive(Clone, Copy, Debug, PartialEq, Eq)]
pub struct Column {
    /// The least value.
    pub lo: i32,
    /// The greatest value.
    pub hi: i32,
    /// Whether the list shows it.
    pub visible: bool,
}

/// What becomes of a column of a modified row.
#[derive(Clone, Copy, Debug, PartialEq, Eq)]
pub enum Mode {
    /// It keeps its value.
    Keep,
    /// It becomes a side, worked out from the old row.
    Become(Side),
}

/// The change of the changed table.
#[derive(Clone, Debug, PartialEq, Eq)]
pub enum Change {
    /// Adds these rows.
    Insert(Vec<Vec<i32>>),
    /// Removes the rows that meet the condition.
    Delete(Condition),
    /// Replaces the rows that meet the condition and whose new values are all in range; one mode for each
    /// column of the changed table.
    Modify(Condition, Vec<Mode>),
}

/// A list definition and one change.
#[derive(Clone, Debug, PartialEq, Eq)]
pub struct Question {
    /// Its version.
    pub version: u16,
    /// Each table's column count.
    pub widths: Vec<usize>,
    /// The number of the changed table.
    pub changed: usize,
    /// All columns, in table order.
    pub columns: Vec<Column>,
    /// The list's condition C.
    pub condition: Condition,
    /// The change.
    pub change: Change,
}

impl Question {
    /// Whether a selected row with a new value out of range goes; in version 1 it stays as it was.
    pub fn retires(&self) -> bool {
        self.version >= 2
    }

    /// The column numbers of one table.
    pub fn columns_of(&self, table: usize) -> std::ops::Range<usize> {
        let first = self.widths[..table].iter().sum();
        first..first + self.widths[table]
    }

    /// The column numbers of the changed table.
    pub fn changed_columns(&self) -> std::ops::Range<usize> {
        self.columns_of(self.changed)
    }
}
