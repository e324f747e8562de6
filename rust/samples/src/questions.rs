//! Sound questions of every shape. What the benchmark draws is of version 1, and nothing is drawn for that:
//! its loads stay what they were when there was no other version.

use crate::Chance;
use oracle::rules::question::*;
use std::ops::Range;

/// How large a question may become, and how much of it is seen.
#[derive(Clone, Copy)]
pub struct Bounds {
    /// Most tables.
    pub tables: usize,
    /// Most columns, all tables together.
    pub columns: usize,
    /// One column in so many is visible, beside the one that always is.
    pub shown: usize,
}

/// A question of either version within all limits.
pub fn question(chance: &mut Chance) -> Question {
    let question = question_of_version_1(chance);
    of_either_version(chance, question)
}

/// The question, made one of either version.
pub(crate) fn of_either_version(chance: &mut Chance, question: Question) -> Question {
    Question { version: chance.among(&VERSIONS), ..question }
}

/// A question of version 1 within all limits; some are at the limits. One in four hides nearly all its
/// columns, so that formulas of two rows have nearly as many vertices as there can be.
pub fn question_of_version_1(chance: &mut Chance) -> Question {
    let shown = chance.among(&[2, 2, 2, 12]);
    question_within(chance, &Bounds { tables: MOST_TABLES, columns: MOST_COLUMNS, shown })
}

/// A question of version 1 within these bounds.
pub fn question_within(chance: &mut Chance, bounds: &Bounds) -> Question {
    let widths = widths(chance, bounds);
    let columns = columns(chance, widths.iter().sum(), bounds.shown);
    let counts = [0, 1].map(|_| chance.below(MOST_COMPARISONS + 1));
    finish(chance, widths, columns, counts)
}

/// A question of version 1 over this many columns, with this many comparisons in each of its conditions.
pub fn sized(chance: &mut Chance, count: usize, comparisons: usize) -> Question {
    let widths = match count {
        1 => vec![1],
        _ => vec![count / 2, count - count / 2],
    };
    let columns = columns(chance, count, 2);
    finish(chance, widths, columns, [comparisons; 2])
}

/// A question of either version over one or two tables, one to three columns and a few values, for which
/// all contents can be tried.
pub fn tiny(chance: &mut Chance) -> Question {
    let widths = chance.among(&[&[1][..], &[2], &[2], &[3], &[1, 1], &[1, 2], &[2, 1]]).to_vec();
    let mut columns = Vec::new();
    for _ in 0..widths.iter().sum() {
        let lo = chance.between(-1, 1);
        let hi = lo + chance.among(&[1, 1, 1, 2]);
        let visible = chance.once_in(2);
        columns.push(Column { lo, hi, visible });
    }
    let shown = chance.below(columns.len());
    columns[shown].visible = true;
    let counts = [0, 1].map(|_| chance.below(4));
    let question = finish(chance, widths, columns, counts);
    of_either_version(chance, question)
}

/// A question as tiny: a modify that shifts a hidden column, by which rows leave the range, the list or both.
pub fn tiny_shift(chance: &mut Chance) -> Question {
    let hidden = Column { lo: 0, hi: chance.between(2, 3), visible: false };
    let shown = Column { lo: 0, hi: 1, visible: true };
    let widths = chance.among(&[&[2][..], &[1, 1]]).to_vec();
    let counts = [1, 0].map(|least| least + chance.below(2));
    let mut question = finish(chance, widths, vec![hidden, shown], counts);
    question.changed = 0;
    let own = question.changed_columns();
    let mut modes = vec![Mode::Keep; own.len()];
    modes[0] = Mode::Become(Side::Column(0, chance.among(&[-3, -2, -1, 1, 2, 3])));
    question.change = Change::Modify(condition(chance, &question.columns, own, counts[1]), modes);
    of_either_version(chance, question)
}

/// A question of version 1 over so many columns with a formula of the most places that there can be, and a
/// path through all of them: every comparison sets a column against itself. With 12 columns there are 144.
pub fn deepest(columns: usize) -> Question {
    let column = Column { lo: 0, hi: 1, visible: true };
    let mut all = vec![Token::Compare(Op::Equal, 0, Side::Column(0, 0)); MOST_COMPARISONS];
    all.extend([Token::And; MOST_COMPARISONS - 1]);
    let modes = (0..columns).map(|column| Mode::Become(Side::Column(column, 0)));
    Question {
        version: 1,
        widths: vec![columns],
        changed: 0,
        columns: vec![column; columns],
        condition: all.clone(),
        change: Change::Modify(all, modes.collect()),
    }
}

fn finish(
    chance: &mut Chance,
    widths: Vec<usize>,
    columns: Vec<Column>,
    comparisons: [usize; 2],
) -> Question {
    let changed = chance.below(widths.len());
    let mut question = Question {
        version: 1,
        widths,
        changed,
        columns,
        condition: Vec::new(),
        change: Change::Insert(Vec::new()),
    };
    question.condition = condition(chance, &question.columns, 0..question.columns.len(), comparisons[0]);
    question.change = change(chance, &question, comparisons[1]);
    question
}

fn widths(chance: &mut Chance, bounds: &Bounds) -> Vec<usize> {
    let tables = 1 + chance.below(bounds.tables);
    let mut widths = vec![1; tables];
    for _ in 0..chance.below(bounds.columns - tables + 1) {
        widths[chance.below(tables)] += 1;
    }
    widths
}

fn columns(chance: &mut Chance, count: usize, shown: usize) -> Vec<Column> {
    let wide = chance.once_in(4);
    let mut columns = Vec::new();
    for _ in 0..count {
        let (lo, hi) = if wide { wide_range(chance) } else { small_range(chance) };
        let visible = chance.once_in(shown);
        columns.push(Column { lo, hi, visible });
    }
    let shown = chance.below(count);
    columns[shown].visible = true;
    columns
}

fn small_range(chance: &mut Chance) -> (i32, i32) {
    let lo = chance.between(-5, 5);
    (lo, lo + chance.between(0, 12))
}

fn wide_range(chance: &mut Chance) -> (i32, i32) {
    let mut end = || match chance.below(3) {
        0 => chance.among(&[-MOST_VALUE, 1 - MOST_VALUE, MOST_VALUE - 1, MOST_VALUE]),
        1 => chance.between(-MOST_VALUE, MOST_VALUE),
        _ => chance.between(-9, 9),
    };
    let (one, other) = (end(), end());
    (one.min(other), one.max(other))
}

/// A constant near what a column can hold; now and then one at the limits.
fn constant(chance: &mut Chance, column: Column) -> i32 {
    let near = chance.between(-2, 2);
    match chance.below(16) {
        0 => chance.among(&[-MOST_CONSTANT, 1 - MOST_CONSTANT, MOST_CONSTANT - 1, MOST_CONSTANT]),
        1..=3 => column.lo + near,
        4..=6 => column.hi + near,
        _ => chance.between(column.lo, column.hi),
    }
}

/// What is added to a column: small, or the distance of two ranges.
fn addition(chance: &mut Chance, from: Column, to: Column) -> i32 {
    match chance.below(8) {
        0 => chance.among(&[-MOST_CONSTANT, MOST_CONSTANT]),
        1 => to.lo - from.lo,
        2 => to.hi - from.hi,
        3 => 0,
        _ => chance.between(-4, 4),
    }
}

fn condition(chance: &mut Chance, columns: &[Column], own: Range<usize>, count: usize) -> Condition {
    let mut tokens = Vec::new();
    let mut values = 0;
    let mut left = count;
    let mut spare = MOST_TOKENS.saturating_sub(2 * count);
    while left > 0 || values > 1 {
        if values > 0 && spare > 0 && chance.once_in(6) {
            spare -= 1;
            tokens.push(Token::Not);
        } else if left > 0 && (values < 2 || chance.once_in(2)) {
            left -= 1;
            values += 1;
            tokens.push(comparison(chance, columns, &own));
        } else {
            values -= 1;
            tokens.push(chance.among(&[Token::And, Token::And, Token::Or]));
        }
    }
    tokens
}

fn comparison(chance: &mut Chance, columns: &[Column], own: &Range<usize>) -> Token {
    let left = own.start + chance.below(own.len());
    let side = side(chance, columns, own, left);
    Token::Compare(chance.among(&OPS), left, side)
}

fn side(chance: &mut Chance, columns: &[Column], own: &Range<usize>, against: usize) -> Side {
    if chance.once_in(2) {
        return Side::Constant(constant(chance, columns[against]));
    }
    let right = own.start + chance.below(own.len());
    Side::Column(right, addition(chance, columns[right], columns[against]))
}

fn change(chance: &mut Chance, question: &Question, comparisons: usize) -> Change {
    let own = question.changed_columns();
    let columns = &question.columns;
    match chance.below(3) {
        0 => {
            let count = chance.below(MOST_ROWS + 1);
            let mut row = || columns[own.clone()].iter().map(|c| chance.between(c.lo, c.hi)).collect();
            Change::Insert((0..count).map(|_| row()).collect())
        }
        1 => Change::Delete(condition(chance, columns, own, comparisons)),
        _ => {
            let rows = condition(chance, columns, own.clone(), comparisons);
            let modes = own.clone().map(|column| match chance.below(3) {
                0 => Mode::Keep,
                _ => Mode::Become(side(chance, columns, &own, column)),
            });
            Change::Modify(rows, modes.collect())
        }
    }
}
