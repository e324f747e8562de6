//! Questions that are hard for a search which splits cases before it looks: one table, six comparisons
//! of columns a condition, and a modify that shifts columns.

use crate::questions::of_either_version;
use crate::Chance;
use oracle::rules::question::*;

/// The operators of one question.
const KINDS: [&[Op]; 5] = [
    &[Op::Equal],
    &[Op::Unequal],
    &[Op::Equal, Op::Unequal],
    &[Op::Less, Op::AtMost, Op::AtLeast, Op::More],
    &OPS,
];

/// A hard question of either version, of at most 8 columns or of at most as many as there can be.
pub fn hard(chance: &mut Chance) -> Question {
    let most = chance.among(&[8, MOST_COLUMNS]);
    let question = hard_within(chance, most);
    of_either_version(chance, question)
}

/// A hard question of version 1, of half, three quarters or mostly all of these columns: the operators, the
/// ranges, how the comparisons are joined and what the change does vary too.
pub fn hard_within(chance: &mut Chance, most: usize) -> Question {
    let count = chance.among(&[most / 2, most * 3 / 4, most, most, most]);
    let kind = chance.among(&KINDS);
    let columns = columns(chance, count);
    let condition = six(chance, kind, count);
    let rows = six(chance, kind, count);
    let change = match chance.below(8) {
        0 => Change::Delete(rows),
        _ => Change::Modify(rows, shifts(chance, count)),
    };
    Question { version: 1, widths: vec![count], changed: 0, columns, condition, change }
}

/// Small ranges, or for one question in eight the widest; mostly with one visible column.
fn columns(chance: &mut Chance, count: usize) -> Vec<Column> {
    let wide = chance.once_in(8);
    let several = chance.once_in(4);
    let mut columns = Vec::new();
    for _ in 0..count {
        let (lo, hi) = match wide {
            true => (-MOST_VALUE, MOST_VALUE),
            false => (0, chance.among(&[3, 9, 30])),
        };
        columns.push(Column { lo, hi, visible: several && chance.once_in(3) });
    }
    let shown = chance.below(count);
    columns[shown].visible = true;
    columns
}

/// Six comparisons, joined one after another or in pairs; for one condition in two, negated.
fn six(chance: &mut Chance, kind: &[Op], count: usize) -> Condition {
    let mut tokens = Vec::new();
    let pairs = chance.once_in(4);
    for at in 0..MOST_COMPARISONS {
        let (left, right) = (chance.below(count), chance.below(count));
        tokens.push(Token::Compare(chance.among(kind), left, Side::Column(right, chance.between(-3, 3))));
        let joins = match (pairs, at) {
            (_, 0) => 0,
            (false, _) | (true, 1) => 1,
            (true, _) => 2 * (at % 2),
        };
        (0..joins).for_each(|_| tokens.push(chance.among(&[Token::And, Token::Or, Token::Or])));
    }
    if chance.once_in(2) {
        tokens.push(Token::Not);
    }
    tokens
}

/// Most columns become a column plus a little; some stay.
fn shifts(chance: &mut Chance, count: usize) -> Vec<Mode> {
    let mut shift = || match chance.below(6) {
        0 => Mode::Keep,
        _ => Mode::Become(Side::Column(chance.below(count), chance.between(-2, 2))),
    };
    (0..count).map(|_| shift()).collect()
}
