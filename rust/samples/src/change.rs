//! A sound question changed a little, so that it stays sound.

use crate::Chance;
use oracle::rules::question::*;

/// The question with one to three things changed: constants, operators, joins, columns, modes, ranges,
/// the version.
pub fn changed(chance: &mut Chance, question: &Question) -> Question {
    let mut question = question.clone();
    for _ in 0..chance.among(&[1, 1, 2, 3]) {
        one_thing(chance, &mut question);
    }
    question
}

fn one_thing(chance: &mut Chance, question: &mut Question) {
    let own = question.changed_columns();
    let all = 0..question.columns.len();
    match (chance.below(7), &mut question.change) {
        (0, change) if !matches!(change, Change::Insert(_)) => range(chance, &mut question.columns),
        (1, _) => shown(chance, &mut question.columns),
        (2, Change::Modify(_, modes)) => {
            let at = chance.below(modes.len());
            modes[at] = match chance.below(6) {
                0 => Mode::Keep,
                1 => Mode::Become(Side::Constant(chance.between(-3, 33))),
                _ => Mode::Become(side(chance, &own)),
            };
        }
        (3, Change::Modify(condition, _) | Change::Delete(condition)) => token(chance, condition, &own),
        (4, Change::Modify(condition, _) | Change::Delete(condition)) => negation(chance, condition),
        (5, _) => negation(chance, &mut question.condition),
        (6, _) => question.version = chance.among(&VERSIONS),
        _ => token(chance, &mut question.condition, &all),
    }
}

fn range(chance: &mut Chance, columns: &mut [Column]) {
    let at = chance.below(columns.len());
    let column = &mut columns[at];
    column.lo = chance.among(&[column.lo, 0, 0, -5, -MOST_VALUE]);
    column.hi = column.lo + chance.among(&[0, 1, 3, 9, 30, MOST_VALUE]);
}

/// Shows a column, or hides one of several.
fn shown(chance: &mut Chance, columns: &mut [Column]) {
    let at = chance.below(columns.len());
    let others = columns.iter().filter(|column| column.visible).count() - usize::from(columns[at].visible);
    columns[at].visible = others == 0 || !columns[at].visible;
}

fn side(chance: &mut Chance, own: &std::ops::Range<usize>) -> Side {
    Side::Column(own.start + chance.below(own.len()), chance.between(-3, 3))
}

/// Another operator, column, right side or constant; another join.
fn token(chance: &mut Chance, condition: &mut Condition, own: &std::ops::Range<usize>) {
    if condition.is_empty() {
        return;
    }
    let at = chance.below(condition.len());
    condition[at] = match condition[at] {
        Token::And => Token::Or,
        Token::Or => Token::And,
        Token::Not => Token::Not,
        Token::Compare(op, left, right) => match chance.below(5) {
            0 => Token::Compare(chance.among(&OPS), left, right),
            1 => Token::Compare(op, own.start + chance.below(own.len()), right),
            2 => Token::Compare(op, left, Side::Constant(chance.between(-3, 33))),
            _ => Token::Compare(op, left, side(chance, own)),
        },
    };
}

/// A not put in after some value, or taken out.
fn negation(chance: &mut Chance, condition: &mut Condition) {
    if condition.is_empty() {
        return;
    }
    let at = chance.below(condition.len());
    if condition[at] == Token::Not {
        condition.remove(at);
    } else if condition.len() < MOST_TOKENS {
        condition.insert(at + 1, Token::Not);
    }
}
