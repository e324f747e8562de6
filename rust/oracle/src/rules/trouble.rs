//! The trouble lists: one formula for each way in which a change can be relevant, or not computable.

use super::draft::{constant, not, Draft};
use super::formula::Formula;
use super::question::*;

/// The formulas for `asked` (1 irrelevant, otherwise computable), in order.
pub fn trouble(question: &Question, asked: u8) -> Vec<Formula> {
    let one_table = question.widths.len() == 1;
    match (&question.change, asked) {
        (Change::Insert(_), 2) if one_table => Vec::new(),
        (Change::Insert(rows), _) => rows.iter().map(|row| inserted(question, row)).collect(),
        (Change::Delete(d), 1) => vec![deleted(question, d)],
        (Change::Delete(d), _) => vec![deleted_pair(question, d)],
        (Change::Modify(..), 1) => {
            let mut all = vec![leaves(question), enters(question), moves(question)];
            all.extend(question.retires().then(|| retired(question)));
            all
        }
        (Change::Modify(..), _) => {
            vec![enters(question), stays_or_goes(question), part_ways(question), parts_from_kept(question)]
        }
    }
}

/// C with an inserted row's values put in.
fn inserted(question: &Question, row: &[i32]) -> Formula {
    let mut draft = Draft::new(question);
    let mut sight = draft.first();
    for (column, value) in question.changed_columns().zip(row) {
        sight[column] = constant(*value);
    }
    let parts = vec![draft.c(&sight)];
    let mut formula = draft.done(parts, false);
    formula.inserted = Some(row.to_vec());
    formula
}

/// C and D.
fn deleted(question: &Question, d: &[Token]) -> Formula {
    let mut draft = Draft::new(question);
    let row = draft.first();
    let parts = vec![draft.c(&row), draft.condition(d, &row)];
    draft.done(parts, false)
}

/// C1, C2, D1, not D2.
fn deleted_pair(question: &Question, d: &[Token]) -> Formula {
    let mut draft = Draft::new(question);
    let (one, two) = (draft.first(), draft.second());
    let parts = vec![draft.c(&one), draft.c(&two), draft.condition(d, &one), not(draft.condition(d, &two))];
    draft.done(parts, true)
}

/// M and C and not C(F).
fn leaves(question: &Question) -> Formula {
    let mut draft = Draft::new(question);
    let row = draft.first();
    let parts = vec![draft.m(&row), draft.c(&row), not(draft.c_after(&row))];
    draft.done(parts, false)
}

/// M and not C and C(F).
fn enters(question: &Question) -> Formula {
    let mut draft = Draft::new(question);
    let row = draft.first();
    let parts = vec![draft.m(&row), not(draft.c(&row)), draft.c_after(&row)];
    draft.done(parts, false)
}

/// M and C and C(F) and shown change.
fn moves(question: &Question) -> Formula {
    let mut draft = Draft::new(question);
    let row = draft.first();
    let after = draft.after(&row);
    let parts = vec![draft.m(&row), draft.c(&row), draft.c_after(&row), draft.differ(&after, &row)];
    draft.done(parts, false)
}

/// Selected and C and some new value out of range.
fn retired(question: &Question) -> Formula {
    let mut draft = Draft::new(question);
    let row = draft.first();
    let parts = vec![draft.selected(&row), draft.c(&row), not(draft.in_range(&row))];
    draft.done(parts, false)
}

/// C1, C2, S1, not S2.
fn stays_or_goes(question: &Question) -> Formula {
    let mut draft = Draft::new(question);
    let (one, two) = (draft.first(), draft.second());
    let parts = vec![draft.c(&one), draft.c(&two), draft.s(&one), not(draft.s(&two))];
    draft.done(parts, true)
}

/// C1, C2, M1, M2, C1(F), C2(F), some visible new1 ≠ new2.
fn part_ways(question: &Question) -> Formula {
    let mut draft = Draft::new(question);
    let (one, two) = (draft.first(), draft.second());
    let (new_one, new_two) = (draft.after(&one), draft.after(&two));
    let parts = vec![
        draft.c(&one),
        draft.c(&two),
        draft.m(&one),
        draft.m(&two),
        draft.c_after(&one),
        draft.c_after(&two),
        draft.differ(&new_one, &new_two),
    ];
    draft.done(parts, true)
}

/// C1, C2, M1, row 2 kept, C1(F), some visible new1 ≠ old2.
fn parts_from_kept(question: &Question) -> Formula {
    let mut draft = Draft::new(question);
    let (one, two) = (draft.first(), draft.second());
    let new_one = draft.after(&one);
    let parts = vec![
        draft.c(&one),
        draft.c(&two),
        draft.m(&one),
        draft.kept(&two),
        draft.c_after(&one),
        draft.differ(&new_one, &two),
    ];
    draft.done(parts, true)
}
