//! The definitions over contents, word for word: what a list shows, what a change does, and when a
//! change is irrelevant or computable. Slow, and meant for small ranges.

use crate::rules::question::*;
use std::collections::{BTreeMap, BTreeSet};
use std::slice;

/// One row of a table, or a full row.
pub type Row = Vec<i32>;
/// A finite set of rows for each table.
pub type Contents = Vec<BTreeSet<Row>>;
/// What a list shows.
pub type List = BTreeSet<Row>;

/// Whether a row meets a condition; `value` gives the value of a column.
pub fn meets(condition: &[Token], value: impl Fn(usize) -> i32) -> bool {
    let mut stack: Vec<bool> = Vec::new();
    for token in condition {
        let truth = match token {
            Token::Compare(op, left, right) => op.holds(i64::from(value(*left)), new_value(*right, &value)),
            Token::Not => !stack.pop().expect("an operand"),
            Token::And | Token::Or => {
                let right = stack.pop().expect("an operand");
                let left = stack.pop().expect("an operand");
                if *token == Token::And {
                    left && right
                } else {
                    left || right
                }
            }
        };
        stack.push(truth);
    }
    stack.pop().unwrap_or(true)
}

fn new_value(side: Side, value: impl Fn(usize) -> i32) -> i64 {
    match side {
        Side::Constant(constant) => i64::from(constant),
        Side::Column(column, plus) => i64::from(value(column)) + i64::from(plus),
    }
}

/// The full rows: one row of each table side by side.
fn full_rows(contents: &Contents) -> Vec<Row> {
    let mut rows = vec![Vec::new()];
    for table in contents {
        let longer = |row: &Row| {
            let row = row.clone();
            table.iter().map(move |more| [&row[..], more].concat())
        };
        rows = rows.iter().flat_map(longer).collect();
    }
    rows
}

/// The visible parts of the full rows that meet the list's condition.
pub fn list(question: &Question, contents: &Contents) -> List {
    let mut shown = List::new();
    for row in full_rows(contents) {
        if meets(&question.condition, |column| row[column]) {
            let columns = question.columns.iter().zip(&row);
            let visible = columns.filter(|(column, _)| column.visible);
            shown.insert(visible.map(|(_, value)| *value).collect());
        }
    }
    shown
}

/// The contents after the change.
pub fn after(question: &Question, contents: &Contents) -> Contents {
    let first = question.changed_columns().start;
    let mut contents = contents.clone();
    let table = &mut contents[question.changed];
    match &question.change {
        Change::Insert(rows) => table.extend(rows.iter().cloned()),
        Change::Delete(d) => table.retain(|row| !meets(d, |column| row[column - first])),
        Change::Modify(condition, modes) => {
            let new = |row: &Row| replaced(question, condition, modes, row);
            *table = table.iter().filter_map(new).collect();
        }
    }
    contents
}

/// What becomes of one row of the changed table; nothing if it is retired.
fn replaced(question: &Question, condition: &[Token], modes: &[Mode], row: &Row) -> Option<Row> {
    let own = question.changed_columns();
    let value = |column: usize| row[column - own.start];
    if !meets(condition, value) {
        return Some(row.clone());
    }
    let mut new = Vec::new();
    for (column, mode) in own.clone().zip(modes) {
        let becomes = match mode {
            Mode::Keep => i64::from(value(column)),
            Mode::Become(side) => new_value(*side, value),
        };
        let Column { lo, hi, .. } = question.columns[column];
        match i32::try_from(becomes) {
            Ok(fits) if (lo..=hi).contains(&fits) => new.push(fits),
            _ => return (!question.retires()).then(|| row.clone()),
        }
    }
    Some(new)
}

/// Whether the change leaves the list of each of these contents as it is.
pub fn irrelevant(question: &Question, all: &[Contents]) -> bool {
    let same = |contents| list(question, contents) == list(question, &after(question, contents));
    all.iter().all(same)
}

/// Whether, over these contents, the old list alone tells the new one.
pub fn computable(question: &Question, all: &[Contents]) -> bool {
    let mut new_lists: BTreeMap<List, List> = BTreeMap::new();
    all.iter().all(|contents| {
        let new = list(question, &after(question, contents));
        let known = new_lists.entry(list(question, contents)).or_insert_with(|| new.clone());
        *known == new
    })
}

/// All contents, or, where a table has more than `many` rows in range, those of at most two rows.
pub fn all_contents(question: &Question, many: usize) -> Vec<Contents> {
    let mut all = vec![Vec::new()];
    for table in 0..question.widths.len() {
        let rows = rows_in_range(&question.columns[question.columns_of(table)]);
        let most = if rows.len() > many { 2 } else { rows.len() };
        let sets = sets_of(&rows, most);
        let longer = |contents: &Contents| {
            let contents = contents.clone();
            sets.iter().map(move |set| [&contents[..], slice::from_ref(set)].concat())
        };
        all = all.iter().flat_map(longer).collect();
    }
    all
}

fn rows_in_range(columns: &[Column]) -> Vec<Row> {
    let mut rows = vec![Vec::new()];
    for column in columns {
        let longer = |row: &Row| {
            let row = row.clone();
            (column.lo..=column.hi).map(move |value| [&row[..], &[value]].concat())
        };
        rows = rows.iter().flat_map(longer).collect();
    }
    rows
}

/// Every set of at most `most` of the rows.
fn sets_of(rows: &[Row], most: usize) -> Vec<BTreeSet<Row>> {
    let mut sets = vec![BTreeSet::new()];
    for row in rows {
        let room: Vec<_> = sets.iter().filter(|set| set.len() < most).cloned().collect();
        for mut set in room {
            set.insert(row.clone());
            sets.push(set);
        }
    }
    sets
}

/// Whether the rows of a passing no-sheet, made into contents, break what was asked: one row a table;
/// for an insert the changed table is empty; where there is one row for asked 2, the second contents
/// are all empty.
pub fn breaks(question: &Question, asked: u8, rows: &[Row]) -> bool {
    let first = contents_of(question, &rows[0]);
    let new = |contents| list(question, &after(question, contents));
    if asked == 1 {
        return list(question, &first) != new(&first);
    }
    let second = match rows.get(1) {
        Some(row) => contents_of(question, row),
        None => vec![BTreeSet::new(); question.widths.len()],
    };
    list(question, &first) == list(question, &second) && new(&first) != new(&second)
}

fn contents_of(question: &Question, row: &Row) -> Contents {
    let mut contents = Contents::new();
    for table in 0..question.widths.len() {
        contents.push(BTreeSet::from([row[question.columns_of(table)].to_vec()]));
    }
    if matches!(question.change, Change::Insert(_)) {
        contents[question.changed].clear();
    }
    contents
}
