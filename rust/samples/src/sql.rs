//! Questions and contents as SQL: tables `t0`, `t1` and so on, columns `c0`, `c1` and so on, counted through
//! all tables. The text is made from the rules of docs/FORMAT.md; of the oracle it takes the types alone,
//! since what the oracle says is held against it.

use oracle::contents::{Contents, Row};
use oracle::rules::question::*;
use std::collections::BTreeSet;

/// Makes the tables with these contents. They have no keys: an update may make rows equal.
pub fn tables(question: &Question, contents: &Contents) -> String {
    let table = |(table, rows)| {
        let columns = question.columns_of(table);
        let width = columns.len();
        let names = joined(columns.map(|column| format!("c{column} INTEGER")), ", ");
        format!("CREATE TABLE t{table} ({names}); INSERT INTO t{table} {};", values(width, rows))
    };
    joined(contents.iter().enumerate().map(table), "\n")
}

/// Takes the tables away.
pub fn no_tables(question: &Question) -> String {
    joined((0..question.widths.len()).map(|table| format!("DROP TABLE t{table};")), " ")
}

/// Selects what the list shows.
pub fn list(question: &Question) -> String {
    let columns = question.columns.iter().enumerate().filter(|(_, column)| column.visible);
    let visible = joined(columns.map(|(column, _)| format!("c{column}")), ", ");
    let tables = joined((0..question.widths.len()).map(|table| format!("t{table}")), " CROSS JOIN ");
    format!("SELECT DISTINCT {visible} FROM {tables} WHERE {}", condition(&question.condition))
}

/// Makes the change. In version 2 of a modify the delete comes first. The condition selects row by row, so of
/// the rows that are left it still selects those that it selected before.
pub fn change(question: &Question) -> String {
    let table = format!("t{}", question.changed);
    match &question.change {
        Change::Insert(rows) => {
            let rows = values(question.widths[question.changed], rows);
            format!("INSERT INTO {table} {rows} EXCEPT SELECT * FROM {table};")
        }
        Change::Delete(d) => format!("DELETE FROM {table} WHERE {};", condition(d)),
        Change::Modify(d, modes) => {
            let (selected, fits) = (condition(d), fits(question, modes));
            let set = |(column, mode)| format!("c{column} = {}", becomes(column, mode));
            let sets = joined(question.changed_columns().zip(modes).map(set), ", ");
            let update = format!("UPDATE {table} SET {sets} WHERE {selected}");
            match question.version {
                1 => format!("{update} AND {fits};"),
                _ => format!("DELETE FROM {table} WHERE {selected} AND NOT {fits}; {update};"),
            }
        }
    }
}

/// Tests, before a modify, whether it selects a row whose new values are all in range, and one with a new
/// value out of range.
pub fn selects(question: &Question) -> Option<[String; 2]> {
    let Change::Modify(d, modes) = &question.change else { return None };
    let (table, selected, fits) = (question.changed, condition(d), fits(question, modes));
    let test = |fits| format!("EXISTS (SELECT * FROM t{table} WHERE {selected} AND {fits})");
    Some([fits.clone(), format!("NOT {fits}")].map(test))
}

/// Tests whether a table or view, as a set, has other rows than these.
pub fn differs(name: &str, width: usize, rows: &BTreeSet<Row>) -> String {
    let rows = format!("({})", values(width, rows));
    let more = |one: &str, other: &str| format!("EXISTS (SELECT * FROM {one} EXCEPT SELECT * FROM {other})");
    format!("({} OR {})", more(name, &rows), more(&rows, name))
}

/// Tests whether a table has rows that are equal.
pub fn repeats(table: usize) -> String {
    format!("(SELECT count(*) FROM t{table}) > (SELECT count(*) FROM (SELECT DISTINCT * FROM t{table}))")
}

/// These rows, to be selected from. VALUES can't say that there are none.
fn values<'a>(width: usize, rows: impl IntoIterator<Item = &'a Row>) -> String {
    let row = |row: &Row| format!("({})", joined(row.iter().map(i32::to_string), ", "));
    let rows = joined(rows.into_iter().map(row), ", ");
    match rows.is_empty() {
        true => format!("SELECT {} WHERE 0", joined((0..width).map(|_| "0".to_string()), ", ")),
        false => format!("VALUES {rows}"),
    }
}

/// Whether a row's new values are all in range.
fn fits(question: &Question, modes: &[Mode]) -> String {
    let fits = |(column, mode)| {
        let Column { lo, hi, .. } = question.columns[column];
        format!("({} BETWEEN {lo} AND {hi})", becomes(column, mode))
    };
    format!("({})", joined(question.changed_columns().zip(modes).map(fits), " AND "))
}

fn becomes(column: usize, mode: &Mode) -> String {
    match mode {
        Mode::Keep => format!("c{column}"),
        Mode::Become(new) => side(*new),
    }
}

fn condition(tokens: &[Token]) -> String {
    let mut stack: Vec<String> = Vec::new();
    for token in tokens {
        let mut operand = || stack.pop().expect("an operand");
        let text = match token {
            Token::Compare(op, left, right) => format!("(c{left} {} {})", operator(*op), side(*right)),
            Token::Not => format!("(NOT {})", operand()),
            Token::And | Token::Or => {
                let word = if *token == Token::And { "AND" } else { "OR" };
                let right = operand();
                format!("({} {word} {right})", operand())
            }
        };
        stack.push(text);
    }
    stack.pop().unwrap_or("1".to_string())
}

fn operator(op: Op) -> &'static str {
    match op {
        Op::Less => "<",
        Op::AtMost => "<=",
        Op::Equal => "=",
        Op::AtLeast => ">=",
        Op::More => ">",
        Op::Unequal => "<>",
    }
}

fn side(side: Side) -> String {
    match side {
        Side::Constant(constant) => constant.to_string(),
        Side::Column(column, plus) => format!("c{column} + {plus}"),
    }
}

fn joined(parts: impl Iterator<Item = String>, between: &str) -> String {
    parts.collect::<Vec<_>>().join(between)
}
