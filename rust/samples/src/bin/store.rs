//! Prints a script for SQLite that makes random changes to random contents and holds what becomes of them
//! against the definitions over contents: `store [CASES [SEED]]`. The script prints a line for each case that
//! differs, and in the end one with counts.

use oracle::contents::{after, list, Contents};
use oracle::encode;
use oracle::rules::question::*;
use samples::{hex, sql, tiny, tiny_shift, Chance};

/// Beside the tables of a case: the cases, in what SQLite and the oracle differ, and what was seen to happen,
/// so that a run shows whether it came to each rule.
const START: &str = "BEGIN;
CREATE TABLE cases (number INTEGER, question TEXT);
CREATE TABLE differing (number INTEGER, what TEXT);
CREATE TABLE seen (number INTEGER, what TEXT);";

const END: &str = "SELECT 'case ' || number || ' differs in ' || group_concat(what, ', ') || ': ' || question
  FROM differing JOIN cases USING (number) GROUP BY number;
SELECT (SELECT count(*) FROM cases) || ' cases, '
  || (SELECT count(DISTINCT number) FROM differing) || ' differ; rows replaced in '
  || count(*) FILTER (WHERE what = 'replaced') || ', rows retired in '
  || count(*) FILTER (WHERE what = 'retired') || ', rows kept out of range in '
  || count(*) FILTER (WHERE what = 'kept') || ', rows made equal in '
  || count(*) FILTER (WHERE what = 'equal') || ', another list in '
  || count(*) FILTER (WHERE what = 'another') FROM seen;
COMMIT;";

fn main() {
    let numbers: Result<Vec<u64>, _> = std::env::args().skip(1).map(|word| word.parse()).collect();
    let (cases, seed) = match numbers.as_deref() {
        Ok([]) => (2000, 1),
        Ok([cases]) => (*cases, 1),
        Ok([cases, seed]) => (*cases, *seed),
        _ => {
            eprintln!("usage: store [CASES [SEED]]");
            std::process::exit(2)
        }
    };
    println!("{START}");
    for number in 0..cases {
        // a seed for each case: it stays the same whatever the others are
        let mut chance = Chance::new(seed.wrapping_mul(1_000_000_007).wrapping_add(number));
        let question = drawn(&mut chance);
        let contents = filled(&mut chance, &question);
        case(number, &question, &contents);
    }
    println!("{END}");
}

/// Mostly a modify: in all else the versions are one.
fn drawn(chance: &mut Chance) -> Question {
    loop {
        let question = match chance.below(8) {
            0..=1 => tiny_shift(chance),
            2..=4 => tiny(chance),
            _ => samples::question(chance),
        };
        if matches!(question.change, Change::Modify(..)) || chance.once_in(6) {
            return question;
        }
    }
}

/// Some rows for each table, the most for the changed one; now and then none.
fn filled(chance: &mut Chance, question: &Question) -> Contents {
    let mut contents = Contents::new();
    for table in 0..question.widths.len() {
        let most = if table == question.changed { 8 } else { 3 };
        let count = if chance.once_in(12) { 0 } else { 1 + chance.below(most) };
        let columns = &question.columns[question.columns_of(table)];
        let mut row = || columns.iter().map(|column| value(chance, column)).collect();
        contents.push((0..count).map(|_| row()).collect());
    }
    contents
}

/// A value in range, often an end: from there a new value is soon out of range.
fn value(chance: &mut Chance, column: &Column) -> i32 {
    match chance.below(4) {
        0 => chance.among(&[column.lo, column.hi]),
        _ => chance.between(column.lo, column.hi),
    }
}

/// The list before the change, the list after it and the contents after it, by SQLite and by the oracle.
fn case(number: u64, question: &Question, old: &Contents) {
    let note = |table: &str, what: &str, test: &str| {
        println!("INSERT INTO {table} SELECT {number}, '{what}' WHERE {test};");
    };
    let new = after(question, old);
    let lists = [old, &new].map(|contents| list(question, contents));
    let width = question.columns.iter().filter(|column| column.visible).count();
    println!("INSERT INTO cases VALUES ({number}, '{}');", hex(&encode(question)));
    println!("{}\nCREATE VIEW list AS {};", sql::tables(question, old), sql::list(question));
    note("differing", "the list before", &sql::differs("list", width, &lists[0]));
    if let Some([in_range, out]) = sql::selects(question) {
        note("seen", "replaced", &in_range);
        note("seen", if question.version == 1 { "kept" } else { "retired" }, &out);
    }
    println!("{}", sql::change(question));
    note("seen", "equal", &sql::repeats(question.changed));
    note("differing", "the list after", &sql::differs("list", width, &lists[1]));
    for (table, rows) in new.iter().enumerate() {
        let name = format!("t{table}");
        note("differing", &name, &sql::differs(&name, question.widths[table], rows));
    }
    if lists[0] != lists[1] {
        note("seen", "another", "1");
    }
    println!("DROP VIEW list; {}", sql::no_tables(question));
}
