//! Times the library's routines on questions that grow, so that what a fact and a cycle cost can be
//! seen by the number of vertices: `pace`.
//!
//! The list's condition is a chain x0 < x1 < .. over columns with the widest ranges; what closes it
//! makes a cycle below zero. Only the first column is visible, so asked 2 has nearly twice the vertices.

use diff::library;
use diff::times::mean;
use oracle::rules::question::*;
use oracle::rules::trouble::trouble;
use oracle::{encode, Verdict};

/// More than any of these sheets needs.
const ROOM: usize = 256;

/// How many calls are timed together: the kernel's clock is read between.
const TOGETHER: u32 = 1_000;

fn main() {
    library::warn_of_emulation();
    println!(
        "Times in ns; 'longer cycle': what the sheet takes more if the cycle goes along the whole chain.\n"
    );
    println!("| columns | asked | vertices | verdict | a comparison more | sheet | longer cycle | check |");
    println!("|---|---|---|---|---|---|---|---|");
    for (columns, asked) in [(4, 1), (8, 1), (12, 1), (4, 2), (8, 2), (12, 2)] {
        println!("{}", row(columns, asked));
    }
}

fn row(columns: usize, asked: u8) -> String {
    let length = columns.min(MOST_COMPARISONS);
    let (short, long) = (chain(columns, 2), chain(columns, length));
    let [least, most] = [&short, &long].map(|open| verdict(asked, open, Verdict::No));
    let more = (most - least) / (length - 2) as f64;
    let (ring, early) = (closed(&long, length - 1), closed(&long, 1));
    let sheet = write(asked, &ring);
    let search = sheet - write(asked, &early);
    let vertices = trouble(&ring, asked).iter().map(|formula| 1 + formula.vertices.len()).max();
    let vertices = vertices.unwrap_or(1);
    let verdict = verdict(asked, &ring, Verdict::Yes);
    let check = check(asked, &ring);
    format!("| {columns} | {asked} | {vertices} | {verdict:.0} | {more:.0} | {sheet:.0} | {search:.0} | {check:.0} |")
}

/// A delete, where the list's condition is a chain of so many columns.
fn chain(columns: usize, length: usize) -> Question {
    let column = |at| Column { lo: -MOST_VALUE, hi: MOST_VALUE, visible: at == 0 };
    let mut condition = Vec::new();
    for at in 1..length {
        condition.push(Token::Compare(Op::Less, at - 1, Side::Column(at, 0)));
        condition.extend((at > 1).then_some(Token::And));
    }
    Question {
        version: 1,
        widths: vec![columns],
        changed: 0,
        columns: (0..columns).map(column).collect(),
        condition,
        change: Change::Delete(vec![Token::Compare(Op::Less, 1, Side::Constant(5))]),
    }
}

/// The chain closed from this column back to the first.
fn closed(chain: &Question, from: usize) -> Question {
    let mut question = chain.clone();
    question.condition.push(Token::Compare(Op::Less, from, Side::Column(0, 0)));
    question.condition.push(Token::And);
    question
}

fn verdict(asked: u8, question: &Question, right: Verdict) -> f64 {
    let bytes = encode(question);
    nanoseconds(|| assert_eq!(library::verdict(asked, &bytes), Ok(right)))
}

fn write(asked: u8, question: &Question) -> f64 {
    let bytes = encode(question);
    let mut room = [0; ROOM];
    nanoseconds(|| assert!(library::write(asked, &bytes, &mut room).is_ok()))
}

fn check(asked: u8, question: &Question) -> f64 {
    let bytes = encode(question);
    let mut room = [0; ROOM];
    let (_, length) = library::write(asked, &bytes, &mut room).expect("a sheet");
    nanoseconds(|| assert!(library::check(asked, &bytes, &room[..length]).is_ok()))
}

/// Of one call.
fn nanoseconds(mut call: impl FnMut()) -> f64 {
    let seconds = mean(0.25, || (0..TOGETHER).for_each(|_| call()));
    seconds * 1e9 / f64::from(TOGETHER)
}
