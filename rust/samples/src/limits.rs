//! Calls at the limits and one beyond them. The answers are by hand, from the rules of docs/FORMAT.md under
//! six tables and twelve columns; a sheet or a place that is worked out says how.

use crate::hex;
use crate::recorded::Recorded;
use oracle::encode;
use oracle::rules::question::*;

pub(crate) const YES: &str = "0 0 0";
pub(crate) const NO: &str = "0 1 0";

/// The greatest value of every column; the least is 0.
const HIGH: i32 = 99;

/// Six tables are accepted and seven refused, at the table count; the last of six can be changed.
pub fn tables() -> Vec<Recorded> {
    let asked = |tables, changed| verdict(&Question { changed, ..plain(&vec![1; tables]) });
    let answers =
        [(0, 0, "4 255 5"), (5, 4, YES), (6, 0, YES), (6, 5, YES), (6, 6, "4 255 7"), (7, 0, "4 255 5")];
    answers.iter().map(|&(tables, changed, answer)| Recorded::new(asked(tables, changed), answer)).collect()
}

/// Twelve columns in all are accepted; the count that takes them to thirteen is refused, at its place: the
/// first is at 8. Columns are numbered up to 11.
pub fn columns() -> Vec<Recorded> {
    let counts: [(&[usize], &str); 9] = [
        (&[12], YES),
        (&[2, 2, 2, 2, 2, 2], YES),
        (&[1, 1, 1, 1, 1, 7], YES),
        (&[13], "4 255 8"),
        (&[12, 1], "4 255 9"),
        (&[6, 7], "4 255 9"),
        (&[2, 2, 2, 2, 2, 3], "4 255 13"),
        (&[8, 1, 1, 1, 1, 1], "4 255 13"),
        (&[9, 1, 1, 1, 1, 1], "4 255 12"),
    ];
    let mut all: Vec<_> =
        counts.iter().map(|&(widths, answer)| Recorded::new(verdict(&plain(widths)), answer)).collect();
    // the token count is at 9 + 12 * 9, the token after it, then operator, left and right
    for (left, right, answer) in [(11, 11, YES), (12, 0, "7 255 120"), (0, 12, "7 255 121")] {
        let condition = vec![Token::Compare(Op::Less, left, Side::Column(right, 0))];
        all.push(Recorded::new(verdict(&Question { condition, ..plain(&[12]) }), answer));
    }
    all
}

/// A cycle of 1 to 25 vertices passes if its sum is below zero, even if it goes round and round; any other
/// count is refused where it stands.
pub fn cycle_counts() -> Vec<Recorded> {
    // x < x, and every row is deleted: one place, and as true it is an edge from 1 to itself
    let question = deletion(1, &[(0, 0)], &[]);
    let sheet = |count: usize| [&[3, 2, count as u8][..], &vec![1; count], &[1]].concat();
    let answer = |count| if (1..=25).contains(&count) { YES } else { "14 255 9" };
    let mut all: Vec<_> =
        (0..=255).map(|count| Recorded::new(check(1, &question, &sheet(count)), answer(count))).collect();

    // five columns in a ring, five times round; a sixth time is too often
    let ring = deletion(5, &[(0, 1), (1, 2), (2, 3), (3, 4), (4, 0)], &[]);
    for (rounds, answer) in [(1, YES), (4, YES), (5, YES), (6, "14 255 13")] {
        let walk = [1, 5, 4, 3, 2].repeat(rounds);
        let sheet = [&[3, 3, 3, 3, 3, 2, walk.len() as u8][..], &walk, &[1; 5]].concat();
        all.push(Recorded::new(check(1, &ring, &sheet), answer));
    }

    // x ≤ x: the sum is zero, however long the walk
    let mut equal = question;
    equal.condition = vec![Token::Compare(Op::AtMost, 0, Side::Column(0, 0))];
    all.push(Recorded::new(check(1, &equal, &sheet(25)), "15 255 8"));
    all
}

/// Of twelve columns with the first visible, the second row's are the vertices 14 to 24: not 13, and not 25.
pub fn vertices() -> Vec<Recorded> {
    // delete where the last column is at least itself: D1, and not D2, which is an edge from 24 to itself
    let mut question = deletion(12, &[], &[]);
    question.change = Change::Delete(vec![Token::Compare(Op::AtLeast, 11, Side::Column(11, 0))]);
    let nodes = |vertex| [3, 3, 1, 2, 1, vertex, 1];
    let written = format!("0 0 14 {}", hex(&sheet(2, 0, &nodes(24))));
    let mut all = vec![Recorded::new(write(2, &question, 14), &written)];
    let answers = [(24, YES), (13, "14 255 12"), (25, "14 255 12"), (14, "15 255 10"), (0, "15 255 10")];
    for (vertex, answer) in answers {
        all.push(Recorded::new(check(2, &question, &nodes(vertex)), answer));
    }
    all
}

/// Twelve columns in a ring, by C and by the delete: the only cycle below zero has twelve edges.
pub fn longest_ring() -> Vec<Recorded> {
    let rising = |from: usize| -> Vec<_> { (from..from + 6).map(|at| (at, (at + 1) % 12)).collect() };
    let question = deletion(12, &rising(0), &rising(6));
    // x < y is an edge from y to x; from the first column, which is more than the last, down to the second
    let cycle = [1, 12, 11, 10, 9, 8, 7, 6, 5, 4, 3, 2];
    let nodes = [&[3; 12][..], &[2, 12], &cycle, &[1; 12]].concat();
    let written = format!("0 0 45 {}", hex(&sheet(1, 0, &nodes)));
    vec![Recorded::new(write(1, &question, 45), &written), Recorded::new(check(1, &question, &nodes), YES)]
}

/// The longest question has 369 bytes: 9, twelve columns of 9, a condition of 59, and four rows of 48 with
/// their count.
pub fn longest_question() -> Vec<Recorded> {
    // not x < x holds: every formula of asked 1 is open, and asked 2 has none
    let question = longest();
    let bytes = encode(&question);
    assert_eq!(bytes.len(), 369);
    let cut = hex(&bytes[..368]);
    vec![
        Recorded::new(verdict(&question), NO),
        Recorded::new(format!("verdict 2 {}", hex(&bytes)), YES),
        Recorded::new(format!("verdict 2 {cut}"), "1 255 365"),
        Recorded::new(format!("verdict 2 {}00", hex(&bytes)), "9 255 369"),
    ]
}

/// Four rows inserted into one table of twelve columns, with all the tokens that a condition may have: C is
/// not x < x.
pub fn longest() -> Question {
    let mut condition = less(&[(0, 0); 6]);
    condition.extend([Token::Not; 5]);
    Question { condition, change: Change::Insert(vec![vec![0; 12]; 4]), ..plain(&[12]) }
}

/// The longest no sheet has 104 bytes: 8, and two rows of twelve values.
pub fn longest_no_sheet() -> Vec<Recorded> {
    // rows go where the second column is at most 0: that it is in the first row, and all else is greatest
    let mut question = deletion(12, &[], &[]);
    question.change = Change::Delete(vec![Token::Compare(Op::AtMost, 1, Side::Constant(0))]);
    let mut values = [HIGH; 24];
    values[1] = 0;
    let values: Vec<u8> = values.iter().flat_map(|value| value.to_le_bytes()).collect();
    let rows = [&[0][..], &values].concat();
    let written = format!("0 1 104 {}", hex(&sheet(2, 1, &rows)));
    vec![
        Recorded::new(write(2, &question, 104), &written),
        Recorded::new(write(2, &question, 103), format!("21 255 0 {}", hex(&[0; 103]))),
    ]
}

/// The insert of no row, where all columns are visible and every full row is listed.
pub(crate) fn plain(widths: &[usize]) -> Question {
    Question {
        version: 1,
        widths: widths.to_vec(),
        changed: 0,
        columns: vec![Column { lo: 0, hi: HIGH, visible: true }; widths.iter().sum()],
        condition: Vec::new(),
        change: Change::Insert(Vec::new()),
    }
}

/// A delete from a table of so many columns, the first of them visible: C and D say of pairs of columns
/// that the one is less than the other.
fn deletion(columns: usize, c: &[(usize, usize)], d: &[(usize, usize)]) -> Question {
    let mut question = Question { condition: less(c), change: Change::Delete(less(d)), ..plain(&[columns]) };
    question.columns[1..].iter_mut().for_each(|column| column.visible = false);
    question
}

fn less(pairs: &[(usize, usize)]) -> Condition {
    let mut tokens = Vec::new();
    for (at, &(left, right)) in pairs.iter().enumerate() {
        tokens.push(Token::Compare(Op::Less, left, Side::Column(right, 0)));
        tokens.extend((at > 0).then_some(Token::And));
    }
    tokens
}

fn verdict(question: &Question) -> String {
    format!("verdict 1 {}", hex(&encode(question)))
}

fn write(asked: u8, question: &Question, room: usize) -> String {
    format!("write {asked} {} {room}", hex(&encode(question)))
}

/// The check of a yes sheet with these nodes.
fn check(asked: u8, question: &Question, nodes: &[u8]) -> String {
    format!("check {asked} {} {}", hex(&encode(question)), hex(&sheet(asked, 0, nodes)))
}

/// A sheet: mark, version, what is asked, the verdict byte, and what follows.
pub(crate) fn sheet(asked: u8, verdict: u8, rest: &[u8]) -> Vec<u8> {
    [b"VUS\x01\x00", &[asked, verdict][..], rest].concat()
}
