//! Verdicts and the sheets that show them.

use super::facts::Solved;
use super::formula::Formula;
use super::question::Question;
use super::search::Search;
use super::trees::{first_open_leaf, grow, Page, Stop};
use super::trouble::trouble;

/// The answer to what was asked.
#[derive(Clone, Copy, Debug, PartialEq, Eq, Hash, PartialOrd, Ord)]
pub enum Verdict {
    /// Irrelevant, or computable.
    Yes,
    /// Not so.
    No,
}

impl Verdict {
    /// As a word.
    pub fn word(self) -> &'static str {
        match self {
            Verdict::Yes => "yes",
            Verdict::No => "no",
        }
    }
}

/// The mark and version that open a sheet.
pub const OPENING: [u8; 5] = *b"VUS\x01\x00";

/// A worked out question.
pub struct Worked {
    /// The verdict.
    pub verdict: Verdict,
    /// The sheet's bytes, as many as there is room for.
    pub bytes: Vec<u8>,
    /// Whether the sheet has no further byte.
    pub whole: bool,
    /// How many nodes those bytes hold; the rows of a no hold none.
    pub nodes: u64,
}

/// The number of the first formula that is open; nothing if all fail on all rows in range.
pub fn first_open(formulas: &[Formula]) -> Option<usize> {
    formulas.iter().position(|formula| Search::new(formula).solve(&[]).is_some())
}

/// The verdict alone.
pub fn judge(question: &Question, asked: u8) -> Verdict {
    match first_open(&trouble(question, asked)) {
        None => Verdict::Yes,
        Some(_) => Verdict::No,
    }
}

/// Works out a question and its sheet, up to the first byte that finds no room.
pub fn work(question: &Question, asked: u8, room: usize) -> Worked {
    let formulas = trouble(question, asked);
    let mut page = Page::new(room);
    let open = first_open(&formulas);
    let verdict = if open.is_none() { Verdict::Yes } else { Verdict::No };
    let put = open_sheet(&mut page, asked, verdict).and_then(|()| match open {
        None => formulas.iter().try_for_each(|formula| grow(formula, &mut page)),
        Some(number) => show(question, number, &formulas[number], &mut page),
    });
    let whole = match put {
        Ok(()) => true,
        Err(Stop::Full) => false,
        Err(Stop::Open(_)) => panic!("the verdict is yes, and a leaf is open"),
    };
    Worked { verdict, bytes: page.bytes, whole, nodes: page.nodes }
}

fn open_sheet(page: &mut Page, asked: u8, verdict: Verdict) -> Result<(), Stop> {
    page.put(&OPENING)?;
    page.put(&[asked, verdict as u8])
}

/// The number of the open formula, and the rows of the greatest solution at its first open leaf.
fn show(question: &Question, number: usize, formula: &Formula, page: &mut Page) -> Result<(), Stop> {
    page.put(&[number as u8])?;
    let facts = first_open_leaf(formula).expect("the formula is open");
    for row in 0..=usize::from(formula.two) {
        for value in row_of(question, formula, &facts, row) {
            let value = i32::try_from(value).expect("a value in its column's range");
            page.put(&value.to_le_bytes())?;
        }
    }
    Ok(())
}

/// The values in a no sheet, rows one after another.
pub fn values_in(sheet: &[u8]) -> Vec<i32> {
    let number = |four: &[u8]| i32::from_le_bytes(four.try_into().expect("four bytes"));
    sheet[OPENING.len() + 3..].chunks(4).map(number).collect()
}

fn row_of(question: &Question, formula: &Formula, facts: &Solved, row: usize) -> Vec<i64> {
    let count = question.columns.len();
    let mut values = Vec::new();
    for (i, column) in question.columns.iter().enumerate() {
        let shared = row == 0 || column.visible;
        values.push(facts.greatest(if shared { 1 + i } else { 1 + count + i }));
    }
    if let Some(inserted) = &formula.inserted {
        for (column, value) in question.changed_columns().zip(inserted) {
            values[column] = i64::from(*value);
        }
    }
    values
}
