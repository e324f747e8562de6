//! The checker: passes a sheet whose every leaf, branch, value and row holds.

use super::edges::Edges;
use super::facts::edge;
use super::formula::Formula;
use super::question::{Question, MOST_VERTICES};
use super::refusal::{refuse, Fields, Refusal};
use super::sheet::Verdict;
use super::trouble::trouble;

/// The verdict that the sheet shows, or its first fault (11 to 16) with its place.
pub fn check_sheet(question: &Question, asked: u8, sheet: &[u8]) -> Result<Verdict, Refusal> {
    let mut fields = Fields::new(sheet, 11);
    let mark = fields.take::<3>()?;
    fields.expect(mark == *b"VUS", 12)?;
    let version = fields.take::<2>()?;
    fields.expect(version == [1, 0], 13)?;
    fields.within(asked, asked, 14)?;
    let verdict = match fields.within(0, 1, 14)? {
        0 => Verdict::Yes,
        _ => Verdict::No,
    };
    let formulas = trouble(question, asked);
    match verdict {
        Verdict::Yes => check_trees(&formulas, &mut fields)?,
        Verdict::No => check_rows(question, &formulas, &mut fields)?,
    }
    if fields.at_end() {
        Ok(verdict)
    } else {
        refuse(16, 0)
    }
}

fn check_trees(formulas: &[Formula], fields: &mut Fields) -> Result<(), Refusal> {
    for formula in formulas {
        check_node(formula, &Edges::of_ranges(formula), &mut Vec::new(), fields)?;
    }
    Ok(())
}

/// One node with all that stands below it, the places decided so far and their edges given.
fn check_node(
    formula: &Formula,
    edges: &Edges,
    decided: &mut Vec<bool>,
    fields: &mut Fields,
) -> Result<(), Refusal> {
    let node = fields.within(1, 3, 14)?;
    let start = fields.start;
    let place = formula.places.get(decided.len());
    let holds = match node {
        1 => formula.whole.known(decided) == Some(false),
        2 => check_cycle(formula, edges, fields)?,
        _ => place.is_some(),
    };
    if !holds {
        return refuse(15, start);
    }
    if let (3, Some(place)) = (node, place) {
        for truth in [true, false] {
            let (from, to, weight) = edge(*place, truth);
            let mut edges = edges.clone();
            edges.add(from, to, weight);
            decided.push(truth);
            check_node(formula, &edges, decided, fields)?;
            decided.pop();
        }
    }
    Ok(())
}

/// Whether the cycle that follows closes below zero.
fn check_cycle(formula: &Formula, edges: &Edges, fields: &mut Fields) -> Result<bool, Refusal> {
    let count = fields.within(1, MOST_VERTICES as u8, 14)?;
    let mut vertices = Vec::new();
    for _ in 0..count {
        let vertex = usize::from(fields.byte()?);
        fields.expect(formula.has(vertex), 14)?;
        vertices.push(vertex);
    }
    Ok(edges.round_trip(&vertices).is_some_and(|sum| sum < 0))
}

fn check_rows(question: &Question, formulas: &[Formula], fields: &mut Fields) -> Result<(), Refusal> {
    let number = usize::from(fields.byte()?);
    let start = fields.start;
    fields.expect(number < formulas.len(), 14)?;
    let formula = &formulas[number];
    let mut values = vec![0];
    for second in 0..=usize::from(formula.two) {
        for (i, column) in question.columns.iter().enumerate() {
            let value = fields.number()?;
            fields.expect((column.lo..=column.hi).contains(&value), 15)?;
            if let Some(fixed) = inserted_value(question, formula, i) {
                fields.expect(value == fixed, 15)?;
            }
            let unlike = second == 1 && column.visible && values[1 + i] != i64::from(value);
            fields.expect(!unlike, 15)?;
            values.push(i64::from(value));
        }
    }
    if formula.holds(|vertex| values[vertex]) {
        Ok(())
    } else {
        refuse(15, start)
    }
}

/// The inserted row's value for a column of the changed table.
fn inserted_value(question: &Question, formula: &Formula, column: usize) -> Option<i32> {
    let own = question.changed_columns();
    let row = formula.inserted.as_ref()?;
    own.contains(&column).then(|| row[column - own.start])
}
