//! The oracle at the limits and one beyond them, and that the seeded questions come there.

use oracle::rules::trouble::trouble;
use oracle::Question;
use samples::recorded::{Recorded, ORACLE};
use samples::{hard, limits, question, Chance};

fn hold(calls: Vec<Recorded>) {
    calls.iter().for_each(|call| call.hold(&ORACLE));
}

#[test]
fn six_tables_and_no_seventh() {
    hold(limits::tables());
}

#[test]
fn twelve_columns_and_no_thirteenth() {
    hold(limits::columns());
}

#[test]
fn cycles_of_25_vertices_and_none_of_26() {
    hold(limits::cycle_counts());
}

#[test]
fn vertex_24_and_no_25() {
    hold(limits::vertices());
}

#[test]
fn a_ring_of_twelve_columns() {
    hold(limits::longest_ring());
}

#[test]
fn a_question_of_369_bytes() {
    hold(limits::longest_question());
}

#[test]
fn a_no_sheet_of_104_bytes() {
    hold(limits::longest_no_sheet());
}

/// Vertices of the largest formula for asked 2.
fn vertices(question: &Question) -> usize {
    let formulas = trouble(question, 2).into_iter();
    formulas.map(|formula| 1 + formula.vertices.len()).max().unwrap_or(1)
}

/// Of 10,000 questions, how many have the most tables, the most columns, more vertices than eight columns
/// can make, and the most: one column is visible, so one vertex is lacking.
fn reached(make: fn(&mut Chance) -> Question) -> [usize; 4] {
    let mut chance = Chance::new(41);
    let mut counts = [0; 4];
    for _ in 0..10_000 {
        let question = make(&mut chance);
        let vertices = vertices(&question);
        let has = [question.widths.len() == 6, question.columns.len() == 12, vertices > 17, vertices == 24];
        counts.iter_mut().zip(has).for_each(|(count, has)| *count += usize::from(has));
    }
    counts
}

#[test]
fn seeded_questions_reach_the_limits() {
    let [tables, columns, many, most] = reached(question);
    assert!(
        tables > 1_500 && columns > 900 && many > 1_000 && most > 30,
        "{:?}",
        [tables, columns, many, most]
    );
    let [_, columns, many, most] = reached(hard);
    assert!(columns > 2_500 && many > 2_500 && most > 1_500, "{:?}", [columns, many, most]);
}
