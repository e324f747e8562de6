//! The library at the limits and one beyond them.

use diff::{library, on_promised_stack};
use samples::limits;
use samples::recorded::Recorded;

fn hold(calls: Vec<Recorded>) {
    on_promised_stack(|| calls.iter().for_each(|call| call.hold(&library::ROUTINES)));
}

#[test]
fn six_tables_and_no_seventh() {
    hold(limits::tables());
}

#[test]
fn twelve_columns_and_no_thirteenth() {
    hold(limits::columns());
}

#[test]
fn cycles_of_25_vertices_and_none_of_26() {
    hold(limits::cycle_counts());
}

#[test]
fn vertex_24_and_no_25() {
    hold(limits::vertices());
}

#[test]
fn a_ring_of_twelve_columns() {
    hold(limits::longest_ring());
}

#[test]
fn a_question_of_369_bytes() {
    hold(limits::longest_question());
}

#[test]
fn a_no_sheet_of_104_bytes() {
    hold(limits::longest_no_sheet());
}
