//! The library on the versions of a question.

use diff::{library, on_promised_stack};
use samples::recorded::Recorded;
use samples::versions;

fn hold(calls: &[Recorded]) {
    on_promised_stack(|| calls.iter().for_each(|call| call.hold(&library::ROUTINES)));
}

#[test]
fn other_versions_are_refused() {
    versions::refused().iter().for_each(|ask| hold(&ask.calls()));
}

#[test]
fn case_k_retires_every_listed_row() {
    hold(&versions::case_k().calls());
}

#[test]
fn a_modify_that_keeps_all() {
    hold(&versions::kept().calls());
}

#[test]
fn sheets_of_the_other_version() {
    hold(&versions::crossed());
}

#[test]
fn a_second_row_out_of_range() {
    hold(&versions::second_row_out_of_range());
}
