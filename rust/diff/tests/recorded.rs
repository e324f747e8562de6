//! The library on every recorded call: answers, rooms and sheets, byte for byte.

use diff::{library, on_promised_stack};
use samples::recorded::calls;

/// Every second call, from the first or the second on: so two cores share the work.
fn every_second(from: usize) {
    on_promised_stack(|| calls().skip(from).step_by(2).for_each(|call| call.hold(&library::ROUTINES)));
}

#[test]
fn recorded_calls() {
    every_second(0);
}

#[test]
fn more_recorded_calls() {
    every_second(1);
}
