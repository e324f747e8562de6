//! Every recorded answer, room and sheet, byte for byte.

use oracle::read;
use samples::examples::cases;
use samples::recorded::{calls, ORACLE};
use samples::unhex;

/// What the program `refusals` reads: a label and a string of bytes a line.
const STRINGS: &str = include_str!("../../../crates/refusals/stdin");

/// What it prints: the answer and the label.
const ANSWERS: &str = include_str!("../../../crates/refusals/stdout");

#[test]
fn every_refusal() {
    let answered = |line: &&str| {
        let (label, hex) = line.split_once('\t').expect("a label");
        match read(&unhex(hex).expect("hexadecimal")) {
            Ok(_) => format!("good: {label}"),
            Err(refusal) => format!("{} {}: {label}", refusal.number, refusal.place),
        }
    };
    let answers: Vec<String> = cases(STRINGS).iter().map(answered).collect();
    assert_eq!(answers, ANSWERS.lines().collect::<Vec<&str>>());
}

#[test]
fn every_recorded_call() {
    calls().for_each(|call| call.hold(&ORACLE));
}
