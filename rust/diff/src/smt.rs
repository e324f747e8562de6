//! Formulas as SMT-LIB, for a solver to compare with.

use oracle::rules::formula::{Formula, Part, Place};
use std::fmt::Write;

/// One formula: satisfiable exactly if it is open.
pub fn script(formula: &Formula) -> String {
    let mut text = String::from("(push)\n");
    for vertex in &formula.vertices {
        let (name, lo, hi) = (vertex.number, number(vertex.lo.into()), number(vertex.hi.into()));
        let _ = writeln!(text, "(declare-const x{name} Int)(assert (<= {lo} x{name} {hi}))");
    }
    let _ = writeln!(text, "(assert {})", part(formula, &formula.whole));
    text + "(check-sat)\n(pop)\n"
}

fn part(formula: &Formula, whole: &Part) -> String {
    let joined = |word: &str, parts: &[Part], none: &str| match parts {
        [] => none.to_string(),
        _ => {
            let parts: Vec<String> = parts.iter().map(|inner| part(formula, inner)).collect();
            format!("({word} {})", parts.join(" "))
        }
    };
    match whole {
        Part::Place(at) => place(formula.places[*at]),
        Part::All(parts) => joined("and", parts, "true"),
        Part::Any(parts) => joined("or", parts, "false"),
        Part::Not(inner) => format!("(not {})", part(formula, inner)),
    }
}

fn place(Place { a, b, k }: Place) -> String {
    let below = number(k);
    match (a, b) {
        (0, 0) => format!("(<= 0 {below})"),
        (a, 0) => format!("(<= x{a} {below})"),
        (0, b) => format!("(>= x{b} {})", number(-k)),
        (a, b) => format!("(<= (- x{a} x{b}) {below})"),
    }
}

fn number(value: i64) -> String {
    if value < 0 {
        format!("(- {})", -value)
    } else {
        value.to_string()
    }
}
