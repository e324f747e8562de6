//! z3 on the formulas of a load, as another program to compare times with.

use crate::load::{Asked, Load};
use oracle::Verdict;
use samples::hex;
use std::fs::read_to_string;
use std::io::{Read, Write};
use std::process::{Command, Stdio};

/// How many seconds are measured at least, and how many runs at most.
const ENOUGH: (f64, u32) = (2.0, 10);

/// z3's seconds a verdict: those of a process with the whole load, less those of one with nothing to
/// do. Nothing if z3 isn't installed; a wrong answer stops the run.
pub fn mean(load: &Load) -> Option<f64> {
    let script: String = load.questions.iter().map(|asked| asked.script.as_str()).collect();
    let (answers, _) = run(&script)?;
    hold(load, &answers);
    let seconds = mean_of("", &script)?.max(1e-6);
    Some(seconds / load.questions.len() as f64)
}

/// The mean of enough runs with the script, less that of as many with the idle one.
fn mean_of(idle: &str, script: &str) -> Option<f64> {
    let (mut total, mut less, mut runs) = (0.0, 0.0, 0);
    while total < ENOUGH.0 && runs < ENOUGH.1 {
        total += run(script)?.1;
        less += run(idle)?.1;
        runs += 1;
    }
    Some((total - less) / f64::from(runs))
}

/// z3's answers must be right: only a no has an open formula, its last.
fn hold(load: &Load, answers: &str) {
    let mut answers = answers.lines();
    for asked in &load.questions {
        let lines: Vec<&str> = answers.by_ref().take(asked.formulas).collect();
        let right = (1..=asked.formulas).map(|at| {
            let open = asked.worked.verdict == Verdict::No && at == asked.formulas;
            ["unsat", "sat"][usize::from(open)]
        });
        let Asked { bytes, asked, .. } = asked;
        assert!(lines.into_iter().eq(right), "z3 differs: asked {asked}, question {}", hex(bytes));
    }
}

/// z3's answers and processor seconds.
fn run(script: &str) -> Option<(String, f64)> {
    let mut z3 = Command::new("z3");
    z3.args(["-smt2", "-in"]).stdin(Stdio::piped()).stdout(Stdio::piped());
    let mut child = z3.spawn().ok()?;
    let (mut input, mut output) = (child.stdin.take()?, child.stdout.take()?);
    let script = script.to_string();
    let feeder = std::thread::spawn(move || input.write_all(script.as_bytes()));
    let mut answers = String::new();
    output.read_to_string(&mut answers).ok()?;
    feeder.join().ok()?.ok()?;
    // it has ended but not been waited for: the kernel still knows its time
    let folder = format!("/proc/{}", child.id());
    while !read_to_string(format!("{folder}/stat")).ok()?.contains(") Z ") {
        std::thread::yield_now();
    }
    let seconds = clock::used(&folder);
    child.wait().ok()?;
    Some((answers, seconds))
}
