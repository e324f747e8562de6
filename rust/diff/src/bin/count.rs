//! Counts the instructions of the library's answers, which depend on nothing else that the machine does:
//! `count [WORD]`, with a word only the loads that have it in their names.
//!
//! valgrind's callgrind counts them, those inside the C function alone. It runs `count run`: this program,
//! which then answers once each call that comes on standard input.

use diff::library;
use diff::load::{loads, Asked, Load};
use samples::hex;
use samples::recorded::ASK_ROOM;
use std::hint::black_box;
use std::io::Write;
use std::process::{Command, Stdio};

fn main() {
    let word = std::env::args().nth(1).unwrap_or_default();
    match word.as_str() {
        "run" => run(),
        _ if library::EMULATED => library::warn_of_emulation(),
        _ => table(&word),
    }
}

fn run() {
    for call in std::io::stdin().lines() {
        black_box(library::ROUTINES.answer(&call.expect("a call")));
    }
}

fn table(word: &str) {
    println!("Instructions an answer; sheets in a room of {ASK_ROOM} bytes\n");
    println!("| load | verdicts | a verdict | a sheet | sheets to check | a check | a node checked |");
    println!("|---|---|---|---|---|---|---|");
    loads(word).iter().for_each(|load| println!("{}", row(load)));
}

fn row(load: &Load) -> String {
    let all: Vec<&Asked> = load.questions.iter().collect();
    let whole: Vec<&Asked> = all.iter().filter(|asked| asked.worked.whole).copied().collect();
    let nodes: u64 = whole.iter().map(|asked| asked.worked.nodes).sum();
    let start = |name: &str, asked: &Asked| format!("{name} {} {}", asked.asked, hex(&asked.bytes));
    let verdicts = counted("vu_verdict", &all, |asked| start("verdict", asked));
    let sheets = counted("vu_write", &all, |asked| format!("{} {ASK_ROOM}", start("write", asked)));
    let check = |asked: &Asked| format!("{} {}", start("check", asked), hex(&asked.worked.bytes));
    let checks = counted("vu_check", &whole, check);
    let [verdict, sheet] = [verdicts, sheets].map(|sum| sum / all.len() as u64);
    let [check, node] = [whole.len() as u64, nodes].map(|count| checks / count.max(1));
    format!("| {} | {} | {verdict} | {sheet} | {} | {check} | {node} |", load.name, all.len(), whole.len())
}

/// The instructions inside a C function, over one call for each of these.
fn counted(function: &str, all: &[&Asked], call: impl Fn(&Asked) -> String) -> u64 {
    let mut valgrind = Command::new("valgrind");
    valgrind.args(["--tool=callgrind", "--callgrind-out-file=/dev/null"]);
    valgrind.arg(format!("--toggle-collect={function}"));
    valgrind.arg(std::env::current_exe().expect("this program")).arg("run");
    let mut child = valgrind.stdin(Stdio::piped()).stderr(Stdio::piped()).spawn().expect("valgrind");
    let calls: String = all.iter().map(|asked| call(asked) + "\n").collect();
    child.stdin.take().expect("a pipe").write_all(calls.as_bytes()).expect("the calls are read");
    let output = child.wait_with_output().expect("valgrind ends");
    let said = String::from_utf8_lossy(&output.stderr);
    let count = said.lines().find_map(|line| line.split_once("Collected :"));
    count.and_then(|(_, count)| count.trim().parse().ok()).unwrap_or_else(|| panic!("{said}"))
}
