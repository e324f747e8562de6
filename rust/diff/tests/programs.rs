//! The programs on the recorded questions, as processes of their own.

use diff::machine::command;
use oracle::encode;
use samples::recorded::{asks, hard_asks, Ask};
use samples::{hex, limits, versions};
use std::io::Write;
use std::path::{Path, PathBuf};
use std::process::Stdio;

/// A program's standard output, with some words and some input.
fn run(name: &str, words: &[&Path], input: &[u8]) -> String {
    let program = Path::new(env!("CARGO_MANIFEST_DIR")).join("../../target/bin").join(name);
    let mut command = command(&program);
    command.args(words).stdin(Stdio::piped()).stdout(Stdio::piped());
    let started = command.spawn();
    let mut child =
        started.unwrap_or_else(|error| panic!("{}: {error}; `make programs` builds it", program.display()));
    child.stdin.take().expect("a pipe").write_all(input).expect("the program reads all of it");
    let output = child.wait_with_output().expect("the program ends");
    String::from_utf8(output.stdout).expect("text")
}

#[test]
fn ask_answers_the_recorded_questions() {
    for Ask { question, printed, .. } in asks() {
        assert_eq!(run("ask", &[], &question), printed, "{}", hex(&question));
    }
}

/// Every twentieth one: among them verdicts of both sorts, and sheets with no room.
#[test]
fn ask_answers_hard_questions() {
    for Ask { question, printed, .. } in hard_asks().into_iter().step_by(20) {
        assert_eq!(run("ask", &[], &question), printed, "{}", hex(&question));
    }
}

/// Four rows of twelve columns: C holds of each, so asked 1 is a no of 8 bytes and twelve values; asked 2 has
/// no formula, so it is a yes of 7 bytes.
fn longest() -> Ask {
    let question = encode(&limits::longest());
    let printed = "irrelevant no 56\ncomputable yes 7\n".to_string();
    let no = [&b"VUS\x01\x00\x01\x01"[..], &[0; 49]].concat();
    Ask { question, printed, sheets: [Some(no), Some(b"VUS\x01\x00\x02\x00".to_vec())] }
}

#[test]
fn ask_reads_the_longest_question() {
    let Ask { mut question, printed, .. } = longest();
    assert_eq!(run("ask", &[], &question), printed);
    question.push(0);
    assert_eq!(run("ask", &[], &question), "refused 9 369\n");
}

#[test]
fn ask_goes_by_the_version() {
    for Ask { question, printed, .. } in versions::refused().into_iter().chain([versions::case_k()]) {
        assert_eq!(run("ask", &[], &question), printed, "{}", hex(&question));
    }
}

/// Every fourth one, the longest and one of version 2, through files.
#[test]
fn sheets_are_written_and_pass() {
    let folder = PathBuf::from(env!("CARGO_TARGET_TMPDIR"));
    let (asked_of, sheet_of) = (folder.join("question"), folder.join("sheet"));
    let more = [longest(), versions::case_k()];
    for Ask { question, printed, sheets } in asks().into_iter().step_by(4).chain(more) {
        for (at, word) in ["irrelevant", "computable"].iter().enumerate() {
            let Some(sheet) = &sheets[at] else { continue };
            std::fs::write(&asked_of, &question).expect("a file");
            let words = [asked_of.as_path(), Path::new(word), sheet_of.as_path()];
            let line = printed.lines().nth(at).expect("a line each");
            assert_eq!(run("write_sheet", &words, &[]), format!("{line}\n"));
            assert_eq!(std::fs::read(&sheet_of).expect("a sheet"), *sheet);
            let verdict = line.split(' ').nth(1).expect("a verdict");
            assert_eq!(
                run("check_sheet", &words, &[]).lines().next(),
                Some(format!("passes {verdict}").as_str())
            );
        }
    }
}
