//! The published examples: our verdicts, and a second opinion on bytes, lengths and rows.

use oracle::rules::sheet::{values_in, work};
use oracle::{check, encode, verdict, Verdict};
use samples::examples::{cases, load, published, Example};
use samples::hex;
use samples::recorded::PUBLISHED;

/// As `yes 23`, or `no 32 f0 9,10,9,9 / 9,30,9,9`.
fn described(example: &Example, asked: u8) -> String {
    let worked = work(&example.question, asked, usize::MAX);
    let mut text = format!("{} {}", worked.verdict.word(), worked.bytes.len());
    if worked.verdict == Verdict::No {
        let values: Vec<String> = values_in(&worked.bytes).iter().map(i32::to_string).collect();
        let rows = values.chunks(example.question.columns.len()).map(|row| row.join(","));
        let rows = rows.collect::<Vec<String>>().join(" / ");
        text += &format!(" f{} {rows}", worked.bytes[7]);
    }
    text
}

#[test]
fn verdicts_are_right() {
    for example in published() {
        let bytes = encode(&example.question);
        let said = [1, 2].map(|asked| verdict(asked, &bytes).expect("a question").word());
        assert_eq!(said.join("/"), example.right, "{}", example.name);
    }
}

#[test]
fn only_example_4_5_differs() {
    let all = published();
    let differing: Vec<&str> = all.iter().filter(|e| e.differs()).map(|e| e.name.as_str()).collect();
    assert_eq!(differing, ["000-4.5"]);
    let silent = |e: &&Example| e.report == "-/-" || e.differs();
    assert!(all.iter().filter(silent).all(|e| !e.why.is_empty()));
}

#[test]
fn second_opinion() {
    let all = published();
    for [name, question, irrelevant, computable] in PUBLISHED.lines() {
        let example = all.iter().find(|e| e.name == name).expect(name);
        assert_eq!(hex(&encode(&example.question)), question, "{name}");
        assert_eq!(described(example, 1), irrelevant, "{name}");
        assert_eq!(described(example, 2), computable, "{name}");
    }
}

#[test]
fn appendix_b() {
    let all = load();
    let count = |star: bool| all.iter().filter(|e| e.name.ends_with('*') == star).count();
    assert_eq!((count(false), count(true)), (35, 32));
    let longest = all.iter().find(|e| e.name == "U11 PartOrder*").expect("U11");
    let worked = work(&longest.question, 2, usize::MAX);
    assert_eq!((worked.bytes.len(), worked.nodes), (2_632, 1_470));
}

/// Section 3.4's cycle 0, L, K stands in the sheet of the row (14,32).
#[test]
fn published_cycle() {
    let sheet = [0x56, 0x55, 0x53, 1, 0, 1, 0, 3, 3, 3, 3, 3, 2, 3, 0, 5, 4, 1, 1, 1, 1, 1];
    let all = published();
    let example = all.iter().find(|e| e.name == "002-3.5 ins 14,32").expect("the row");
    let worked = work(&example.question, 1, usize::MAX);
    assert_eq!(worked.bytes, sheet);
    assert_eq!(check(1, &encode(&example.question), &sheet), Ok(Verdict::Yes));
}

/// The table in the notes is what `questions table` prints.
#[test]
fn the_notes_show_every_example() {
    let notes = include_str!("../../../docs/notes/published.md");
    let (_, table) = notes.split_once("|---|---|---|---|\n").expect("a table");
    let rows: Vec<&str> = table.lines().collect();
    let all = published();
    assert_eq!(rows.len(), all.len());
    for (row, example) in rows.iter().zip(&all) {
        assert_eq!(*row, example.row());
    }
}

/// The program `published` reads the same examples, in an order of its own.
#[test]
fn the_program_reads_every_example() {
    let mut lines = cases(include_str!("../../../crates/published/stdin"));
    let mut ours: Vec<String> = published().iter().map(Example::line).collect();
    lines.sort_unstable();
    ours.sort_unstable();
    assert_eq!(lines.len(), ours.len());
    for (line, example) in lines.iter().zip(&ours) {
        assert_eq!(line, example);
    }
}
