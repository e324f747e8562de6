//! The cases and bytes of docs/FORMAT.md, section 9, and rooms.

use oracle::rules::sheet::values_in;
use oracle::rules::trouble::trouble;
use oracle::{check, encode, read, verdict, write, Question, Refusal, Verdict};
use samples::examples::{shortcuts, twelve, twelve_of_version_2, Example};
use samples::recorded::calls;
use samples::{deepest, hex};

/// The twelve cases in version 1, then in version 2.
fn cases() -> impl Iterator<Item = Example> {
    twelve().into_iter().chain(twelve_of_version_2())
}

fn case(name: &str) -> Vec<u8> {
    let found = cases().find(|example| example.name == name);
    encode(&found.expect("one of twelve").question)
}

fn word(question: &[u8], asked: u8) -> &'static str {
    verdict(asked, question).expect("a question").word()
}

fn sheet(question: &[u8], asked: u8) -> Vec<u8> {
    let mut room = vec![0; 32_768];
    let (_, length) = write(asked, question, &mut room).expect("a sheet");
    room.truncate(length);
    room
}

fn rows(name: &str, asked: u8) -> Vec<i32> {
    values_in(&sheet(&case(name), asked))
}

#[test]
fn twelve_verdicts() {
    for example in cases() {
        let bytes = encode(&example.question);
        assert_eq!(read(&bytes), Ok(example.question.clone()));
        let said = [1, 2].map(|asked| word(&bytes, asked)).join("/");
        assert_eq!(said, example.right, "case {}", example.name);
    }
}

#[test]
fn twelve_witnesses() {
    assert_eq!(rows("b", 1), [3, 10, 9, 3]);
    assert_eq!(rows("e", 1), [9, 10, 9, 9]);
    assert_eq!(rows("e", 2), [9, 10, 9, 9, 9, 30, 9, 9]);
    assert_eq!(rows("i", 1), [9, 9, 9, 9]);
    assert_eq!(rows("j", 1), [9, 17, 9, 9]);
    assert_eq!(rows("j", 2), [9, 30, 9, 9, 9, 17, 9, 9]);
    assert_eq!(rows("h, version 2", 1), [9, 30, 9, 9]);
    assert_eq!(rows("h, version 2", 2), [9, 25, 9, 9, 9, 30, 9, 9]);
    assert_eq!(rows("k, version 2", 1), [9, 30, 9, 9]);
}

/// The recorded calls on case a are on the question that stands here as text.
#[test]
fn case_a_in_bytes() {
    let a = case("a");
    assert_eq!(a.len(), 73);
    assert_eq!(calls().next().expect("a call").call, format!("verdict 1 {}", hex(&a)));
    assert_eq!([1, 2].map(|asked| sheet(&a, asked).len()), [16, 16]);
}

#[test]
fn shortcuts_that_are_wrong() {
    for example in shortcuts() {
        let said = [1, 2].map(|asked| word(&encode(&example.question), asked)).join("/");
        assert_eq!(said, example.right, "{}", example.name);
    }
}

#[test]
fn asked_comes_first() {
    for asked in (0..=255).filter(|asked| ![1, 2].contains(asked)) {
        let refused = Refusal { number: 20, place: 0 };
        let mut room = [5; 9];
        assert_eq!(verdict(asked, &[]), Err(refused));
        assert_eq!(write(asked, &case("a"), &mut room), Err(refused));
        assert_eq!(check(asked, &[], &[]), Err(refused));
        assert_eq!(room, [5; 9]);
    }
}

#[test]
fn rooms_of_every_length() {
    for asked in [1, 2] {
        for example in cases() {
            let bytes = encode(&example.question);
            let whole = sheet(&bytes, asked);
            for length in 0..whole.len() + 5 {
                let mut room = vec![0xa5; length];
                let written = write(asked, &bytes, &mut room);
                if length < whole.len() {
                    assert_eq!(written, Err(Refusal { number: 21, place: 0 }));
                    assert!(room.iter().all(|&byte| byte == 0));
                } else {
                    assert_eq!(written.map(|(_, length)| length), Ok(whole.len()));
                    let (front, back) = room.split_at(whole.len());
                    assert!(front == whole && back.iter().all(|&byte| byte == 0));
                }
            }
        }
    }
}

/// Eight columns make 120 places at most, and twelve 144, in either version: no question has a longer path.
#[test]
fn a_path_of_144_decisions() {
    for (version, columns, most) in [(1, 8, 120), (1, 12, 144), (2, 8, 120), (2, 12, 144)] {
        let question = Question { version, ..deepest(columns) };
        let places = trouble(&question, 2).into_iter().map(|formula| formula.places.len());
        assert_eq!(places.max(), Some(most));
        let bytes = encode(&question);
        let sheet = sheet(&bytes, 2);
        let branches = sheet[7..].windows(most).any(|run| run.iter().all(|&node| node == 3));
        assert!(branches && check(2, &bytes, &sheet) == Ok(Verdict::Yes));
    }
}
