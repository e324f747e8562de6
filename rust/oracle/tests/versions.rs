//! The versions of a question.

use oracle::rules::question::{Change, VERSIONS};
use oracle::rules::sheet::work;
use oracle::{read, Question, Refusal};
use samples::recorded::{Ask, Recorded, ORACLE};
use samples::{hard, question, tiny, versions, Chance};

fn hold(calls: &[Recorded]) {
    calls.iter().for_each(|call| call.hold(&ORACLE));
}

#[test]
fn other_versions_are_refused() {
    versions::refused().iter().for_each(|ask| hold(&ask.calls()));
    let Ask { question: mut bytes, .. } = versions::case_k();
    for version in 0..=u16::MAX {
        bytes[3..5].copy_from_slice(&version.to_le_bytes());
        let said = read(&bytes).map(|question| question.version);
        let right = match VERSIONS.contains(&version) {
            true => Ok(version),
            false => Err(Refusal { number: 3, place: 3 }),
        };
        assert_eq!(said, right);
    }
}

#[test]
fn case_k_retires_every_listed_row() {
    hold(&versions::case_k().calls());
}

#[test]
fn a_modify_that_keeps_all() {
    hold(&versions::kept().calls());
}

#[test]
fn sheets_of_the_other_version() {
    hold(&versions::crossed());
}

#[test]
fn a_second_row_out_of_range() {
    hold(&versions::second_row_out_of_range());
}

/// Both sheets in version 1, then in version 2, as far as there is room.
fn sheets(question: &Question) -> [[Vec<u8>; 2]; 2] {
    VERSIONS.map(|version| {
        let question = Question { version, ..question.clone() };
        [1, 2].map(|asked| work(&question, asked, 2_048).bytes)
    })
}

#[test]
fn inserts_and_deletes_have_the_same_sheets_in_both() {
    let mut chance = Chance::new(51);
    let (mut same, mut others) = (0, 0);
    for _ in 0..3_000 {
        let question = question(&mut chance);
        let [one, two] = sheets(&question);
        if matches!(question.change, Change::Modify(..)) {
            others += usize::from(one != two);
        } else {
            assert_eq!(one, two, "{question:?}");
            same += 1;
        }
    }
    assert!(same > 1_500 && others > 500, "{same}, {others}");
}

/// Of 3,000 questions, how many are modifies of version 1, and of version 2.
fn modifies(make: fn(&mut Chance) -> Question) -> [usize; 2] {
    let mut chance = Chance::new(52);
    let mut counts = [0; 2];
    for _ in 0..3_000 {
        let question = make(&mut chance);
        let modify = matches!(question.change, Change::Modify(..));
        counts[usize::from(question.retires())] += usize::from(modify);
    }
    counts
}

#[test]
fn seeded_modifies_are_of_both() {
    for counts in [question, tiny, hard].map(modifies) {
        assert!(counts.iter().all(|&count| count > 400), "{counts:?}");
    }
}
