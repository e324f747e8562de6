//! The library and the oracle on the same seeded questions, sheets and rooms.

use diff::comparison::{accepted, brute, round, Tally};
use diff::{library, on_promised_stack, rounds};
use oracle::rules::question::MOST_COLUMNS;
use oracle::{encode, Question, Verdict};
use samples::examples::{published, twelve, twelve_of_version_2};
use samples::{deepest, Chance};

/// The most room for a sheet: longer ones are compared as far as they fit.
const MOST_ROOM: usize = 2_048;

fn tallied(seed: u64, count: u64) -> Tally {
    let mut chance = Chance::new(seed);
    let mut tally = Tally::default();
    on_promised_stack(|| {
        for at in 0..count {
            if let Err(difference) = round(&mut chance, MOST_ROOM, &mut tally) {
                panic!("seed {seed}, round {at}: {difference}");
            }
        }
    });
    tally
}

/// Two seeds, so that two cores share the work.
#[test]
fn ten_thousand_questions() {
    let count = rounds(10_000);
    let tally = tallied(11, count);
    for number in (0..=9).chain(11..=16).chain([20, 21]) {
        assert!(tally.answers.get(&number) > Some(&(count / 1_000)), "number {number}: {:?}", tally.answers);
    }
    assert!((count / 100..count / 10).contains(&tally.too_long), "{}", tally.too_long);
}

#[test]
fn ten_thousand_more() {
    assert_eq!(tallied(12, rounds(10_000)).questions, rounds(10_000));
}

#[test]
fn small_contents() {
    let mut chance = Chance::new(13);
    let mut tally = Tally::default();
    for at in 0..rounds(3_000) {
        if let Err(difference) = brute(&mut chance, &mut tally) {
            panic!("round {at}: {difference}");
        }
    }
}

/// Compares all about a question, and gives the library's verdicts.
fn whole(name: &str, question: &Question) -> String {
    let mut chance = Chance::new(14);
    let mut tally = Tally::default();
    if let Err(difference) = accepted(&mut chance, question, usize::MAX, &mut tally) {
        panic!("{name}: {difference}");
    }
    let said =
        [1, 2].map(|asked| library::verdict(asked, &encode(question)).map_or("refused", Verdict::word));
    said.join("/")
}

#[test]
fn cases_and_published_examples() {
    on_promised_stack(|| {
        for example in [twelve(), twelve_of_version_2(), published()].into_iter().flatten() {
            assert_eq!(whole(&example.name, &example.question), example.right, "{}", example.name);
        }
    });
}

/// A path of 144 decisions.
#[test]
fn the_deepest_tree() {
    on_promised_stack(|| assert_eq!(whole("deepest", &deepest(MOST_COLUMNS)), "yes/yes"));
}
