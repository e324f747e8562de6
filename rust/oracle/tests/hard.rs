//! The search for a verdict against the trees, on hard questions and others.

use oracle::rules::facts::Solved;
use oracle::rules::question::MOST_VERTICES;
use oracle::rules::sheet::{judge, work};
use oracle::rules::trees::{first_open_leaf, grow, Page, Stop};
use oracle::rules::trouble::trouble;
use oracle::{encode, read, Question, Verdict};
use samples::{changed, hard, question, Chance};

const ROOM: usize = 4_096;

/// The verdict as the trees alone tell it, walked in order up to the first open leaf; nothing if they
/// don't fit the room. The way down to that leaf must end in the same values.
fn walked(question: &Question, asked: u8) -> Option<Verdict> {
    let mut page = Page::new(ROOM);
    for formula in trouble(question, asked) {
        match grow(&formula, &mut page) {
            Ok(()) => {}
            Err(Stop::Full) => return None,
            Err(Stop::Open(facts)) => {
                let leaf = first_open_leaf(&formula).expect("an open leaf");
                assert_eq!(values(&leaf), values(&facts), "{question:?}");
                return Some(Verdict::No);
            }
        }
    }
    Some(Verdict::Yes)
}

fn values(facts: &Solved) -> [i64; MOST_VERTICES] {
    std::array::from_fn(|vertex| facts.greatest(vertex))
}

#[test]
fn the_search_agrees_with_the_trees() {
    let mut chance = Chance::new(31);
    let mut counts = [0; 3];
    for at in 0..6_000 {
        let question = match at % 2 {
            0 => hard(&mut chance),
            _ => question(&mut chance),
        };
        for asked in [1, 2] {
            let said = judge(&question, asked);
            match walked(&question, asked) {
                None => counts[2] += 1,
                Some(verdict) => {
                    assert_eq!(said, verdict, "{question:?}");
                    counts[verdict as usize] += 1;
                }
            }
        }
    }
    assert!(counts.iter().all(|&count| count > 500), "{counts:?}");
}

#[test]
fn hard_questions_are_sound_and_stay_so() {
    let mut chance = Chance::new(32);
    for _ in 0..500 {
        let mut question = hard(&mut chance);
        for _ in 0..20 {
            assert_eq!(read(&encode(&question)).as_ref(), Ok(&question));
            question = changed(&mut chance, &question);
        }
    }
}

/// A search that splits cases before it looks would not come to the end of these.
#[test]
fn hard_questions_are_answered() {
    let mut chance = Chance::new(33);
    for _ in 0..1_000 {
        let question = hard(&mut chance);
        for asked in [1, 2] {
            assert_eq!(work(&question, asked, ROOM).verdict, judge(&question, asked));
        }
    }
}
