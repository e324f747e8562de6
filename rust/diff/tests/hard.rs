//! The library beside the oracle on seeded questions that are hard for a search.

use diff::comparison::{hard_round, Tally};
use diff::{on_promised_stack, rounds};
use samples::Chance;

/// The most room for a sheet.
const MOST_ROOM: usize = 2_048;

#[test]
fn six_hundred_hard_questions() {
    let mut chance = Chance::new(15);
    let mut tally = Tally::default();
    on_promised_stack(|| {
        for at in 0..rounds(600) {
            if let Err(difference) = hard_round(&mut chance, MOST_ROOM, &mut tally) {
                panic!("round {at}: {difference}");
            }
        }
    });
    assert!(tally.too_long > rounds(600) / 6, "{}", tally.too_long);
}
