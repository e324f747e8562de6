//! Damaged questions and sheets: never a panic, never a verdict that isn't so.

use oracle::rules::sheet::work;
use oracle::{check, encode, read, verdict, write, Refusal, Verdict};
use samples::{damaged, hex, misfit, other_sheet, overlong_sheet, question, Chance};
use std::collections::BTreeMap;

const ROOM: usize = 8_192;

#[test]
fn what_is_written_is_read() {
    let mut chance = Chance::new(3);
    for _ in 0..20_000 {
        let question = question(&mut chance);
        assert_eq!(read(&encode(&question)), Ok(question));
    }
}

#[test]
fn damaged_questions() {
    let mut chance = Chance::new(4);
    let mut counts: BTreeMap<u8, u32> = BTreeMap::new();
    for _ in 0..40_000 {
        let question = question(&mut chance);
        let bytes = match chance.below(2) {
            0 => damaged(&mut chance, &encode(&question)),
            _ => misfit(&mut chance, &question),
        };
        match read(&bytes) {
            Ok(question) => assert_eq!(encode(&question), bytes),
            Err(Refusal { number, place }) => {
                *counts.entry(number).or_default() += 1;
                assert!(place <= bytes.len());
                // cut off at the fault, all before it is in order
                match read(&bytes[..place]) {
                    Ok(_) => assert_eq!(number, 9),
                    Err(cut) => assert!(cut.place == place && [1, number].contains(&cut.number)),
                }
                let mut room = [9; 100];
                assert_eq!(write(2, &bytes, &mut room), Err(Refusal { number, place }));
                assert_eq!(verdict(1, &bytes), Err(Refusal { number, place }));
                assert_eq!(room, [9; 100]);
            }
        }
    }
    for number in 1..=9 {
        assert!(counts[&number] > 50, "{counts:?}");
    }
}

#[test]
fn damaged_sheets() {
    let mut chance = Chance::new(5);
    let mut counts: BTreeMap<u8, u32> = BTreeMap::new();
    for _ in 0..5_000 {
        let question = question(&mut chance);
        let bytes = encode(&question);
        let asked = chance.among(&[1, 2]);
        let worked = work(&question, asked, ROOM);
        let passes = check(asked, &bytes, &worked.bytes);
        if !worked.whole {
            // every field before the cut is as it should be
            assert_eq!(passes.map_err(|refusal| refusal.number), Err(11));
            continue;
        }
        assert_eq!(passes, Ok(worked.verdict));
        let other = other_sheet(&mut chance, &question, asked, &worked);
        assert_eq!(check(asked, &bytes, &other), Ok(worked.verdict));
        for _ in 0..8 {
            let sheet = damaged(&mut chance, &other);
            match check(asked, &bytes, &sheet) {
                Ok(verdict) => {
                    assert_eq!(verdict, worked.verdict);
                    *counts.entry(0).or_default() += 1;
                }
                Err(refusal) => *counts.entry(refusal.number).or_default() += 1,
            }
        }
    }
    for number in [0, 11, 12, 13, 14, 15, 16] {
        assert!(counts[&number] > 50, "{counts:?}");
    }
}

/// The places of the counts in a yes sheet: a cycle is a 2, its count, so many vertices.
fn count_places(sheet: &[u8]) -> Vec<usize> {
    let (mut places, mut at) = (Vec::new(), 7);
    while at < sheet.len() {
        if sheet[at] == 2 {
            places.push(at + 1);
            at += 1 + usize::from(sheet[at + 1]);
        }
        at += 1;
    }
    places
}

/// Cycles gone round several times pass up to 25 vertices; the first that names more is refused.
#[test]
fn sheets_with_long_cycles() {
    let mut chance = Chance::new(7);
    let mut counts = [0; 256];
    for _ in 0..2_000 {
        let question = question(&mut chance);
        let asked = chance.among(&[1, 2]);
        let worked = work(&question, asked, ROOM);
        if worked.verdict == Verdict::No || !worked.whole {
            continue;
        }
        let sheet = overlong_sheet(&mut chance, &question, asked, &worked);
        let places = count_places(&sheet);
        places.iter().for_each(|&place| counts[usize::from(sheet[place])] += 1);
        let right = match places.into_iter().find(|&place| sheet[place] > 25) {
            None => Ok(Verdict::Yes),
            Some(place) => Err(Refusal { number: 14, place }),
        };
        assert_eq!(check(asked, &encode(&question), &sheet), right, "{}", hex(&sheet));
    }
    assert!(counts[18..=26].iter().all(|&count| count > 10), "{:?}", &counts[..32]);
}
