//! What is asked about the versions of a question. The answers are by hand, from the rules of docs/FORMAT.md.

use crate::examples::twelve;
use crate::hex;
use crate::limits::{plain, sheet, NO, YES};
use crate::recorded::{Ask, Recorded};
use oracle::encode;
use oracle::rules::question::*;

/// Versions that there are not: beside those that there are, and with a byte of theirs.
pub const NO_VERSIONS: [u16; 8] = [0, 3, 256, 257, 258, 512, 513, u16::MAX];

/// Case k's tree for a formula that starts with M: V ≥ 10, V − 40 ≤ 30, V − 40 ≥ 0. The last is beyond V's
/// range: the cycle goes from zero to V, which is vertex 2, and back.
const NONE_IN_RANGE: [u8; 10] = [3, 3, 3, 2, 2, 0, 2, 1, 1, 1];

/// A version that there is not is refused where it stands, whatever the change.
pub fn refused() -> Vec<Ask> {
    let ask = |(name, version)| Ask {
        question: case(name, version),
        printed: "refused 3 3\n".to_string(),
        sheets: [None, None],
    };
    let changes = ["a", "d", "k"].into_iter();
    changes.flat_map(|name| NO_VERSIONS.map(|version| (name, version))).map(ask).collect()
}

/// Case k in version 2: every listed row goes.
pub fn case_k() -> Ask {
    Ask {
        question: case("k", 2),
        printed: "irrelevant no 24\ncomputable yes 44\n".to_string(),
        sheets: [Some(relevant()), Some(computable())],
    }
}

/// Case k's fourth formula is open: the greatest values, since V − 40 ≥ 0 fails for all.
fn relevant() -> Vec<u8> {
    let row = [9_i32, 30, 9, 9].map(i32::to_le_bytes).concat();
    sheet(1, 1, &[&[3], &row[..]].concat())
}

/// Nothing enters. Of what is listed nothing stays: after the six places of C1 and C2, S1 has V ≥ 10 as false
/// or V − 40 ≥ 0 as true, and either closes a cycle. The last two formulas want a visible column to differ,
/// and only V, a hidden one, changes.
fn computable() -> Vec<u8> {
    let cycle = [2, 2, 0, 2];
    let stays = [&[3; 9][..], &cycle, &[1, 1], &cycle, &[1; 6]].concat();
    sheet(2, 0, &[&NONE_IN_RANGE[..], &stays, &[1, 1]].concat())
}

/// A modify that keeps all columns, where every row is listed and selected: each of the four formulas, of
/// either asked, is false before a place is decided.
pub fn kept() -> Ask {
    let change = Change::Modify(Vec::new(), vec![Mode::Keep]);
    Ask {
        question: encode(&Question { version: 2, change, ..plain(&[1]) }),
        printed: "irrelevant yes 11\ncomputable yes 11\n".to_string(),
        sheets: [1, 2].map(|asked| Some(sheet(asked, 0, &[1; 4]))),
    }
}

/// Sheets of case k that are right in one version are wrong in the other. A sheet's own version is 1 in both.
pub fn crossed() -> Vec<Recorded> {
    let [one, two] = VERSIONS.map(|version| case("k", version));
    // M fails, and no visible column changes: that is all in version 1, and a tree is lacking in version 2
    let irrelevant = sheet(1, 0, &[&NONE_IN_RANGE[..], &NONE_IN_RANGE, &[1]].concat());
    let mut renumbered = relevant();
    renumbered[3] = 2;
    vec![
        check(1, &one, &irrelevant, YES),
        check(1, &two, &irrelevant, "11 255 28"),
        // version 1 has no fourth formula
        check(1, &one, &relevant(), "14 255 7"),
        // and S1 isn't false where V − 40 ≥ 0 is: the 14th byte of the second tree, which starts at 17
        check(2, &one, &computable(), "15 255 30"),
        check(1, &two, &renumbered, "13 255 3"),
    ]
}

/// K, up to 9 and visible, becomes V, which is hidden and up to 99. Of two rows that show 9 and have 5 and 30
/// for V the second stays in version 1, and the last formula is true; in version 2 it goes, and the second
/// formula is.
pub fn second_row_out_of_range() -> Vec<Recorded> {
    let mut question = plain(&[2]);
    question.columns[0].hi = 9;
    question.columns[1].visible = false;
    question.change = Change::Modify(Vec::new(), vec![Mode::Become(Side::Column(1, 0)), Mode::Keep]);
    let rows = [9_i32, 5, 9, 30].map(i32::to_le_bytes).concat();
    let answers = [(1, 1, "15 255 7"), (1, 3, NO), (2, 1, NO), (2, 3, "15 255 7")];
    let recorded = |(version, formula, answer)| {
        let question = encode(&Question { version, ..question.clone() });
        check(2, &question, &sheet(2, 1, &[&[formula], &rows[..]].concat()), answer)
    };
    answers.map(recorded).into()
}

/// One of the twelve cases, in any version.
fn case(name: &str, version: u16) -> Vec<u8> {
    let found = twelve().into_iter().find(|example| example.name == name);
    encode(&Question { version, ..found.expect("one of twelve").question })
}

fn check(asked: u8, question: &[u8], sheet: &[u8], answer: &str) -> Recorded {
    Recorded::new(format!("check {asked} {} {}", hex(question), hex(sheet)), answer)
}
