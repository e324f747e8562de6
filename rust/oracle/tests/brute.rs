//! Verdicts against the definitions over contents, all small contents being tried.

use oracle::contents::{all_contents, breaks, computable, irrelevant};
use oracle::rules::question::{Change, MOST_COLUMNS, VERSIONS};
use oracle::rules::sheet::{judge, values_in, work, Verdict};
use oracle::Question;
use samples::{question, tiny, tiny_shift, Chance};

fn said(question: &Question, asked: u8) -> bool {
    judge(question, asked) == Verdict::Yes
}

/// Whether the change is irrelevant, and computable, by the definitions; the verdicts must agree.
fn right(question: &Question) -> [bool; 2] {
    let all = all_contents(question, 4);
    let right = [irrelevant(question, &all), computable(question, &all)];
    assert_eq!([1, 2].map(|asked| said(question, asked)), right, "{question:?}");
    right
}

#[test]
fn verdicts_follow_the_definitions() {
    let mut chance = Chance::new(1);
    let mut counts = [[0; 2]; 2];
    for _ in 0..6_000 {
        let right = right(&tiny(&mut chance));
        counts[usize::from(right[0])][usize::from(right[1])] += 1;
    }
    // each pair that can be, often; an irrelevant change is always computable
    let [[neither, computable], [impossible, irrelevant]] = counts;
    assert_eq!(impossible, 0);
    assert!(neither > 300 && computable > 300 && irrelevant > 300, "{counts:?}");
}

/// Thousands of modifies, each in both versions: where the versions have other verdicts they follow too.
#[test]
fn verdicts_follow_the_rule_of_the_version() {
    let mut chance = Chance::new(8);
    let (mut modifies, mut counts) = (0, [[0; 2]; 2]);
    for at in 0..12_000 {
        let question = match at % 2 {
            0 => tiny_shift(&mut chance),
            _ => tiny(&mut chance),
        };
        if !matches!(question.change, Change::Modify(..)) {
            continue;
        }
        modifies += 1;
        let [one, two] = VERSIONS.map(|version| right(&Question { version, ..question.clone() }));
        for (count, (one, two)) in counts.iter_mut().zip(one.into_iter().zip(two)) {
            count[usize::from(two)] += usize::from(one != two);
        }
    }
    // a change that is irrelevant if rows go is so if they stay; all else can be, and often is
    let [[relevant, impossible], [neither, computable]] = counts;
    assert_eq!(impossible, 0);
    assert!(modifies > 7_500 && relevant > 2_000 && neither > 1_000 && computable > 50, "{counts:?}");
}

/// What the longest no sheet needs: its first eight bytes, and two rows.
const MOST_ROOM: usize = 8 + 2 * 4 * MOST_COLUMNS;

#[test]
fn rows_of_a_no_sheet_break_the_claim() {
    let mut chance = Chance::new(2);
    let (mut shown, mut retiring) = (0, [[0; 4]; 2]);
    for _ in 0..20_000 {
        let question = question(&mut chance);
        let retires = question.retires() && matches!(question.change, Change::Modify(..));
        for asked in [1, 2] {
            if judge(&question, asked) == Verdict::No {
                let sheet = work(&question, asked, MOST_ROOM).bytes;
                let values = values_in(&sheet);
                let rows: Vec<_> = values.chunks(question.columns.len()).map(|row| row.to_vec()).collect();
                assert!(breaks(&question, asked, &rows), "{question:?}");
                shown += 1;
                retiring[usize::from(asked) - 1][usize::from(sheet[7])] += usize::from(retires);
            }
        }
    }
    assert!(shown > 5_000, "{shown}");
    // every formula that a modify of version 2 has is shown open
    assert!(retiring.iter().flatten().all(|&count| count > 5), "{retiring:?}");
}
