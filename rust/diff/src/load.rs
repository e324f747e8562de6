//! What the benchmark asks: questions of version 1.

use crate::smt::script;
use oracle::rules::question::{MOST_COLUMNS, MOST_TABLES};
use oracle::rules::sheet::{work, Worked};
use oracle::rules::trouble::trouble;
use oracle::{encode, Question, Verdict};
use samples::recorded::ASK_ROOM;
use samples::{examples, hard_within, question_of_version_1, question_within, sized, Bounds, Chance};

/// One question as it is asked, with what is known of it.
pub struct Asked {
    /// The question's bytes.
    pub bytes: Vec<u8>,
    /// What is asked, 1 or 2.
    pub asked: u8,
    /// The right verdict, with the sheet as far as `ask` has room for it.
    pub worked: Worked,
    /// The formulas up to the first open one, as SMT-LIB.
    pub script: String,
    /// How many formulas those are.
    pub formulas: usize,
}

/// Questions measured together.
pub struct Load {
    /// Its name.
    pub name: String,
    /// Its questions.
    pub questions: Vec<Asked>,
}

/// The limits when the first loads were drawn. Their questions are to stay the same, byte for byte, so that
/// figures taken before and after a change of the limits compare.
const EARLIER: Bounds = Bounds { tables: 4, columns: 8, shown: 2 };

/// As large as can be, with all columns hidden but one or two.
const HIDDEN: Bounds = Bounds { tables: MOST_TABLES, columns: MOST_COLUMNS, shown: 24 };

/// A load's name, and how its questions are made.
type Making = (String, Box<dyn Fn() -> Vec<Asked>>);

/// The loads that have the word in their names; every load has the empty word.
pub fn loads(word: &str) -> Vec<Load> {
    let mut all: Vec<Making> = vec![
        ("Appendix B of report 000".to_string(), Box::new(appendix_b)),
        ("random, all shapes".to_string(), Box::new(random)),
        ("nine vertices, long sheets".to_string(), Box::new(|| long_sheets(22, 9, &EARLIER))),
        ("hard".to_string(), Box::new(|| hard_ones(24, 8))),
        ("12 columns, all shapes".to_string(), Box::new(twelve_columns)),
        ("12 columns, 24 vertices, long sheets".to_string(), Box::new(|| long_sheets(26, 24, &HIDDEN))),
        ("up to 12 columns, hard".to_string(), Box::new(|| hard_ones(27, 12))),
    ];
    for count in 1..=6 {
        let name = format!("6 columns, {count} comparisons a condition");
        all.push((name, Box::new(move || grown(6, count))));
    }
    for count in [1, 2, 4, 8, 12] {
        let name = format!("{count} columns, 3 comparisons a condition");
        all.push((name, Box::new(move || grown(count, 3))));
    }
    let wanted = all.into_iter().filter(|(name, _)| name.contains(word));
    wanted.map(|(name, questions)| Load { name, questions: questions() }).collect()
}

/// Both verdicts of a question.
fn ask(question: &Question, to: &mut Vec<Asked>) {
    for asked in [1, 2] {
        let worked = work(question, asked, ASK_ROOM);
        let mut formulas = trouble(question, asked);
        if worked.verdict == Verdict::No {
            formulas.truncate(usize::from(worked.bytes[7]) + 1);
        }
        to.push(Asked {
            bytes: encode(question),
            asked,
            worked,
            script: formulas.iter().map(script).collect(),
            formulas: formulas.len(),
        });
    }
}

/// The pairs of report 000's Appendix B that fit.
fn appendix_b() -> Vec<Asked> {
    let mut questions = Vec::new();
    examples::load().iter().for_each(|example| ask(&example.question, &mut questions));
    questions
}

fn random() -> Vec<Asked> {
    let mut chance = Chance::new(21);
    let mut questions = Vec::new();
    (0..500).for_each(|_| ask(&question_within(&mut chance, &EARLIER), &mut questions));
    questions
}

/// Questions of all shapes with as many columns as can be.
fn twelve_columns() -> Vec<Asked> {
    let mut chance = Chance::new(25);
    let mut questions = Vec::new();
    while questions.len() < 1_000 {
        let question = question_of_version_1(&mut chance);
        if question.columns.len() == MOST_COLUMNS {
            ask(&question, &mut questions);
        }
    }
    questions
}

/// Questions whose largest formula has so many vertices, with sheets of 1,000 bytes or more.
fn long_sheets(seed: u64, vertices: usize, bounds: &Bounds) -> Vec<Asked> {
    let mut chance = Chance::new(seed);
    let mut questions = Vec::new();
    while questions.len() < 100 {
        let question = question_within(&mut chance, bounds);
        let sizes = trouble(&question, 2).into_iter().map(|formula| 1 + formula.vertices.len());
        if sizes.max() == Some(vertices) {
            ask(&question, &mut questions);
            questions.retain(|asked| asked.worked.bytes.len() >= 1_000);
        }
    }
    questions
}

/// Hard questions of at most so many columns.
fn hard_ones(seed: u64, columns: usize) -> Vec<Asked> {
    let mut chance = Chance::new(seed);
    let mut questions = Vec::new();
    (0..300).for_each(|_| ask(&hard_within(&mut chance, columns), &mut questions));
    questions
}

fn grown(columns: usize, comparisons: usize) -> Vec<Asked> {
    let mut chance = Chance::new(23);
    let mut questions = Vec::new();
    (0..150).for_each(|_| ask(&sized(&mut chance, columns, comparisons), &mut questions));
    questions
}
