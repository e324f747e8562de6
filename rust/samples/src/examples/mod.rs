//! Questions with known answers: the twelve cases of docs/FORMAT.md and the published examples of the reports
//! 000 (Blakeley, Coburn, Larson: TR 235) and 002 (Blakeley: CS-87-32), as text.

mod load;
mod report_000;
mod report_002;
mod sketch;
mod twelve;

pub use load::{load, xyz};
pub use report_000::report_000;
pub use report_002::report_002;
pub use twelve::{shortcuts, twelve, twelve_of_version_2};

use crate::hex;
use oracle::{encode, Question};

/// A question beside what is said of it. Verdicts are written `irrelevant/computable`: `no/yes`, with
/// `-` where a report says nothing that answers the question.
pub struct Example {
    /// A short name.
    pub name: String,
    /// The question.
    pub question: Question,
    /// What the report says, as verdicts.
    pub report: &'static str,
    /// What the report says, in words.
    pub words: &'static str,
    /// What is right by our definitions.
    pub right: &'static str,
    /// Why the two differ, or why the report has no verdict.
    pub why: &'static str,
}

impl Example {
    fn new(name: impl Into<String>, question: Question, report: &'static str, right: &'static str) -> Self {
        Example { name: name.into(), question, report, words: "", right, why: "" }
    }

    fn words(self, words: &'static str) -> Self {
        Example { words, ..self }
    }

    fn why(self, why: &'static str) -> Self {
        Example { why, ..self }
    }

    /// The example as a row of a Markdown table: name, report, ours, why.
    pub fn row(&self) -> String {
        let colon = if self.words.is_empty() { "" } else { ": " };
        let report = [self.words, colon, self.report].concat();
        let Example { name, right, why, .. } = self;
        format!("| {name} | {report} | {right} | {why} |")
    }

    /// The example as a line that the program `published` reads: name, report, question.
    pub fn line(&self) -> String {
        [&self.name, self.report, &hex(&encode(&self.question))].join("\t")
    }

    /// Whether the report contradicts the right verdicts.
    pub fn differs(&self) -> bool {
        let pairs = self.report.split('/').zip(self.right.split('/'));
        pairs.into_iter().any(|(said, right)| said != "-" && said != right)
    }
}

/// The cases of a text that a program reads: its lines but the empty ones and those that start with `#`.
pub fn cases(text: &str) -> Vec<&str> {
    text.lines().filter(|line| !line.is_empty() && !line.starts_with('#')).collect()
}

/// Every published example: the numbered ones of both reports, the insert of 000's conclusion, and
/// the pairs of 000's Appendix B that fit.
pub fn published() -> Vec<Example> {
    let mut all = report_000();
    all.extend(report_002());
    all.extend(xyz());
    all.extend(load());
    all
}
