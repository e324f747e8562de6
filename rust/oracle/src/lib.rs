//! A second implementation of questions, verdicts and sheets in plain Rust.
//!
//! It is written from the format's rules (docs/FORMAT.md) alone, to hold the proved library against
//! it. Nothing here is proved, and it takes other ways where it can: verdicts come from clauses, with a
//! new one learned from each dead end; values are kept by passing on what a new fact lowers; and cycles
//! are found by the least weights of walks of each length.
//!
//! `rules` is the implementation, `contents` has the definitions that it must agree with.

pub mod contents;
pub mod rules;

pub use rules::encoder::encode;
pub use rules::question::Question;
pub use rules::reader::read;
pub use rules::refusal::Refusal;
pub use rules::sheet::Verdict;

use rules::checker::check_sheet;
use rules::refusal::refuse;
use rules::sheet::{judge, work, Worked};

/// The verdict alone: asked 1 whether irrelevant, asked 2 whether computable.
pub fn verdict(asked: u8, question: &[u8]) -> Result<Verdict, Refusal> {
    let question = accept(asked, question)?;
    Ok(judge(&question, asked))
}

/// Writes the sheet to the room: on success the sheet, then zeros; on 21 zeros; otherwise the room
/// stays as it came. Gives the verdict and the sheet's length.
pub fn write(asked: u8, question: &[u8], room: &mut [u8]) -> Result<(Verdict, usize), Refusal> {
    let question = accept(asked, question)?;
    fill(&work(&question, asked, room.len()), room)
}

/// Puts a sheet that is worked out, with no less room than this, into the room by the same rule.
pub fn fill(worked: &Worked, room: &mut [u8]) -> Result<(Verdict, usize), Refusal> {
    room.fill(0);
    let length = worked.bytes.len();
    if !worked.whole || length > room.len() {
        return refuse(21, 0);
    }
    room[..length].copy_from_slice(&worked.bytes);
    Ok((worked.verdict, length))
}

/// Checks a sheet against a question: the verdict that it shows, or why it shows none.
pub fn check(asked: u8, question: &[u8], sheet: &[u8]) -> Result<Verdict, Refusal> {
    let question = accept(asked, question)?;
    check_sheet(&question, asked, sheet)
}

/// What was asked comes first, then the question.
fn accept(asked: u8, question: &[u8]) -> Result<Question, Refusal> {
    if asked != 1 && asked != 2 {
        return refuse(20, 0);
    }
    read(question)
}
