//! Recorded lines, none of which the code here has made.
//!
//! A line of a file of calls is a call, a tab, the answer. In both, words are apart by blanks; bytes
//! stand in hexadecimal, `-` where there are none. A room is named by its length: it comes filled with
//! bytes 0xee, and stands last in the answer as it is afterwards.

mod asks;
mod file;
mod routines;

pub use asks::{asks, hard_asks, Ask, ASK_ROOM};
pub use file::PUBLISHED;
pub use routines::{Routines, ORACLE};

/// A call and its answer.
pub struct Recorded {
    /// The call.
    pub call: String,
    /// What was answered.
    pub answer: String,
}

impl Recorded {
    pub(crate) fn new(call: impl Into<String>, answer: impl Into<String>) -> Self {
        Recorded { call: call.into(), answer: answer.into() }
    }

    /// Stops the run if the routines answer otherwise.
    pub fn hold(&self, routines: &Routines) {
        let Recorded { call, answer } = self;
        assert_eq!(routines.answer(call), *answer, "{call}");
    }
}

/// Every recorded call: those in files of calls, and those that the lines of `ask` tell of.
pub fn calls() -> impl Iterator<Item = Recorded> {
    let lines = file::CALLS.iter().flat_map(|file| file.lines::<2>());
    let written = lines.map(|[call, answer]| Recorded::new(call.to_string(), answer.to_string()));
    let told = asks().into_iter().chain(hard_asks()).flat_map(|ask| ask.calls());
    written.chain(told)
}
