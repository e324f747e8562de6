//! The routines that a recorded call can name.

use crate::{hex, unhex};
use oracle::{Refusal, Verdict};

/// A verdict, or why there is none.
type Judged = Result<Verdict, Refusal>;

/// The verdict and the sheet's length, or why there is no sheet.
type Written = Result<(Verdict, usize), Refusal>;

/// What calls are put to.
pub struct Routines {
    /// The verdict alone.
    pub verdict: fn(u8, &[u8]) -> Judged,
    /// Writes the sheet to the room.
    pub write: fn(u8, &[u8], &mut [u8]) -> Written,
    /// Checks a sheet; gives the verdict that it shows.
    pub check: fn(u8, &[u8], &[u8]) -> Judged,
}

/// The oracle's.
pub const ORACLE: Routines =
    Routines { verdict: oracle::verdict, write: oracle::write, check: oracle::check };

impl Routines {
    /// The answer to a call, as it is recorded: the number, the verdict byte, the length or place, the room.
    pub fn answer(&self, call: &str) -> String {
        let words: Vec<&str> = call.split(' ').collect();
        match words[..] {
            ["verdict", asked, question] => {
                let verdict = (self.verdict)(number(asked), &bytes(question));
                outcome(verdict.map(|verdict| (verdict, 0)))
            }
            ["check", asked, question, sheet] => {
                let verdict = (self.check)(number(asked), &bytes(question), &bytes(sheet));
                outcome(verdict.map(|verdict| (verdict, 0)))
            }
            ["write", asked, question, length] => {
                let mut room = vec![0xee; number(length)];
                let written = outcome((self.write)(number(asked), &bytes(question), &mut room));
                [written, word(&room)].join(" ")
            }
            _ => panic!("no such call: {call}"),
        }
    }
}

fn outcome(answer: Written) -> String {
    match answer {
        Ok((Verdict::Yes, beside)) => format!("0 0 {beside}"),
        Ok((Verdict::No, beside)) => format!("0 1 {beside}"),
        Err(Refusal { number, place }) => format!("{number} 255 {place}"),
    }
}

fn number<T: std::str::FromStr>(word: &str) -> T {
    word.parse().unwrap_or_else(|_| panic!("{word} is no such number"))
}

/// The bytes of a word.
pub(super) fn bytes(word: &str) -> Vec<u8> {
    let digits = if word == "-" { "" } else { word };
    unhex(digits).unwrap_or_else(|| panic!("{word} is not hexadecimal"))
}

/// Bytes as a word.
pub(super) fn word(bytes: &[u8]) -> String {
    match bytes {
        [] => "-".to_string(),
        _ => hex(bytes),
    }
}
