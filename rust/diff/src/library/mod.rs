//! A safe wrapper over the library's C interface (include/slushtrowel.h).
//!
//! It also holds the library to what the header fixes of the results: they are set on every outcome.

use oracle::{Refusal, Verdict};
use samples::recorded::Routines;

#[cfg(not(carried))]
#[path = "direct.rs"]
mod raw;

#[cfg(carried)]
#[path = "carried.rs"]
mod raw;

/// Whether the library runs in an emulator: then its times aren't its own.
pub const EMULATED: bool = cfg!(carried);

/// Says so, where it is so.
pub fn warn_of_emulation() {
    if EMULATED {
        println!("The library runs in an emulator, and is called through a pipe: no time is its own.\n");
    }
}

/// What the results hold before a call: neither value is one that a call may leave.
const UNSET: (u8, u64) = (0xee, 0xeeee_eeee_eeee_eeee);

/// What a call leaves: the returned number, the verdict byte, the place or length.
struct Left {
    number: u8,
    said: u8,
    beside: u64,
}

/// The library's routines, for recorded calls.
pub const ROUTINES: Routines = Routines { verdict, write, check };

/// The verdict alone.
pub fn verdict(asked: u8, question: &[u8]) -> Result<Verdict, Refusal> {
    let (verdict, nought) = outcome(raw::verdict(asked, question))?;
    assert_eq!(nought, 0, "a verdict has place 0");
    Ok(verdict)
}

/// Writes the sheet to the room; gives the verdict and the sheet's length.
pub fn write(asked: u8, question: &[u8], room: &mut [u8]) -> Result<(Verdict, usize), Refusal> {
    outcome(raw::write(asked, question, room))
}

/// Checks a sheet; gives the verdict that it shows.
pub fn check(asked: u8, question: &[u8], sheet: &[u8]) -> Result<Verdict, Refusal> {
    let (verdict, nought) = outcome(raw::check(asked, question, sheet))?;
    assert_eq!(nought, 0, "a passing sheet has place 0");
    Ok(verdict)
}

/// The verdict with the number beside it, or the refusal.
fn outcome(Left { number, said, beside }: Left) -> Result<(Verdict, usize), Refusal> {
    let beside = usize::try_from(beside).expect("a number of this machine");
    match (number, said) {
        (0, 0) => Ok((Verdict::Yes, beside)),
        (0, 1) => Ok((Verdict::No, beside)),
        (0, _) => panic!("the verdict byte is {said}"),
        (number, 255) => Err(Refusal { number, place: beside }),
        _ => panic!("refusal {number} leaves the verdict byte {said}"),
    }
}
