//! What is put to the library and to the oracle.
//!
//! Seeded questions and sheets, sound and damaged: the same seed gives the same ones everywhere.
//! Questions with known answers (`examples`), recorded calls with their answers (`recorded`), calls at the
//! limits (`limits`) and about the versions (`versions`). Questions and contents as SQL (`sql`).

mod chance;
mod change;
mod damage;
pub mod examples;
mod hard;
mod hex;
pub mod limits;
mod questions;
pub mod recorded;
mod sheets;
pub mod sql;
pub mod versions;

pub use chance::Chance;
pub use change::changed;
pub use damage::{damaged, misfit};
pub use hard::{hard, hard_within};
pub use hex::{hex, unhex};
pub use questions::{
    deepest, question, question_of_version_1, question_within, sized, tiny, tiny_shift, Bounds,
};
pub use sheets::{other_sheet, overlong_sheet};
