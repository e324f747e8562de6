//! The implementation: questions, formulas, verdicts, sheets and their check.

pub mod checker;
mod clauses;
mod draft;
pub mod edges;
pub mod encoder;
pub mod facts;
pub mod formula;
mod graph;
pub mod question;
pub mod reader;
pub mod refusal;
pub mod search;
pub mod sheet;
pub mod trees;
pub mod trouble;
