//! One seeded round: a question, sound or damaged, put to the library and to the oracle.

use crate::library;
use oracle::contents::{all_contents, computable, irrelevant};
use oracle::rules::sheet::{work, Worked};
use oracle::{encode, read, Question, Refusal, Verdict};
use samples::{changed, damaged, hard, hex, misfit, question, tiny, tiny_shift, Chance};
use samples::{other_sheet, overlong_sheet};
use std::collections::BTreeMap;

/// What was put to both, counted.
#[derive(Default)]
pub struct Tally {
    /// Questions.
    pub questions: u64,
    /// Sheets that are longer than any room of the run.
    pub too_long: u64,
    /// Nodes of the sheets, as far as there is room.
    pub nodes: u64,
    /// Rooms written to.
    pub rooms: u64,
    /// Sheets checked.
    pub sheets: u64,
    /// Answers of the library by their number, 0 for a verdict.
    pub answers: BTreeMap<u8, u64>,
}

impl Tally {
    fn note<T>(&mut self, answer: &Result<T, Refusal>) {
        let number = answer.as_ref().err().map_or(0, |refusal| refusal.number);
        *self.answers.entry(number).or_default() += 1;
    }
}

/// A difference, with what is needed to see it again.
pub type Difference = String;

/// One round: makes a question and compares everything about it, in rooms of up to so many bytes.
pub fn round(chance: &mut Chance, most_room: usize, tally: &mut Tally) -> Result<(), Difference> {
    let bytes = some_question(chance);
    tally.questions += 1;
    if chance.once_in(50) {
        let asked = chance.among(&[0, 3, 4, 127, 128, 255]);
        refused(chance, asked, &bytes, tally)?;
    }
    let Ok(question) = read(&bytes) else {
        return (1..=2).try_for_each(|asked| refused(chance, asked, &bytes, tally));
    };
    accepted(chance, &question, most_room, tally)
}

/// The same for a hard question.
pub fn hard_round(chance: &mut Chance, most_room: usize, tally: &mut Tally) -> Result<(), Difference> {
    let mut question = hard(chance);
    for _ in 0..chance.below(4) {
        question = changed(chance, &question);
    }
    tally.questions += 1;
    accepted(chance, &question, most_room, tally)
}

/// A tiny question against the definitions over contents, all small contents being tried.
pub fn brute(chance: &mut Chance, tally: &mut Tally) -> Result<(), Difference> {
    let question = if chance.once_in(4) { tiny_shift(chance) } else { tiny(chance) };
    let bytes = encode(&question);
    let all = all_contents(&question, 4);
    let right = [irrelevant(&question, &all), computable(&question, &all)];
    tally.questions += 1;
    for (asked, right) in [(1, right[0]), (2, right[1])] {
        let answer = library::verdict(asked, &bytes);
        tally.note(&answer);
        let right = if right { Verdict::Yes } else { Verdict::No };
        same("the definition", asked, &bytes, &answer, &Ok(right))?;
    }
    Ok(())
}

/// A question: sound, damaged, or with one thing out of order.
fn some_question(chance: &mut Chance) -> Vec<u8> {
    let question = question(chance);
    match chance.below(8) {
        0 => damaged(chance, &encode(&question)),
        1 => misfit(chance, &question),
        _ => encode(&question),
    }
}

/// A question that both must refuse.
fn refused(chance: &mut Chance, asked: u8, bytes: &[u8], tally: &mut Tally) -> Result<(), Difference> {
    let right = oracle::verdict(asked, bytes);
    let answer = library::verdict(asked, bytes);
    tally.note(&answer);
    same("verdict", asked, bytes, &answer, &right)?;
    let length = chance.below(60);
    let write = |room: &mut [u8]| oracle::write(asked, bytes, room);
    room(chance, asked, bytes, length, write, tally)?;
    sheet(asked, bytes, &vec![1; chance.below(20)], tally)
}

/// A question that both must accept, with what it is asked.
pub fn accepted(
    chance: &mut Chance,
    question: &Question,
    most_room: usize,
    tally: &mut Tally,
) -> Result<(), Difference> {
    let bytes = encode(question);
    for asked in [1, 2] {
        let worked = work(question, asked, most_room);
        let answer = library::verdict(asked, &bytes);
        tally.note(&answer);
        same("verdict", asked, &bytes, &answer, &Ok(worked.verdict))?;
        tally.nodes += worked.nodes;
        tally.too_long += u64::from(!worked.whole);
        for length in room_lengths(chance, &worked) {
            room(chance, asked, &bytes, length, |room| oracle::fill(&worked, room), tally)?;
        }
        sheets(chance, asked, question, &worked, tally)?;
    }
    Ok(())
}

/// Sheets of many kinds: the writer's or, where there isn't room for it, its beginning; another that
/// passes; one whose cycles may be too long; damaged ones.
fn sheets(
    chance: &mut Chance,
    asked: u8,
    question: &Question,
    worked: &Worked,
    tally: &mut Tally,
) -> Result<(), Difference> {
    let bytes = encode(question);
    let other = match worked.whole {
        true => other_sheet(chance, question, asked, worked),
        false => worked.bytes[..chance.below(worked.bytes.len())].to_vec(),
    };
    if worked.whole {
        sheet(asked, &bytes, &overlong_sheet(chance, question, asked, worked), tally)?;
    }
    sheet(asked, &bytes, &worked.bytes, tally)?;
    sheet(asked, &bytes, &other, tally)?;
    sheet(3 - asked, &bytes, &other, tally)?;
    for _ in 0..4 {
        sheet(asked, &bytes, &damaged(chance, &worked.bytes), tally)?;
        sheet(asked, &bytes, &damaged(chance, &other), tally)?;
    }
    Ok(())
}

/// Lengths around the needed one, all of them where the sheet is short; where it is longer than the
/// bytes at hand, lengths up to theirs.
fn room_lengths(chance: &mut Chance, worked: &Worked) -> Vec<usize> {
    let known = worked.bytes.len();
    if !worked.whole {
        return vec![chance.below(known), known];
    }
    if known <= 24 && chance.once_in(4) {
        return (0..known + 4).collect();
    }
    let less = chance.below(known);
    let more = known + 2 + chance.below(40);
    vec![less, known - 1, known, known + 1, more]
}

/// The library writes to a room of this length, and the oracle by `write`: the answers agree, and so
/// does every byte of the room and of what lies around it.
fn room(
    chance: &mut Chance,
    asked: u8,
    bytes: &[u8],
    length: usize,
    write: impl Fn(&mut [u8]) -> Result<(Verdict, usize), Refusal>,
    tally: &mut Tally,
) -> Result<(), Difference> {
    const AROUND: usize = 16;
    let mut ours: Vec<u8> = (0..length + 2 * AROUND).map(|_| chance.below(256) as u8).collect();
    let mut theirs = ours.clone();
    let inner = AROUND..AROUND + length;
    let right = write(&mut ours[inner.clone()]);
    let answer = library::write(asked, bytes, &mut theirs[inner]);
    tally.rooms += 1;
    tally.note(&answer);
    let name = format!("write to {length} bytes");
    same(&name, asked, bytes, &answer, &right)?;
    same(&format!("the room after {name}"), asked, bytes, &theirs, &ours)
}

/// Both check the sheet.
fn sheet(asked: u8, bytes: &[u8], sheet: &[u8], tally: &mut Tally) -> Result<(), Difference> {
    let right = oracle::check(asked, bytes, sheet);
    let answer = library::check(asked, bytes, sheet);
    tally.sheets += 1;
    tally.note(&answer);
    same(&format!("check of {}", hex(sheet)), asked, bytes, &answer, &right)
}

fn same<T: PartialEq + std::fmt::Debug>(
    what: &str,
    asked: u8,
    question: &[u8],
    library: &T,
    right: &T,
) -> Result<(), Difference> {
    if library == right {
        return Ok(());
    }
    let question = hex(question);
    Err(format!("{what}\n  asked {asked}, question {question}\n  library {library:?}\n  right   {right:?}"))
}
