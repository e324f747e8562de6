//! Damaged bytes: cut, lengthened, or with wrong values in places.

use crate::versions::NO_VERSIONS;
use crate::Chance;
use oracle::encode;
use oracle::rules::question::*;

/// Numbers at and just beyond the limits of values and constants.
const EDGES: [i32; 10] = [
    0,
    -1,
    MOST_VALUE,
    MOST_VALUE + 1,
    -MOST_VALUE - 1,
    MOST_CONSTANT,
    MOST_CONSTANT + 1,
    -MOST_CONSTANT - 1,
    i32::MIN,
    i32::MAX,
];

/// The bytes with one to three faults in them (now and then none that matters).
pub fn damaged(chance: &mut Chance, bytes: &[u8]) -> Vec<u8> {
    let mut bytes = bytes.to_vec();
    for _ in 0..chance.among(&[1, 1, 1, 2, 3]) {
        fault(chance, &mut bytes);
    }
    bytes
}

fn fault(chance: &mut Chance, bytes: &mut Vec<u8>) {
    let at = chance.below(bytes.len() + 1);
    match chance.below(9) {
        0 => bytes.truncate(at),
        1 => (0..=chance.below(5)).for_each(|_| bytes.push(chance.below(4) as u8)),
        2 => bytes.insert(at, chance.below(256) as u8),
        8 => recount(chance, bytes),
        _ if at == bytes.len() => {}
        3 => _ = bytes.remove(at),
        4 => {
            let edge = chance.among(&EDGES).to_le_bytes();
            bytes.iter_mut().skip(at).zip(edge).for_each(|(byte, new)| *byte = new);
        }
        5 => bytes[at] ^= 1 << chance.below(8),
        6 => {
            let most = chance.among(&[MOST_TABLES, MOST_COLUMNS, MOST_VERTICES]);
            bytes[at] = wild(chance, most) as u8;
        }
        _ => bytes[at] = chance.below(256) as u8,
    }
}

/// A number up to the first that is too large, or one of the two largest bytes.
fn wild(chance: &mut Chance, most: usize) -> usize {
    let number = chance.below(most + 4);
    if number <= most + 1 {
        number
    } else {
        chance.among(&[254, 255])
    }
}

/// One of the bytes after a 2, which in a sheet is the count of a cycle or a vertex, becomes a count that
/// is large, or one too large.
fn recount(chance: &mut Chance, bytes: &mut [u8]) {
    let after: Vec<usize> = (1..bytes.len()).filter(|&at| bytes[at - 1] == 2).collect();
    if !after.is_empty() {
        bytes[chance.among(&after)] = (MOST_VERTICES + 1 - chance.below(9)) as u8;
    }
}

/// The bytes of a question in which one thing is out of order, all else being in place.
pub fn misfit(chance: &mut Chance, question: &Question) -> Vec<u8> {
    let mut question = question.clone();
    let column = chance.below(question.columns.len());
    let edge = chance.among(&EDGES);
    match chance.below(12) {
        0 => question.columns[column].lo = edge,
        1 => question.columns[column].hi = edge,
        2 => question.columns.iter_mut().for_each(|column| column.visible = false),
        3 => question.changed = chance.below(MOST_TABLES + 2),
        4 => question.widths.push(chance.below(4)),
        5 => spoil(chance, &mut question.condition, edge),
        6 => crowd(chance, &mut question),
        7 => question.version = chance.among(&NO_VERSIONS),
        _ => match &mut question.change {
            Change::Insert(rows) => {
                rows.push(vec![edge; question.widths[question.changed]]);
            }
            Change::Delete(condition) => spoil(chance, condition, edge),
            Change::Modify(condition, modes) => {
                let mode = chance.below(modes.len());
                match chance.below(3) {
                    0 => modes[mode] = Mode::Become(Side::Constant(edge)),
                    1 => modes[mode] = Mode::Become(Side::Column(wild(chance, MOST_COLUMNS - 1), edge)),
                    _ => spoil(chance, condition, edge),
                }
            }
        },
    }
    encode(&question)
}

/// One table too many, or one column; the columns are all there.
fn crowd(chance: &mut Chance, question: &mut Question) {
    let columns = question.columns.len();
    if chance.once_in(2) {
        question.widths.resize(MOST_TABLES + 1, 1);
    } else {
        let table = chance.below(question.widths.len());
        question.widths[table] += MOST_COLUMNS + 1 - columns;
    }
    question.columns.resize(question.widths.iter().sum(), question.columns[columns - 1]);
}

fn spoil(chance: &mut Chance, condition: &mut Condition, edge: i32) {
    let at = chance.below(condition.len() + 1);
    let wild = wild(chance, MOST_COLUMNS - 1);
    let op = chance.among(&OPS);
    let token = match chance.below(5) {
        0 => Token::And,
        1 => Token::Not,
        2 => Token::Compare(op, wild, Side::Constant(0)),
        3 => Token::Compare(op, 0, Side::Column(wild, 0)),
        _ => Token::Compare(op, 0, Side::Constant(edge)),
    };
    condition.insert(at, token);
}
