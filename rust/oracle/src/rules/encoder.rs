//! The bytes of a question. Nothing is tested here: faulty questions can be written too.

use super::question::*;

/// The bytes of a question.
pub fn encode(question: &Question) -> Vec<u8> {
    let (kind, change) = match &question.change {
        Change::Insert(rows) => (1, insert(rows)),
        Change::Delete(condition) => (2, tokens(condition)),
        Change::Modify(condition, modes) => (3, modify(condition, modes)),
    };
    let mut bytes = b"VUQ".to_vec();
    bytes.extend(question.version.to_le_bytes());
    bytes.extend([question.widths.len() as u8, kind, question.changed as u8]);
    bytes.extend(question.widths.iter().map(|&width| width as u8));
    for column in &question.columns {
        bytes.extend(column.lo.to_le_bytes());
        bytes.extend(column.hi.to_le_bytes());
        bytes.push(u8::from(column.visible));
    }
    bytes.extend(tokens(&question.condition));
    bytes.extend(change);
    bytes
}

fn tokens(condition: &[Token]) -> Vec<u8> {
    let mut bytes = vec![condition.len() as u8];
    for token in condition {
        match token {
            Token::Compare(op, left, right) => {
                let op = OPS.iter().position(|known| known == op).unwrap_or(OPS.len());
                bytes.extend([1, op as u8 + 1, *left as u8]);
                bytes.extend(side(*right));
            }
            Token::And => bytes.push(2),
            Token::Or => bytes.push(3),
            Token::Not => bytes.push(4),
        }
    }
    bytes
}

fn side(side: Side) -> Vec<u8> {
    let (column, constant) = match side {
        Side::Constant(constant) => (NO_COLUMN, constant),
        Side::Column(column, constant) => (column as u8, constant),
    };
    let mut bytes = vec![column];
    bytes.extend(constant.to_le_bytes());
    bytes
}

fn insert(rows: &[Vec<i32>]) -> Vec<u8> {
    let mut bytes = vec![rows.len() as u8];
    for value in rows.iter().flatten() {
        bytes.extend(value.to_le_bytes());
    }
    bytes
}

fn modify(condition: &[Token], modes: &[Mode]) -> Vec<u8> {
    let mut bytes = tokens(condition);
    for mode in modes {
        let (number, new) = match mode {
            Mode::Keep => (0, Side::Constant(0)),
            Mode::Become(new @ Side::Constant(_)) => (1, *new),
            Mode::Become(new @ Side::Column(..)) => (2, *new),
        };
        bytes.push(number);
        bytes.extend(side(new));
    }
    bytes
}
