//! Reads a question: fields in order, each tested first for length, then for its value.

use super::question::*;
use super::refusal::{refuse, Fields, Refusal};
use std::ops::Range;

/// The question that the bytes hold, or the first fault (1 to 9) with its place.
pub fn read(bytes: &[u8]) -> Result<Question, Refusal> {
    let mut fields = Fields::new(bytes, 1);
    let mark = fields.take::<3>()?;
    fields.expect(mark == *b"VUQ", 2)?;
    let version = u16::from_le_bytes(fields.take()?);
    fields.expect(VERSIONS.contains(&version), 3)?;
    let tables = fields.within(1, MOST_TABLES as u8, 4)?;
    let kind = fields.within(1, 3, 4)?;
    let changed = usize::from(fields.within(0, tables - 1, 4)?);
    let widths = read_widths(&mut fields, tables)?;
    let columns = read_columns(&mut fields, widths.iter().sum())?;
    let condition = read_condition(&mut fields, 0..columns.len())?;
    let change = Change::Insert(Vec::new());
    let mut question = Question { version, widths, changed, columns, condition, change };
    question.change = read_change(&mut fields, kind, &question)?;
    if !fields.at_end() {
        return refuse(9, fields.next);
    }
    Ok(question)
}

fn read_widths(fields: &mut Fields, tables: u8) -> Result<Vec<usize>, Refusal> {
    let mut widths = Vec::new();
    let mut left = MOST_COLUMNS;
    for _ in 0..tables {
        let width = usize::from(fields.byte()?);
        fields.expect(1 <= width && width <= left, 4)?;
        left -= width;
        widths.push(width);
    }
    Ok(widths)
}

fn read_columns(fields: &mut Fields, count: usize) -> Result<Vec<Column>, Refusal> {
    let mut columns = Vec::new();
    for _ in 0..count {
        let lo = fields.number()?;
        fields.expect((-MOST_VALUE..=MOST_VALUE).contains(&lo), 5)?;
        let hi = fields.number()?;
        fields.expect((lo..=MOST_VALUE).contains(&hi), 5)?;
        let visible = fields.within(0, 1, 4)? == 1;
        columns.push(Column { lo, hi, visible });
    }
    if !columns.iter().any(|column| column.visible) {
        return refuse(8, fields.next);
    }
    Ok(columns)
}

/// A condition over the columns with these numbers.
fn read_condition(fields: &mut Fields, columns: Range<usize>) -> Result<Condition, Refusal> {
    let count = fields.within(0, MOST_TOKENS as u8, 4)?;
    let mut tokens = Vec::new();
    let mut comparisons = 0;
    let mut values = 0;
    for _ in 0..count {
        let token = fields.within(1, 4, 6)?;
        if token == 1 {
            comparisons += 1;
            fields.expect(comparisons <= MOST_COMPARISONS, 4)?;
            tokens.push(read_comparison(fields, &columns)?);
            values += 1;
        } else {
            let (known, operands) =
                [(Token::And, 2), (Token::Or, 2), (Token::Not, 1)][usize::from(token) - 2];
            fields.expect(values >= operands, 6)?;
            values = values - operands + 1;
            tokens.push(known);
        }
    }
    if count > 0 && values != 1 {
        return refuse(6, fields.next);
    }
    Ok(tokens)
}

fn read_comparison(fields: &mut Fields, columns: &Range<usize>) -> Result<Token, Refusal> {
    let op = OPS[usize::from(fields.within(1, 6, 6)?) - 1];
    let left = read_column(fields, columns)?;
    let right = fields.byte()?;
    fields.expect(right == NO_COLUMN || columns.contains(&usize::from(right)), 7)?;
    let constant = read_constant(fields)?;
    let side = if right == NO_COLUMN {
        Side::Constant(constant)
    } else {
        Side::Column(usize::from(right), constant)
    };
    Ok(Token::Compare(op, left, side))
}

fn read_column(fields: &mut Fields, columns: &Range<usize>) -> Result<usize, Refusal> {
    let column = usize::from(fields.byte()?);
    fields.expect(columns.contains(&column), 7)?;
    Ok(column)
}

fn read_constant(fields: &mut Fields) -> Result<i32, Refusal> {
    let constant = fields.number()?;
    fields.expect((-MOST_CONSTANT..=MOST_CONSTANT).contains(&constant), 5)?;
    Ok(constant)
}

fn read_change(fields: &mut Fields, kind: u8, question: &Question) -> Result<Change, Refusal> {
    let own = question.changed_columns();
    if kind == 1 {
        return Ok(Change::Insert(read_rows(fields, &question.columns[own])?));
    }
    let condition = read_condition(fields, own.clone())?;
    if kind == 2 {
        return Ok(Change::Delete(condition));
    }
    let mut modes = Vec::new();
    for _ in own.clone() {
        modes.push(read_mode(fields, &own)?);
    }
    Ok(Change::Modify(condition, modes))
}

fn read_rows(fields: &mut Fields, columns: &[Column]) -> Result<Vec<Vec<i32>>, Refusal> {
    let count = fields.within(0, MOST_ROWS as u8, 4)?;
    let mut rows = Vec::new();
    for _ in 0..count {
        let mut row = Vec::new();
        for column in columns {
            let value = fields.number()?;
            fields.expect((column.lo..=column.hi).contains(&value), 5)?;
            row.push(value);
        }
        rows.push(row);
    }
    Ok(rows)
}

fn read_mode(fields: &mut Fields, own: &Range<usize>) -> Result<Mode, Refusal> {
    let mode = fields.within(0, 2, 4)?;
    if mode == 2 {
        let column = read_column(fields, own)?;
        return Ok(Mode::Become(Side::Column(column, read_constant(fields)?)));
    }
    fields.within(NO_COLUMN, NO_COLUMN, 4)?;
    if mode == 1 {
        return Ok(Mode::Become(Side::Constant(read_constant(fields)?)));
    }
    let nought = fields.number()?;
    fields.expect(nought == 0, 4)?;
    Ok(Mode::Keep)
}
