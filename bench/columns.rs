//! Some rows of a scan in threads (streams.rs): their values, what an expression makes of them, and their lines.

use crate::requests::{Dtype, Operator};
use std::ops::Range;

/// The values of rows, of which those that are null have 0, false or the empty text.
pub enum Values<'a> {
    Numbers(Vec<i64>),
    Truths(Vec<bool>),
    Texts(Vec<&'a str>),
    /// Fields with their names.
    Struct(Vec<(String, Column<'a>)>),
}

pub struct Column<'a> {
    pub values: Values<'a>,
    /// Which rows aren't null, where some may be.
    pub valid: Option<Vec<bool>>,
}

fn is_set(bits: &[u8], place: usize) -> bool {
    bits[place / 8] >> (place % 8) & 1 == 1
}

impl<'a> Column<'a> {
    /// No rows of a leaf's dtype.
    pub fn empty(dtype: Dtype, nullable: bool) -> Column<'a> {
        let values = match dtype {
            Dtype::Truths => Values::Truths(Vec::new()),
            Dtype::Numbers(_) => Values::Numbers(Vec::new()),
            Dtype::Texts => Values::Texts(Vec::new()),
            Dtype::Struct => Values::Struct(Vec::new()),
        };
        Column { values, valid: nullable.then(Vec::new) }
    }

    /// Appends numbers of so many bytes.
    pub fn append_numbers(&mut self, width: u8, bytes: &[u8]) -> Option<()> {
        let Values::Numbers(numbers) = &mut self.values else { return None };
        match width {
            1 => numbers.extend(bytes.iter().map(|byte| i64::from(*byte))),
            4 => numbers.extend(bytes.chunks_exact(4).map(|four| i64::from(u32::from_le_bytes(four.try_into().unwrap())))),
            _ => numbers.extend(bytes.chunks_exact(8).map(|eight| i64::from_le_bytes(eight.try_into().unwrap()))),
        }
        Some(())
    }

    /// Appends truth values: the bits of a range, of which the first stands in the first byte.
    pub fn append_truths(&mut self, rows: &Range<u64>, bits: &[u8]) -> Option<()> {
        let Values::Truths(truths) = &mut self.values else { return None };
        let first = (rows.start % 8) as usize;
        truths.extend((first..first + (rows.end - rows.start) as usize).map(|place| is_set(bits, place)));
        Some(())
    }

    /// Appends texts of these lengths, without the first few of them; each must be UTF-8.
    pub fn append_texts(&mut self, passed: usize, lengths: &[u8], all: &'a str) -> Option<()> {
        let Values::Texts(texts) = &mut self.values else { return None };
        let mut start = 0;
        for (place, length) in lengths.chunks_exact(4).enumerate() {
            let end = start + u32::from_le_bytes(length.try_into().unwrap()) as usize;
            let text = all.get(start..end)?;
            if place >= passed {
                texts.push(text);
            }
            start = end;
        }
        Some(())
    }

    /// Appends which rows of a range have values; those that have none must be 0.
    pub fn append_valid(&mut self, rows: &Range<u64>, bits: &[u8]) -> Option<()> {
        let Some(valid) = &mut self.valid else { return Some(()) };
        let (known, first) = (valid.len(), (rows.start % 8) as usize);
        valid.extend((first..first + (rows.end - rows.start) as usize).map(|place| is_set(bits, place)));
        let mut nulls = (known..valid.len()).filter(|row| !valid[*row]);
        match &self.values {
            Values::Numbers(numbers) => nulls.all(|row| numbers[row] == 0),
            Values::Truths(truths) => nulls.all(|row| !truths[row]),
            Values::Texts(texts) => nulls.all(|row| texts[row].is_empty()),
            Values::Struct(_) => true,
        }
        .then_some(())
    }

    /// Appends rows of the same kind.
    pub fn extend(&mut self, other: Column<'a>) -> Option<()> {
        match (&mut self.values, other.values) {
            (Values::Numbers(these), Values::Numbers(those)) => these.extend(those),
            (Values::Texts(these), Values::Texts(those)) => these.extend(those),
            _ => return None,
        }
        match (&mut self.valid, other.valid) {
            (Some(these), Some(those)) => these.extend(those),
            (None, None) => {}
            _ => return None,
        }
        Some(())
    }

    pub fn is_valid(&self, row: usize) -> bool {
        self.valid.as_ref().is_none_or(|valid| valid[row])
    }

    /// The values of which these are the codes.
    pub fn looked_up(codes: &Column, values: &Column<'a>) -> Option<Column<'a>> {
        let Values::Numbers(places) = &codes.values else { return None };
        let at = |row: usize| codes.is_valid(row).then_some(places[row] as usize);
        let picked = match &values.values {
            Values::Numbers(numbers) => {
                let number = |row: usize| at(row).map_or(Some(0), |place| numbers.get(place).copied());
                Values::Numbers((0..places.len()).map(number).collect::<Option<_>>()?)
            }
            Values::Texts(texts) => {
                let text = |row: usize| at(row).map_or(Some(""), |place| texts.get(place).copied());
                Values::Texts((0..places.len()).map(text).collect::<Option<_>>()?)
            }
            _ => return None,
        };
        let is_there = |row: usize| at(row).is_some_and(|place| values.is_valid(place));
        let may_lack = codes.valid.is_some() || values.valid.is_some();
        let valid = may_lack.then(|| (0..places.len()).map(is_there).collect());
        Some(Column { values: picked, valid })
    }

    /// What an operator makes of two columns of numbers: nothing at all where it has a fault.
    pub fn of_two(operator: Operator, left: &Column, right: &Column) -> Option<Column<'a>> {
        let (Values::Numbers(these), Values::Numbers(those)) = (&left.values, &right.values) else { return None };
        let both = |row: usize| left.is_valid(row) && right.is_valid(row);
        let valid = (left.valid.is_some() || right.valid.is_some()).then(|| (0..these.len()).map(both).collect());
        let computed = |exact: fn(i64, i64) -> Option<i64>| {
            let pairs = these.iter().zip(those).enumerate();
            pairs.map(|(row, (one, other))| if both(row) { exact(*one, *other) } else { Some(0) }).collect::<Option<_>>()
        };
        let compared = |holds: fn(&i64, &i64) -> bool| {
            let pairs = these.iter().zip(those).enumerate();
            Values::Truths(pairs.map(|(row, (one, other))| both(row) && holds(one, other)).collect())
        };
        let values = match operator {
            Operator::Add => Values::Numbers(computed(i64::checked_add)?),
            Operator::Sub => Values::Numbers(computed(i64::checked_sub)?),
            Operator::Mul => Values::Numbers(computed(i64::checked_mul)?),
            Operator::Div => Values::Numbers(computed(i64::checked_div)?),
            Operator::Equal => compared(i64::eq),
            Operator::Less => compared(i64::lt),
            Operator::Greater => compared(i64::gt),
        };
        Some(Column { values, valid })
    }

    /// Appends the text of a row.
    pub fn append_row(&self, row: usize, lines: &mut Vec<u8>) {
        if !self.is_valid(row) {
            return lines.extend_from_slice(b"null");
        }
        match &self.values {
            Values::Numbers(numbers) => append_number(numbers[row], lines),
            Values::Truths(truths) => lines.extend_from_slice(if truths[row] { b"true" } else { b"false" }),
            Values::Texts(texts) => append_text(texts[row], lines),
            Values::Struct(fields) => {
                lines.push(b'{');
                for (place, (name, field)) in fields.iter().enumerate() {
                    if place != 0 {
                        lines.push(b',');
                    }
                    append_text(name, lines);
                    lines.push(b':');
                    field.append_row(row, lines);
                }
                lines.push(b'}');
            }
        }
    }
}

/// Appends a number in decimal, two digits at a time.
fn append_number(number: i64, lines: &mut Vec<u8>) {
    let (mut digits, mut place, mut rest) = ([b'0'; 20], 20, number.unsigned_abs());
    while rest >= 10 {
        let two = (rest % 100) as u8;
        rest /= 100;
        place -= 2;
        digits[place] += two / 10;
        digits[place + 1] += two % 10;
    }
    if rest > 0 || place == 20 {
        place -= 1;
        digits[place] += rest as u8;
    }
    if number < 0 {
        lines.push(b'-');
    }
    lines.extend_from_slice(&digits[place..]);
}

/// Appends a text as a JSON string.
fn append_text(text: &str, lines: &mut Vec<u8>) {
    lines.push(b'"');
    if text.bytes().any(|byte| byte < 32 || byte == b'"' || byte == b'\\') {
        let mut escaped = String::new();
        crate::append_text(text, &mut escaped);
        lines.extend_from_slice(&escaped.as_bytes()[1..escaped.len() - 1]);
    } else {
        lines.extend_from_slice(text.as_bytes());
    }
    lines.push(b'"');
}
