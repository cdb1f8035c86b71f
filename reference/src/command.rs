//! The commands of gatebook as bytes: which operands follow a command byte, and calls to bytes
//! and back. The moves of document 02's Item 7 have no command byte.

use std::ops::RangeInclusive;

use crate::call::Call;
use crate::program::LENT_STAMPS;

/// The command bytes.
pub const COMMANDS: RangeInclusive<u8> = 0x01..=0x14;

/// One operand of a command.
#[derive(Clone, Copy, Debug, PartialEq, Eq)]
pub enum Field {
    Transaction,
    Row,
    Mask,
    Value,
    Stamp,
    Column,
    Scan,
    Range,
    Through,
    Mark,
    From,
    To,
    Keeper,
}

impl Field {
    /// The operand's width in bytes.
    pub fn width(self) -> usize {
        match self {
            Field::Column | Field::Range => 1,
            Field::Transaction | Field::Row | Field::Mask | Field::Scan => 2,
            Field::Through | Field::Keeper => 2,
            Field::Value | Field::Stamp | Field::Mark | Field::From | Field::To => 4,
        }
    }

    pub fn name(self) -> &'static str {
        match self {
            Field::Transaction => "transaction",
            Field::Row => "row",
            Field::Mask => "mask",
            Field::Value => "value",
            Field::Stamp => "stamp",
            Field::Column => "column",
            Field::Scan => "scan",
            Field::Range => "range",
            Field::Through => "through",
            Field::Mark => "mark",
            Field::From => "from",
            Field::To => "to",
            Field::Keeper => "keeper",
        }
    }

    /// Values, and the mark beside which they lie, are signed; the other numbers are not.
    fn signed(self) -> bool {
        matches!(self, Field::Value | Field::Mark)
    }

    /// Whether a number can be written in the operand's bytes.
    pub fn fits(self, number: i64) -> bool {
        if self.signed() {
            i32::try_from(number).is_ok()
        } else {
            (0..1 << (8 * self.width())).contains(&number)
        }
    }
}

/// The operands of a command byte, or nothing for an unknown one; "every column's value" stands
/// as one field for each column.
pub fn operands(byte: u8, columns: usize) -> Option<Vec<Field>> {
    use Field::*;
    let (fixed, values): (&[Field], bool) = match byte {
        0x01 | 0x0F => (&[], false),
        0x02 => (&[Transaction], true),
        0x03 => (&[Transaction, Row, Mask], true),
        0x04 => (&[Transaction, Row], false),
        0x05 => (&[Transaction, Stamp], false),
        0x06 => (&[Transaction], false),
        0x07 => (&[Row, Column], false),
        0x08 | 0x14 => (&[Stamp, Row, Column], false),
        0x09 => (&[Transaction, Row, Column], false),
        0x0A => (&[Stamp], false),
        0x0B => (&[Scan, Row, Column], false),
        0x0C => (&[Scan, Column], false),
        0x0D => (&[Scan], false),
        0x0E => (&[Range, Column, Through], false),
        0x10 => (&[Column, Row], false),
        0x11 => (&[Range, Column], false),
        0x12 => (&[Row, Column, Mark, From, To], false),
        0x13 => (&[Keeper], false),
        _ => return None,
    };
    let mut fields = fixed.to_vec();
    if values {
        fields.resize(fields.len() + columns, Value);
    }
    Some(fields)
}

/// The bytes that a list of operands takes.
pub fn width(fields: &[Field]) -> usize {
    fields.iter().map(|field| field.width()).sum()
}

/// The numbers written in operand bytes, little-endian.
pub fn numbers(fields: &[Field], mut bytes: &[u8]) -> Vec<i64> {
    let mut numbers = Vec::with_capacity(fields.len());
    for field in fields {
        let (operand, rest) = bytes.split_at(field.width());
        let number = operand.iter().rev().fold(0u32, |number, byte| number << 8 | u32::from(*byte));
        numbers.push(if field.signed() { i64::from(number as i32) } else { i64::from(number) });
        bytes = rest;
    }
    numbers
}

/// The call of a known command byte with the numbers of its operands.
pub fn call(byte: u8, numbers: &[i64]) -> Call {
    let number = |place: usize| numbers[place] as u32;
    let values = |first: usize| numbers[first..].iter().map(|value| *value as i32).collect();
    match byte {
        0x01 => Call::Begin,
        0x02 => Call::Insert { transaction: number(0), values: values(1) },
        0x03 => Call::Update {
            transaction: number(0),
            row: number(1),
            mask: number(2) as u16,
            values: values(3),
        },
        0x04 => Call::Delete { transaction: number(0), row: number(1) },
        0x05 => Call::Commit { transaction: number(0), stamp: number(1) },
        0x06 => Call::Abort { transaction: number(0) },
        0x07 => Call::Latest { row: number(0), column: number(1) },
        0x08 => Call::ReadAt { stamp: number(0), row: number(1), column: number(2) },
        0x09 => Call::OwnRead { transaction: number(0), row: number(1), column: number(2) },
        0x0A => Call::OpenScan { stamp: number(0) },
        0x0B => Call::ScanRead { scan: number(0), row: number(1), column: number(2) },
        0x0C => Call::Sum { scan: number(0), column: number(1) },
        0x0D => Call::Close { scan: number(0) },
        0x0E => Call::Merge { range: number(0), column: number(1), through: number(2) },
        0x0F => Call::Release,
        0x10 => Call::PageCell { column: number(0), row: number(1) },
        0x11 => Call::Lineage { range: number(0), column: number(1) },
        0x12 => Call::Crossings {
            row: number(0),
            column: number(1),
            mark: numbers[2] as i32,
            from: number(3),
            to: number(4),
            places: LENT_STAMPS,
        },
        0x13 => Call::BeginAs { keeper: number(0) as u16 },
        0x14 => Call::KeeperAt { stamp: number(0), row: number(1), column: number(2) },
        _ => unreachable!("command {byte:02X} has no call"),
    }
}

/// The call of the first command, and the bytes after it; nothing where its byte is unknown or it is
/// cut.
pub fn first(bytes: &[u8], columns: usize) -> Option<(Call, &[u8])> {
    let (byte, operand_bytes) = bytes.split_first()?;
    let fields = operands(*byte, columns)?;
    let (operand_bytes, rest) = operand_bytes.split_at_checked(width(&fields))?;
    Some((call(*byte, &numbers(&fields, operand_bytes)), rest))
}

/// A call's command byte and the numbers of its operands, if it has a command byte. What is lent besides is
/// no operand.
pub fn parts(call: &Call) -> Option<(u8, Vec<i64>)> {
    let (byte, fixed, values): (u8, &[u32], &[i32]) = match call {
        Call::Begin => (0x01, &[], &[]),
        Call::Insert { transaction, values } => (0x02, &[*transaction], values),
        Call::Update { transaction, row, mask, values } => {
            (0x03, &[*transaction, *row, u32::from(*mask)], values)
        }
        Call::Delete { transaction, row } => (0x04, &[*transaction, *row], &[]),
        Call::Commit { transaction, stamp } => (0x05, &[*transaction, *stamp], &[]),
        Call::Abort { transaction } => (0x06, &[*transaction], &[]),
        Call::Latest { row, column } => (0x07, &[*row, *column], &[]),
        Call::ReadAt { stamp, row, column } => (0x08, &[*stamp, *row, *column], &[]),
        Call::OwnRead { transaction, row, column } => (0x09, &[*transaction, *row, *column], &[]),
        Call::OpenScan { stamp } => (0x0A, &[*stamp], &[]),
        Call::ScanRead { scan, row, column } => (0x0B, &[*scan, *row, *column], &[]),
        Call::Sum { scan, column } => (0x0C, &[*scan, *column], &[]),
        Call::Close { scan } => (0x0D, &[*scan], &[]),
        Call::Merge { range, column, through } => (0x0E, &[*range, *column, *through], &[]),
        Call::Release => (0x0F, &[], &[]),
        Call::PageCell { column, row } => (0x10, &[*column, *row], &[]),
        Call::Lineage { range, column } => (0x11, &[*range, *column], &[]),
        Call::Crossings { row, column, mark, from, to, places: _ } => {
            let [row, column, from, to] = [*row, *column, *from, *to].map(i64::from);
            return Some((0x12, vec![row, column, i64::from(*mark), from, to]));
        }
        Call::BeginAs { keeper } => (0x13, &[u32::from(*keeper)], &[]),
        Call::KeeperAt { stamp, row, column } => (0x14, &[*stamp, *row, *column], &[]),
        Call::Upgrade | Call::Downgrade => return None,
    };
    let fixed = fixed.iter().map(|number| i64::from(*number));
    let values = values.iter().map(|value| i64::from(*value));
    Some((byte, fixed.chain(values).collect()))
}

/// Writes one number in an operand's bytes; it must fit.
pub fn put(output: &mut Vec<u8>, width: usize, number: i64) {
    output.extend_from_slice(&number.to_le_bytes()[..width]);
}

/// Writes a call as command bytes. False, with nothing written, if it has none, a number does not fit or
/// the list of values is not as long as the columns.
pub fn write(output: &mut Vec<u8>, call: &Call, columns: usize) -> bool {
    let Some((byte, numbers)) = parts(call) else { return false };
    let fields = operands(byte, columns).expect("the byte of a call is known");
    let mut both = fields.iter().zip(&numbers);
    if fields.len() != numbers.len() || !both.all(|(field, number)| field.fits(*number)) {
        return false;
    }
    output.push(byte);
    for (field, number) in fields.iter().zip(&numbers) {
        put(output, field.width(), *number);
    }
    true
}
