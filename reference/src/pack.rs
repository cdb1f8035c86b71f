//! Packed streams for the crate replay: many streams in one file, and the lines that they must
//! give.
//!
//! A pack is a list of records. A record is nine bytes and then the bytes that it holds:
//!
//! | Bytes | |
//! |---|---|
//! | 1 | the kind, below |
//! | 2 | how many bytes it holds |
//! | 2 | how often its commands are run, one time after the other |
//! | 2 + 2 | two places in its bytes. After each time the two-byte number there rises by one, from 65,535 to 0. A place from which no two bytes are left stands for none |
//!
//! | Kind | It holds | What is written |
//! |---|---|---|
//! | 0 | a title | the title as a line. It begins a stream, in which nothing is read before the shape |
//! | 1 | a shape, or less than one | the line of the shape; a store is made where it is accepted |
//! | 2 | whole commands; a last record of a stream may end inside one | the line of each |
//! | 3 | the same | one line for all of them: their number, the word lines, and the 32-bit FNV-1a hash of their bytes |
//!
//! Numbers are little-endian. After an answer at which gatebook ends, and before a store is made,
//! commands are passed over and nothing is written for their record.

mod streams;

use std::io::{self, Write};

use crate::history::History;
use crate::program;

pub use self::streams::{all, short};

/// What a record holds.
#[derive(Clone, Copy, Debug, PartialEq, Eq)]
pub enum Kind {
    Title = 0,
    Shape = 1,
    Commands = 2,
    Folded = 3,
}

/// The bytes before those that a record holds.
pub const HEAD_BYTES: usize = 9;

/// A place that stands for none, in any record.
pub const NO_PLACE: u16 = u16::MAX;

/// A part of a pack.
#[derive(Clone, Debug, PartialEq, Eq)]
pub struct Record {
    pub kind: Kind,
    pub times: u16,
    pub places: [u16; 2],
    pub bytes: Vec<u8>,
}

impl Record {
    /// A record whose bytes are taken once.
    pub fn once(kind: Kind, bytes: &[u8]) -> Record {
        Record { kind, times: 1, places: [NO_PLACE; 2], bytes: bytes.to_vec() }
    }

    /// All bytes that a record stands for, one time after the other.
    pub fn expanded(&self) -> Vec<u8> {
        let mut bytes = self.bytes.clone();
        let mut all = Vec::new();
        for _ in 0..self.times {
            all.extend_from_slice(&bytes);
            self.raise(&mut bytes);
        }
        all
    }

    /// The bytes of the next time.
    fn raise(&self, bytes: &mut [u8]) {
        for place in self.places.map(usize::from) {
            if place + 2 <= bytes.len() {
                let number = u16::from_le_bytes([bytes[place], bytes[place + 1]]);
                bytes[place..place + 2].copy_from_slice(&number.wrapping_add(1).to_le_bytes());
            }
        }
    }
}

/// The bytes of a list of records.
pub fn write(records: &[Record]) -> Vec<u8> {
    let mut pack = Vec::new();
    for record in records {
        let length = u16::try_from(record.bytes.len()).expect("a record has at most 65,535 bytes");
        pack.push(record.kind as u8);
        for number in [length, record.times, record.places[0], record.places[1]] {
            pack.extend_from_slice(&number.to_le_bytes());
        }
        pack.extend_from_slice(&record.bytes);
    }
    pack
}

/// The records of a pack, or what is wrong with it.
pub fn read(mut pack: &[u8]) -> Result<Vec<Record>, String> {
    let mut records = Vec::new();
    while !pack.is_empty() {
        let (head, rest) = part(pack, HEAD_BYTES).ok_or("the head of a record is cut")?;
        let number = |place: usize| u16::from_le_bytes([head[place], head[place + 1]]);
        let kind = match head[0] {
            0 => Kind::Title,
            1 => Kind::Shape,
            2 => Kind::Commands,
            3 => Kind::Folded,
            kind => return Err(format!("a record of the unknown kind {kind}")),
        };
        let (bytes, rest) = part(rest, number(1).into()).ok_or("the bytes of a record are cut")?;
        let places = [number(5), number(7)];
        records.push(Record { kind, times: number(3), places, bytes: bytes.to_vec() });
        pack = rest;
    }
    Ok(records)
}

/// The first bytes and the rest, if there are so many.
fn part(bytes: &[u8], length: usize) -> Option<(&[u8], &[u8])> {
    (length <= bytes.len()).then(|| bytes.split_at(length))
}

/// The 32-bit FNV-1a hash of lines, and their number.
pub struct Digest {
    pub lines: u64,
    pub hash: u32,
}

impl Digest {
    pub fn of(text: &[u8]) -> Digest {
        let hash = |hash: u32, byte: &u8| (hash ^ u32::from(*byte)).wrapping_mul(0x0100_0193);
        Digest {
            lines: text.iter().filter(|byte| **byte == b'\n').count() as u64,
            hash: text.iter().fold(0x811C_9DC5, hash),
        }
    }
}

/// Writes what a pack's streams must give.
pub fn replay(records: &[Record], output: &mut impl Write) -> io::Result<()> {
    let mut store = None;
    for record in records {
        match record.kind {
            Kind::Title => {
                output.write_all(&record.bytes)?;
                writeln!(output)?;
                store = None;
            }
            Kind::Shape => store = program::start(&mut record.bytes.as_slice(), output)?,
            Kind::Commands => store = turns(store, record, output)?,
            Kind::Folded => {
                if store.is_some() {
                    let mut lines = Vec::new();
                    store = turns(store, record, &mut lines)?;
                    let Digest { lines, hash } = Digest::of(&lines);
                    writeln!(output, "{lines} lines {hash:08x}")?;
                }
            }
        }
    }
    Ok(())
}

/// Runs the commands of a record; the history, unless the stream has ended.
fn turns(
    store: Option<History>,
    record: &Record,
    output: &mut impl Write,
) -> io::Result<Option<History>> {
    let Some(mut history) = store else { return Ok(None) };
    let bytes = record.expanded();
    let mut rest = bytes.as_slice();
    while !rest.is_empty() {
        if !program::turn(&mut history, &mut rest, output)? {
            return Ok(None);
        }
    }
    Ok(Some(history))
}
