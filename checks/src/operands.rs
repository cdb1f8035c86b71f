//! Random calls with numbers chosen by looking at a memory and list, so that they are often accepted
//! there, whoever made the bytes.

pub use reference::command::COMMANDS;
use reference::random::Random;
use reference::Call;

use crate::memory::{header, word, words, Layout, Region, ScanEntry, OPENS, ROWS, WORD};

/// The calls without a command byte.
pub const MOVES: [Call; 2] = [Call::Upgrade, Call::Downgrade];

/// A call of each kind, with numbers that fit these bytes.
pub fn every_call_for(memory: &[u8], list: &[ScanEntry], random: &mut Random) -> Vec<Call> {
    let commands = COMMANDS.map(|byte| call_for(byte, memory, list, random));
    commands.chain(MOVES).collect()
}

/// A call of any kind, with numbers that fit these bytes.
pub fn any_call_for(memory: &[u8], list: &[ScanEntry], random: &mut Random) -> Call {
    let (first, last) = (u32::from(*COMMANDS.start()), u32::from(*COMMANDS.end()));
    let kind = random.between(first, last + MOVES.len() as u32);
    match kind.checked_sub(last + 1) {
        Some(place) => MOVES[place as usize].clone(),
        None => call_for(kind as u8, memory, list, random),
    }
}

/// A call of a command byte with numbers that fit these bytes, so that it is often accepted.
pub fn call_for(byte: u8, memory: &[u8], list: &[ScanEntry], random: &mut Random) -> Call {
    let any = random.percent(5);
    Operands { memory, list, layout: readable(memory), random, any }.call(byte)
}

/// The layout, where the bytes are long enough to look at them.
fn readable(memory: &[u8]) -> Option<Layout> {
    Layout::stored(memory).filter(|layout| layout.need() <= memory.len())
}

struct Operands<'a> {
    memory: &'a [u8],
    list: &'a [ScanEntry],
    layout: Option<Layout>,
    random: &'a mut Random,
    /// Whether the numbers are to be anything.
    any: bool,
}

impl Operands<'_> {
    fn call(&mut self, byte: u8) -> Call {
        match byte {
            0x01 => Call::Begin,
            0x02 => Call::Insert { transaction: self.transaction(), values: self.values() },
            0x03 => Call::Update {
                transaction: self.transaction(),
                row: self.row(),
                mask: self.mask(),
                values: self.values(),
            },
            0x04 => Call::Delete { transaction: self.transaction(), row: self.row() },
            0x05 => Call::Commit { transaction: self.transaction(), stamp: self.commit_stamp() },
            0x06 => Call::Abort { transaction: self.transaction() },
            0x07 => Call::Latest { row: self.row(), column: self.column() },
            0x08 => Call::ReadAt { stamp: self.stamp(), row: self.row(), column: self.column() },
            0x09 => Call::OwnRead {
                transaction: self.transaction(),
                row: self.row(),
                column: self.column(),
            },
            0x0A => Call::OpenScan { stamp: self.stamp() },
            0x0B => Call::ScanRead { scan: self.scan(), row: self.row(), column: self.column() },
            0x0C => Call::Sum { scan: self.scan(), column: self.column() },
            0x0D => Call::Close { scan: self.scan() },
            0x0E => self.merge(),
            0x0F => Call::Release,
            0x10 => Call::PageCell { column: self.column(), row: self.row() },
            0x11 => Call::Lineage { range: self.range(), column: self.column() },
            0x12 => self.crossings(),
            0x13 => Call::BeginAs { keeper: self.random.word() as u16 },
            _ => self.keeper_at(),
        }
    }

    fn header(&self, i: usize) -> u32 {
        self.layout.map_or(0, |_| word(self.memory, i))
    }

    fn any(&mut self) -> u32 {
        match self.random.below(4) {
            0 => self.random.word() as u32,
            1 => 0,
            2 => u32::MAX - self.random.below(3),
            _ => self.random.below(20),
        }
    }

    /// Whether the next number is to be anything.
    fn odd(&mut self) -> bool {
        self.any || self.random.percent(5)
    }

    /// Mostly a number below the limit.
    fn below(&mut self, limit: u32) -> u32 {
        if limit == 0 || self.odd() {
            self.any()
        } else {
            self.random.below(limit)
        }
    }

    fn transaction(&mut self) -> u32 {
        let open: Vec<u32> = self.layout.map_or(Vec::new(), |layout| {
            let first = layout.base(Region::Opens) * WORD;
            let numbers = words(&self.memory[first..first + OPENS * WORD]);
            numbers.filter(|number| *number != 0).collect()
        });
        if open.is_empty() || self.odd() {
            return self.any();
        }
        self.random.pick(&open)
    }

    fn scan(&mut self) -> u32 {
        let open: Vec<u32> =
            self.list.iter().map(|scan| scan.number).filter(|number| *number != 0).collect();
        if open.is_empty() || self.odd() {
            return self.any();
        }
        self.random.pick(&open)
    }

    fn row(&mut self) -> u32 {
        let given = self.header(header::ROWS_GIVEN);
        if self.any {
            return self.any();
        }
        match self.random.below(4) {
            // The rows that are most likely to have records.
            0 | 1 => {
                let range = self.range();
                let first = range.wrapping_mul(ROWS as u32);
                first.wrapping_add(self.random.below(3))
            }
            2 => self.below(given),
            _ => self.below(given.min(3)),
        }
    }

    fn column(&mut self) -> u32 {
        let columns = self.layout.map_or(2, |layout| layout.columns as u32);
        self.below(columns)
    }

    fn range(&mut self) -> u32 {
        let ranges = self.layout.map_or(2, |layout| layout.ranges as u32);
        self.below(ranges)
    }

    fn mask(&mut self) -> u16 {
        let columns = self.layout.map_or(2, |layout| layout.columns);
        if self.odd() {
            return self.random.word() as u16;
        }
        self.random.below(1 << columns) as u16
    }

    fn values(&mut self) -> Vec<i32> {
        // Mostly as many as any shape has columns, else any number of them.
        let count = if self.odd() { self.random.below(40) } else { 16 };
        (0..count).map(|_| self.random.word() as i32).collect()
    }

    fn stamp(&mut self) -> u32 {
        if self.any {
            return self.any();
        }
        let last = self.header(header::LAST_STAMP);
        match self.random.below(4) {
            0 => last,
            1 => last.saturating_add(1),
            _ => (self.random.word() % (u64::from(last.min(40)) + 1)) as u32,
        }
    }

    /// A stamp to commit at: often the last commit's again, seldom an earlier one.
    fn commit_stamp(&mut self) -> u32 {
        if self.any {
            return self.any();
        }
        let last = self.header(header::LAST_STAMP);
        match self.random.below(20) {
            0 | 1 => last.saturating_sub(self.random.between(1, 3)),
            2..=9 => last,
            _ => last.saturating_add(self.random.between(1, 3)),
        }
    }

    /// Crossings of a cell, by a mark at or beside a value that some record of its range has there, in
    /// minutes that mostly are those of records.
    fn crossings(&mut self) -> Call {
        let (row, column) = (self.row_of_record(), self.column());
        let one = self.record_near(row, column);
        let mark = match self.random.below(8) {
            0 => self.any() as i32,
            1 => self.random.pick(&[i32::MIN, 0, i32::MAX]),
            2 | 3 => one.0.saturating_add(1),
            _ => one.0,
        };
        let (from, to) = match self.random.below(8) {
            0..=3 => (0, self.header(header::LAST_STAMP)),
            4 => (self.stamp(), self.stamp()),
            5 => (one.1, self.header(header::LAST_STAMP)),
            _ => {
                let other = self.record_near(row, column).1;
                (one.1.min(other), one.1.max(other))
            }
        };
        // Seldom more than a few crossings: a tail of such a memory is short.
        let places = if self.odd() { self.random.below(20) } else { self.random.below(4) };
        Call::Crossings { row, column, mark, from, to, places }
    }

    /// A keeper of a cell, mostly at the stamp of some record of its range or just before it.
    fn keeper_at(&mut self) -> Call {
        let (row, column) = (self.row_of_record(), self.column());
        let of_record = self.record_near(row, column).1;
        let stamp = match self.random.below(8) {
            0 | 1 => self.stamp(),
            2 => of_record.saturating_sub(1),
            3 | 4 => of_record,
            _ => self.header(header::LAST_STAMP),
        };
        Call::KeeperAt { stamp, row, column }
    }

    /// The slot of a used record of a range, and the layout, if there is one.
    fn record_of(&mut self, range: usize) -> Option<(usize, Layout)> {
        let layout = self.layout.filter(|layout| range < layout.ranges)?;
        let used = word(self.memory, layout.base(Region::Used) + range) as usize;
        let used = used.min(layout.capacity) as u32;
        (used > 0).then(|| (layout.slot(range, 1 + self.random.below(used) as usize), layout))
    }

    /// Mostly a row that a record names.
    fn row_of_record(&mut self) -> u32 {
        let range = self.range() as usize;
        match self.record_of(range) {
            Some((slot, layout)) if !self.odd() => {
                word(self.memory, layout.base(Region::TailRow) + slot)
            }
            _ => self.row(),
        }
    }

    /// The value in a column, and the stamp, of some record in a row's range; 0 where there is none.
    fn record_near(&mut self, row: u32, column: u32) -> (i32, u32) {
        match self.record_of(row as usize / ROWS) {
            Some((slot, layout)) if (column as usize) < layout.columns => {
                let value = slot * layout.columns + column as usize;
                let at = |region, i| word(self.memory, layout.base(region) + i);
                (at(Region::TailValues, value) as i32, at(Region::TailStamp, slot))
            }
            _ => (0, 0),
        }
    }

    fn merge(&mut self) -> Call {
        let (range, column) = (self.range(), self.column());
        let used = match self.layout {
            Some(layout) if (range as usize) < layout.ranges => {
                word(self.memory, layout.base(Region::Used) + range as usize)
            }
            _ => 4,
        };
        let through = if !self.any && self.random.percent(50) {
            used
        } else {
            self.below(used.saturating_add(2))
        };
        Call::Merge { range, column, through }
    }
}
