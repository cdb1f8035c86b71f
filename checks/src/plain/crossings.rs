//! The crossings of a level: a pass over the tail records that name a row, from the oldest to the newest.
//! One pass counts them, so that a refused call writes no stamp, and one lists them.

use reference::Answer;

use super::{faults, require, Outcome, Table};
use crate::memory::{kind, state, words, Region, ROWS};

/// Which crossings are asked for.
#[derive(Clone, Copy)]
pub(super) struct Asked {
    pub(super) row: usize,
    pub(super) column: usize,
    pub(super) mark: i32,
    pub(super) from: u32,
    pub(super) to: u32,
}

/// A committed value: by whom, on which side of the mark, and when.
#[derive(Clone, Copy)]
struct Value {
    by: u32,
    above: bool,
    stamp: u32,
}

/// What the records so far come to: the newest value, which its transaction may still replace, and the
/// side of the one before it.
#[derive(Clone, Copy, Default)]
struct Pass {
    before: Option<bool>,
    newest: Option<Value>,
}

impl<const FAULT: u8> Table<'_, FAULT> {
    /// Lists the crossings in the lent stamps, if there are enough of these.
    pub(super) fn list(&self, asked: &Asked, stamps: &mut [u32]) -> Outcome {
        let count = self.crossings(asked, |_, _| {});
        if FAULT == faults::STAMPS_THOUGH_REFUSED {
            let mut places = stamps.iter_mut();
            self.crossings(asked, |_, stamp| {
                if let Some(place) = places.next() {
                    *place = stamp;
                }
            });
        }
        require(count <= stamps.len(), 21)?;
        let fits = count == 0 || count < stamps.len();
        require(fits || FAULT != faults::FULL_SLICE_REFUSED, 21)?;
        self.crossings(asked, |place, stamp| stamps[place] = stamp);
        match FAULT {
            faults::STAMP_PAST_THE_COUNT if count < stamps.len() => stamps[count] = 0,
            faults::NEWEST_FIRST => stamps[..count].reverse(),
            _ => {}
        }
        Ok(Answer::Number(count as u32))
    }

    /// Hands on the crossings' stamps, oldest first, each with its place; answers how many there are.
    fn crossings(&self, asked: &Asked, mut found: impl FnMut(usize, u32)) -> usize {
        if FAULT == faults::ENDED_ROW_HAS_NONE && self.has_ended(asked.row) {
            return 0;
        }
        let (mut count, mut last) = (0, None);
        let mut settle = |pass: &Pass| {
            let crossing = Self::settled(asked, pass);
            let again = FAULT == faults::MINUTE_STANDS_ONCE && crossing == last;
            if let Some(stamp) = crossing.filter(|_| !again) {
                found(count, stamp);
                count += 1;
                last = crossing;
            }
        };
        let mut pass = Pass::default();
        let range = asked.row / ROWS;
        let first = range * self.layout.capacity;
        let rows = words(self.run(Region::TailRow, first, self.used(range) as usize));
        for (slot, named) in (first..).zip(rows) {
            if named as usize != asked.row || !self.is_of(asked.column, slot) {
                continue;
            }
            let value = match self.get(Region::TailKind, slot) {
                kind::ORIGINAL if FAULT == faults::INSERTED_VALUE_FORGOTTEN => None,
                kind::ORIGINAL if FAULT == faults::LATER_ORIGINAL && pass.newest.is_some() => None,
                kind::ORIGINAL => self.inserted(asked, slot),
                kind::SETTING => self.set(asked, slot),
                _ => None,
            };
            let Some(value) = value else { continue };
            if let Some(newest) = pass.newest.filter(|it| !Self::replaces(value, *it)) {
                settle(&pass);
                pass.before = Some(newest.above);
            }
            pass.newest = Some(value);
        }
        settle(&pass);
        count
    }

    /// The newest value's stamp, if it is a crossing that is asked for.
    #[inline(always)]
    fn settled(asked: &Asked, pass: &Pass) -> Option<u32> {
        let Value { above, stamp, .. } = pass.newest?;
        let crosses = match pass.before {
            Some(before) => before != above,
            None => FAULT == faults::FIRST_VALUE_CROSSES,
        };
        let listed = match FAULT {
            faults::CROSSING_AT_FROM_LOST => asked.from < stamp,
            faults::CROSSING_AT_TO_LOST => asked.from <= stamp && stamp < asked.to,
            faults::LATER_VALUE_COUNTS => asked.from <= stamp && stamp <= asked.to,
            // No value is later than `to`.
            _ => asked.from <= stamp,
        };
        (crosses && listed).then_some(stamp)
    }

    /// Whether a value takes the newest one's place: of each transaction the last one counts.
    #[inline(always)]
    fn replaces(value: Value, newest: Value) -> bool {
        match FAULT {
            faults::REPLACED_SETTING_COUNTS => false,
            faults::LAST_OF_THE_MINUTE_COUNTS => value.stamp == newest.stamp,
            _ => value.by == newest.by,
        }
    }

    /// Whether a record has a value of a column.
    #[inline(always)]
    fn is_of(&self, column: usize, slot: usize) -> bool {
        let named = self.get(Region::TailMask, slot) >> column & 1 != 0;
        named || FAULT == faults::OTHER_COLUMN_COUNTS
    }

    /// The value that the row was inserted with, which an original holds. The original belongs to the
    /// transaction of an update, the value to the inserter.
    fn inserted(&self, asked: &Asked, slot: usize) -> Option<Value> {
        let [by, state, stamp] = match FAULT {
            faults::ORIGINAL_IS_THE_UPDATERS => OF_RECORDS.map(|region| self.get(region, slot)),
            _ => OF_ROWS.map(|region| self.get(region, asked.row)),
        };
        let by = if FAULT == faults::INSERTER_GIVES_TWO { 0 } else { by };
        self.value(asked, slot, by, state, stamp)
    }

    /// The value that a record sets.
    #[inline(always)]
    fn set(&self, asked: &Asked, slot: usize) -> Option<Value> {
        if FAULT == faults::MERGED_SETTING_PASSED_OVER && self.is_merged(asked.column, slot) {
            return None;
        }
        let [by, state, stamp] = OF_RECORDS.map(|region| self.get(region, slot));
        self.value(asked, slot, by, state, stamp)
    }

    /// The value in a record, if it is committed at `to` or before.
    #[inline(always)]
    fn value(&self, asked: &Asked, slot: usize, by: u32, state: u32, stamp: u32) -> Option<Value> {
        let counts = match state {
            state::OPEN => FAULT == faults::PENDING_SETTING_COUNTS,
            state::COMMITTED => match FAULT {
                faults::VALUE_BEFORE_FROM_FORGOTTEN => (asked.from..=asked.to).contains(&stamp),
                faults::LATER_VALUE_COUNTS => true,
                _ => stamp <= asked.to,
            },
            _ => FAULT == faults::ABORTED_SETTING_COUNTS,
        };
        counts.then(|| {
            let at = slot * self.layout.columns + asked.column;
            let (word, mark) = (self.get(Region::TailValues, at), asked.mark);
            let above = match FAULT {
                faults::ABOVE_ALONE => word as i32 > mark,
                faults::MARK_WITHOUT_SIGN => word >= mark as u32,
                // "At or above is one side, below the other."
                _ => word as i32 >= mark,
            };
            Value { by, above, stamp }
        })
    }

    // Parts of the wrong stores.

    /// Whether the row's newest record is a committed delete.
    fn has_ended(&self, row: usize) -> bool {
        self.head(row).is_some_and(|head| {
            self.get(Region::TailKind, head) >= kind::DELETE
                && self.get(Region::TailState, head) == state::COMMITTED
        })
    }

    /// Whether the column's current page holds a record.
    fn is_merged(&self, column: usize, slot: usize) -> bool {
        let range = slot / self.layout.capacity;
        let lineage = self.get(Region::PageLineage, self.current(range, column)) as usize;
        slot < range * self.layout.capacity + lineage
    }
}

/// Whose a row or record is, and whether and when that was committed.
const OF_ROWS: [Region; 3] = [Region::RowTransaction, Region::RowState, Region::RowStamp];
const OF_RECORDS: [Region; 3] = [Region::TailTransaction, Region::TailState, Region::TailStamp];
