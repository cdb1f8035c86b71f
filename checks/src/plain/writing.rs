//! What the accepted calls write. The calls have been tested: these test nothing.

use reference::Answer;

use super::{faults, Table};
use crate::memory::{header, kind, page, state, words, Region, MOST_COLUMNS, OPENS, ROWS, WORD};

/// Words looked at together by the passes that seldom find what they look for.
const STEP: usize = 16;

/// Bits in a word, and the first of the spare words of the header in which a wrong store has one for each
/// row of a range.
const BITS: usize = 8 * WORD;
const NOTES: usize = header::WORDS - ROWS / BITS;

/// What the rows and records of a transaction get when it ends.
#[derive(Clone, Copy)]
struct Settled {
    state: u32,
    stamp: u32,
    ordinal: u32,
}

/// Whose they are, and what they get, in the order of the regions in memory.
const OF_ROWS: [Region; 4] =
    [Region::RowTransaction, Region::RowState, Region::RowStamp, Region::RowOrdinal];
const OF_RECORDS: [Region; 4] =
    [Region::TailTransaction, Region::TailState, Region::TailStamp, Region::TailOrdinal];

impl<const FAULT: u8> Table<'_, FAULT> {
    /// Counts a row or record made by the transaction in an open place.
    fn note(&mut self, open: usize) {
        let noted = self.get(Region::Changes, open);
        self.put(Region::Changes, open, noted.wrapping_add(1));
    }

    pub(super) fn insert(&mut self, transaction: u32, open: usize, values: &[i32]) -> Answer {
        let number = self.header(header::ROWS_GIVEN);
        let row = number as usize;
        self.put(Region::RowTransaction, row, transaction);
        self.put(Region::RowState, row, state::OPEN);
        self.put(Region::RowStamp, row, 0);
        self.put(Region::RowOrdinal, row, 0);
        self.put(Region::RowLink, row, 0);
        self.put(Region::RowMask, row, 0);
        self.put_later(Region::RowKeeper, row, self.keeper_of(open));
        for column in 0..self.layout.columns {
            let at = self.current(row / ROWS, column);
            self.put(Region::Cells, at * ROWS + row % ROWS, word_of(values, column));
        }
        self.put(Region::Header, header::ROWS_GIVEN, number + 1);
        self.note(open);
        Answer::Number(number)
    }

    pub(super) fn update(
        &mut self,
        transaction: u32,
        open: usize,
        row: usize,
        mask: u32,
        values: &[i32],
    ) -> Answer {
        let old = self.get(Region::RowMask, row);
        if mask & !old != 0 {
            let keeper = match FAULT {
                faults::KEEPER_OF_THE_UPDATER => self.keeper_of(open),
                _ => self.get_later(Region::RowKeeper, row),
            };
            let slot = self.append(transaction, row, kind::ORIGINAL, mask & !old, keeper);
            for column in 0..self.layout.columns {
                // No setting of these columns is in the page yet.
                let cell = self.cell(self.current(row / ROWS, column), row);
                self.put(Region::TailValues, slot * self.layout.columns + column, cell);
            }
        }
        let keeper = self.keeper_of(open);
        let slot = self.append(transaction, row, kind::SETTING, mask, keeper);
        for column in 0..self.layout.columns {
            let word = word_of(values, column);
            self.put(Region::TailValues, slot * self.layout.columns + column, word);
        }
        self.put(Region::RowMask, row, mask | old);
        self.note(open);
        Answer::Number(self.used(row / ROWS))
    }

    pub(super) fn delete(&mut self, transaction: u32, open: usize, row: usize) -> Answer {
        let keeper = match FAULT {
            faults::DELETE_WITHOUT_KEEPER => 0,
            _ => self.keeper_of(open),
        };
        self.append(transaction, row, kind::DELETE, 0, keeper);
        if FAULT == faults::DELETE_ZEROES_CELL {
            let at = self.current(row / ROWS, 0);
            self.put(Region::Cells, at * ROWS + row % ROWS, 0);
        }
        self.note(open);
        Answer::Number(self.used(row / ROWS))
    }

    /// The keeper of the transaction in an open place, the word as it stands.
    fn keeper_of(&self, open: usize) -> u32 {
        let keeper = self.get_later(Region::OpenKeeper, open);
        match FAULT {
            faults::KEEPER_OF_ONE_BYTE => keeper % 256,
            _ => keeper,
        }
    }

    /// One tail record more, the row's newest now; answers its slot.
    fn append(&mut self, transaction: u32, row: usize, kind: u32, mask: u32, keeper: u32) -> usize {
        let range = row / ROWS;
        let k = self.used(range) + 1;
        let slot = self.layout.slot(range, k as usize);
        let link = self.get(Region::RowLink, row);
        self.put(Region::TailTransaction, slot, transaction);
        self.put(Region::TailRow, slot, row as u32);
        self.put(Region::TailKind, slot, kind);
        self.put(Region::TailMask, slot, mask);
        self.put(Region::TailLink, slot, link);
        self.put(Region::TailState, slot, state::OPEN);
        self.put(Region::TailStamp, slot, 0);
        self.put(Region::TailOrdinal, slot, 0);
        self.put_later(Region::TailKeeper, slot, keeper);
        self.put(Region::Used, range, k);
        self.put(Region::RowLink, row, k);
        slot
    }

    pub(super) fn commit(&mut self, transaction: u32, open: usize, stamp: u32) -> Answer {
        let empty = self.get(Region::Changes, open) == 0;
        let counted = !(empty && FAULT == faults::EMPTY_COMMIT_NOT_COUNTED);
        let made = self.header(header::COMMITS_MADE);
        let ordinal = made.wrapping_add(u32::from(counted));
        self.settle(transaction, Settled { state: state::COMMITTED, stamp, ordinal });
        self.free(open);
        self.put(Region::Header, header::LAST_STAMP, stamp);
        self.put(Region::Header, header::COMMITS_MADE, ordinal);
        Answer::Done
    }

    pub(super) fn abort(&mut self, transaction: u32, open: usize) -> Answer {
        if FAULT == faults::ABORT_TAKES_MASK_BITS {
            self.take_mask_bits(transaction);
        }
        self.settle(transaction, Settled { state: state::ABORTED, stamp: 0, ordinal: 0 });
        self.free(open);
        Answer::Done
    }

    fn free(&mut self, open: usize) {
        self.put(Region::Opens, open, 0);
        self.put(Region::Changes, open, 0);
        if !faults::leaves_keeper(FAULT) {
            self.put_later(Region::OpenKeeper, open, 0);
        }
    }

    /// Every given row and used record of the transaction gets the state, the stamp and the ordinal.
    fn settle(&mut self, transaction: u32, settled: Settled) {
        let given = self.header(header::ROWS_GIVEN) as usize;
        self.mark(OF_ROWS, 0, given, transaction, settled);
        if FAULT == faults::COMMIT_FORGETS_RECORDS && settled.state == state::COMMITTED {
            return;
        }
        for range in 0..self.layout.ranges {
            let first = range * self.layout.capacity;
            let used = self.used(range) as usize;
            self.mark(OF_RECORDS, first, used, transaction, settled);
        }
    }

    /// The regions stand in this order in memory. Most stretches have nothing of the transaction,
    /// so each is first looked through as a whole.
    fn mark(
        &mut self,
        regions: [Region; 4],
        from: usize,
        n: usize,
        transaction: u32,
        settled: Settled,
    ) {
        let [keys, states, stamps, ordinals] = regions.map(|region| self.layout.base(region));
        let (below, rest) = self.memory.split_at_mut(states * WORD);
        let (below_stamps, rest) = rest.split_at_mut((stamps - states) * WORD);
        let (below_ordinals, above) = rest.split_at_mut((ordinals - stamps) * WORD);
        let keys = &below[(keys + from) * WORD..(keys + from + n) * WORD];
        let states = &mut below_stamps[from * WORD..(from + n) * WORD];
        let stamps = &mut below_ordinals[from * WORD..(from + n) * WORD];
        let ordinals = &mut above[from * WORD..(from + n) * WORD];
        let stretches = keys
            .chunks(STEP * WORD)
            .zip(states.chunks_mut(STEP * WORD))
            .zip(stamps.chunks_mut(STEP * WORD))
            .zip(ordinals.chunks_mut(STEP * WORD));
        for (((keys, states), stamps), ordinals) in stretches {
            if !words(keys).fold(false, |any, key| any | (key == transaction)) {
                continue;
            }
            let old = states
                .chunks_exact_mut(WORD)
                .zip(stamps.chunks_exact_mut(WORD))
                .zip(ordinals.chunks_exact_mut(WORD));
            for (key, ((state, stamp), ordinal)) in words(keys).zip(old) {
                if key == transaction {
                    state.copy_from_slice(&settled.state.to_le_bytes());
                    stamp.copy_from_slice(&settled.stamp.to_le_bytes());
                    ordinal.copy_from_slice(&settled.ordinal.to_le_bytes());
                }
            }
        }
    }

    /// Whether one of the records through `high` belongs to an open transaction.
    pub(super) fn any_open(&self, range: usize, high: usize) -> bool {
        let opens = words(self.run(Region::Opens, 0, OPENS));
        opens.filter(|number| *number != 0).any(|number| {
            words(self.run(Region::TailTransaction, range * self.layout.capacity, high))
                .fold(false, |any, setter| any | (setter == number))
        })
    }

    /// The first page that says it is free, else the first that says current and whose place
    /// does not name it.
    pub(super) fn free_page(&self) -> Option<usize> {
        let states = self.run(Region::PageState, 0, self.layout.pages);
        let free = words(states).position(|state| state == page::FREE);
        free.or_else(|| (0..self.layout.pages).find(|at| self.is_stray(*at)))
    }

    fn is_stray(&self, at: usize) -> bool {
        let place = self.get(Region::PageChunk, at) as usize;
        let named = place < self.layout.columns * self.layout.ranges
            && self.get(Region::Current, place) as usize == at;
        self.get(Region::PageState, at) == page::CURRENT && !named
    }

    /// Copies page `old` to page `new` and overwrites the cells by the committed settings of the
    /// records after `low`, through `high`, in order.
    pub(super) fn merge(
        &mut self,
        range: usize,
        column: usize,
        low: usize,
        high: usize,
        old: usize,
        new: usize,
    ) -> Answer {
        let mut cells = [0; ROWS * WORD];
        cells.copy_from_slice(self.run(Region::Cells, old * ROWS, ROWS));
        if FAULT == faults::MERGE_DROPS_UNCOMMITTED_ROWS {
            self.drop_uncommitted(range, &mut cells);
        }
        let mut newest = self.get(Region::PageNewest, old);
        for slot in self.layout.slot(range, low + 1)..=self.layout.slot(range, high) {
            if FAULT == faults::MERGE_STOPS_AT_ABORTED
                && self.get(Region::TailState, slot) >= state::ABORTED
            {
                break;
            }
            if faults::notes_rows(FAULT) {
                self.note_met(slot, new);
            }
            if self.applies(column, slot) {
                let row = self.get(Region::TailRow, slot) as usize % ROWS;
                let word = self.get(Region::TailValues, slot * self.layout.columns + column);
                if FAULT != faults::MERGE_APPLIES_NOTHING {
                    cells[row * WORD..(row + 1) * WORD].copy_from_slice(&word.to_le_bytes());
                }
                if FAULT != faults::MERGE_FORGETS_NEWEST {
                    newest = newest.max(self.get(Region::TailStamp, slot));
                }
            }
        }
        if FAULT == faults::MERGE_CLEARS_ITS_NOTES {
            self.run_mut(Region::Header, NOTES, ROWS / BITS).fill(0);
        }
        let merges = self.header(header::MERGES_MADE).wrapping_add(1);
        let place = self.layout.chunk(range, column);
        self.run_mut(Region::Cells, new * ROWS, ROWS).copy_from_slice(&cells);
        self.put(Region::PageState, new, page::CURRENT);
        self.put(Region::PageChunk, new, place as u32);
        self.put(Region::PageMade, new, merges);
        self.put(Region::PageLineage, new, high as u32);
        self.put(Region::PageNewest, new, newest);
        self.put(Region::PageState, old, page::WAITING);
        self.put(Region::PageReplaced, old, merges);
        self.put(Region::Current, place, new as u32);
        self.put(Region::Header, header::MERGES_MADE, merges);
        Answer::Done
    }

    /// Whether a record is a committed setting of a column.
    #[inline(always)]
    fn applies(&self, column: usize, slot: usize) -> bool {
        let kind = self.get(Region::TailKind, slot);
        let state = self.get(Region::TailState, slot);
        let aborted = FAULT == faults::MERGE_APPLIES_ABORTED && state >= state::ABORTED;
        let original = FAULT == faults::MERGE_APPLIES_ORIGINALS && kind == kind::ORIGINAL;
        self.get(Region::TailMask, slot) >> column & 1 != 0
            && (kind == kind::SETTING || original)
            && (state == state::COMMITTED || aborted)
    }

    /// Frees each waiting page that no open scan needs: a scan that was opened before the merge
    /// that replaced the page. So the scan opened first tells for all.
    pub(super) fn release(&mut self) -> Answer {
        let mut oldest = u32::MAX;
        for scan in self.scans.iter() {
            if scan.is_open() {
                oldest = oldest.min(scan.merges);
            }
        }
        if FAULT == faults::RELEASE_HEEDS_NO_SCAN {
            oldest = u32::MAX;
        }
        if FAULT == faults::RELEASE_OFF_BY_ONE {
            oldest = oldest.saturating_add(1);
        }
        let mut freed = 0;
        for at in 0..self.layout.pages {
            let waits = self.get(Region::PageState, at) >= page::WAITING;
            if waits && self.get(Region::PageReplaced, at) <= oldest {
                self.put(Region::PageState, at, page::FREE);
                freed += 1;
            }
        }
        Answer::Number(freed)
    }

    // Parts of the wrong stores.

    /// Notes the row of a record that a merge into page `new` meets.
    fn note_met(&mut self, slot: usize, new: usize) {
        let met = |table: &Self| table.get(Region::TailRow, slot) as usize;
        match FAULT {
            faults::MERGE_NOTES_IN_HEADER | faults::MERGE_CLEARS_ITS_NOTES => {
                let at = NOTES + met(self) % ROWS / BITS;
                self.put(Region::Header, at, self.header(at) | 1 << (met(self) % BITS));
            }
            faults::MERGE_NOTES_IN_FREE_PAGE => {
                let free = |at: &usize| self.get(Region::PageState, *at) == page::FREE;
                let other = (0..self.layout.pages).filter(free).find(|at| *at != new);
                if let Some(other) = other {
                    self.put(Region::Cells, other * ROWS + met(self) % ROWS, 1);
                }
            }
            faults::MERGE_NOTES_IN_MASK => {
                let mask = self.get(Region::RowMask, met(self));
                self.put(Region::RowMask, met(self), mask | 1 << MOST_COLUMNS);
            }
            _ => {}
        }
    }

    fn take_mask_bits(&mut self, transaction: u32) {
        for range in 0..self.layout.ranges {
            for k in 1..=self.used(range) as usize {
                let slot = self.layout.slot(range, k);
                if self.get(Region::TailTransaction, slot) == transaction {
                    let row = self.get(Region::TailRow, slot) as usize;
                    let mask = self.get(Region::RowMask, row) & !self.get(Region::TailMask, slot);
                    self.put(Region::RowMask, row, mask);
                }
            }
        }
    }

    fn drop_uncommitted(&self, range: usize, cells: &mut [u8]) {
        let given = self.header(header::ROWS_GIVEN) as usize;
        for row in range * ROWS..given.min((range + 1) * ROWS) {
            if self.get(Region::RowState, row) != state::COMMITTED {
                cells[row % ROWS * WORD..][..WORD].fill(0);
            }
        }
    }
}

/// A caller's value for a column as a word, 0 where the list is too short.
#[inline(always)]
fn word_of(values: &[i32], column: usize) -> u32 {
    values.get(column).map_or(0, |value| *value as u32)
}
