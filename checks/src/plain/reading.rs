//! What a reader finds: the page's cell, the tail records above the page's lineage, and the
//! records further down only where the page is newer than the reader's stamp; and who set it, which
//! the records alone say, and by whose keeper.

use std::iter;

use reference::Answer;

use super::{faults, Table};
use crate::memory::{self, header, kind, page, state, words, Region, ScanEntry, ROWS};

/// Which commits a reader has: of the first so many those with a stamp at or before this one.
#[derive(Clone, Copy)]
pub(super) struct Snapshot {
    pub(super) stamp: u32,
    pub(super) commits: u32,
}

/// Who reads what.
struct Reader {
    snapshot: Snapshot,
    own: u32,
    range: usize,
    column: usize,
}

/// A page's own words.
struct Page {
    lineage: usize,
    newest: u32,
}

impl<const FAULT: u8> Table<'_, FAULT> {
    /// The read of the current page.
    pub(super) fn read(&self, snapshot: Snapshot, own: u32, row: usize, column: usize) -> Answer {
        self.read_page(snapshot, own, self.current(row / ROWS, column), row, column)
    }

    pub(super) fn read_page(
        &self,
        snapshot: Snapshot,
        own: u32,
        at: usize,
        row: usize,
        column: usize,
    ) -> Answer {
        if !self.visible(snapshot, own, row) {
            return Answer::None;
        }
        let cell = self.cell(at, row);
        let page = self.page(at);
        let reader = Reader { snapshot, own, range: row / ROWS, column };
        // One walk serves both: where it ends at a record not above `down_to`, the page has the value.
        let found = self.found(&reader, row);
        let value = self.word(&reader, &page, cell, found) as i32;
        Answer::Version { value, stamp: self.stamp(&reader, &page, row, found) }
    }

    /// The keeper of the value that such a read of the current page shows.
    pub(super) fn keeper(&self, snapshot: Snapshot, row: usize, column: usize) -> Answer {
        if !self.visible(snapshot, 0, row) && FAULT != faults::KEEPER_OF_AN_UNSEEN_ROW {
            return Answer::None;
        }
        let reader = Reader { snapshot, own: 0, range: row / ROWS, column };
        let found = match FAULT {
            faults::NONE => self.found(&reader, row),
            _ => self.found_by_fault(&reader, row),
        };
        let keeper = match found {
            Some(k) => self.get_later(Region::TailKeeper, self.layout.slot(reader.range, k)),
            None => self.get_later(Region::RowKeeper, row),
        };
        match FAULT {
            faults::WHOLE_WORD_OF_A_KEEPER => Answer::Number(keeper),
            _ => Answer::Number(memory::keeper(keeper)),
        }
    }

    /// The number of the newest record that answers, if the records and not the page alone have the
    /// column's value.
    #[inline(always)]
    fn found(&self, reader: &Reader, row: usize) -> Option<usize> {
        self.is_set(row, reader.column)
            .then(|| self.walk(reader, 0, self.link(row), false))
            .flatten()
    }

    /// Whether an update has set the column. One that none has set is in the page alone.
    fn is_set(&self, row: usize, column: usize) -> bool {
        self.get(Region::RowMask, row) >> column & 1 != 0
    }

    /// The number of the row's newest record, 0 for none.
    fn link(&self, row: usize) -> usize {
        self.get(Region::RowLink, row) as usize
    }

    /// A commit of the snapshot. For a fault all that bear its minute count, whenever made.
    #[inline(always)]
    fn has(snapshot: Snapshot, stamp: u32, ordinal: u32, fault: u8) -> bool {
        stamp <= snapshot.stamp && (ordinal <= snapshot.commits || FAULT == fault)
    }

    /// By a commit of the snapshot, or the reader's own.
    #[inline(always)]
    fn sees_row(&self, snapshot: Snapshot, own: u32, row: usize) -> bool {
        match self.get(Region::RowState, row) {
            state::COMMITTED => {
                let stamp = self.get(Region::RowStamp, row);
                let ordinal = self.get(Region::RowOrdinal, row);
                Self::has(snapshot, stamp, ordinal, faults::SCAN_SEES_LATER_INSERT)
            }
            state::OPEN => own != 0 && self.get(Region::RowTransaction, row) == own,
            _ => false,
        }
    }

    #[inline(always)]
    fn sees_record(&self, snapshot: Snapshot, own: u32, slot: usize, fault: u8) -> bool {
        match self.get(Region::TailState, slot) {
            state::COMMITTED => {
                let stamp = self.get(Region::TailStamp, slot);
                let ordinal = self.get(Region::TailOrdinal, slot);
                Self::has(snapshot, stamp, ordinal, fault)
            }
            state::OPEN => own != 0 && self.get(Region::TailTransaction, slot) == own,
            _ => false,
        }
    }

    /// The row is seen, and its newest record is no delete that is seen.
    fn visible(&self, snapshot: Snapshot, own: u32, row: usize) -> bool {
        self.sees_row(snapshot, own, row)
            && !self.head(row).is_some_and(|head| self.ends(snapshot, own, head))
    }

    /// Whether a row's newest record ends it for the reader.
    #[inline(always)]
    fn ends(&self, snapshot: Snapshot, own: u32, head: usize) -> bool {
        if self.get(Region::TailKind, head) < kind::DELETE {
            return false;
        }
        let aborted = self.get(Region::TailState, head) >= state::ABORTED;
        (FAULT == faults::ABORTED_DELETE_ENDS && aborted)
            || self.sees_record(snapshot, own, head, faults::SCAN_SEES_LATER_END)
    }

    pub(super) fn cell(&self, at: usize, row: usize) -> u32 {
        self.get(Region::Cells, at * ROWS + row % ROWS)
    }

    /// The page's own words.
    fn page(&self, at: usize) -> Page {
        Page {
            lineage: self.get(Region::PageLineage, at) as usize,
            newest: self.get(Region::PageNewest, at),
        }
    }

    /// How far down the reader looks for a value. The ordinals need no look: a scan's page holds what
    /// was committed before the scan, and any other reader has all commits.
    #[inline(always)]
    fn down_to(reader: &Reader, page: &Page) -> usize {
        if page.newest <= reader.snapshot.stamp || FAULT == faults::NO_NEWEST_TEST {
            page.lineage
        } else {
            0
        }
    }

    /// The word, where `found` is the newest record that answers.
    #[inline(always)]
    fn word(&self, reader: &Reader, page: &Page, cell: u32, found: Option<usize>) -> u32 {
        let Some(k) = found.filter(|k| *k > Self::down_to(reader, page)) else {
            return cell;
        };
        let slot = self.layout.slot(reader.range, k);
        let original = || self.get(Region::TailKind, slot) == kind::ORIGINAL;
        if FAULT == faults::ORIGINAL_FORGOTTEN && k <= page.lineage && original() {
            return cell;
        }
        self.get(Region::TailValues, slot * self.layout.columns + reader.column)
    }

    /// The stamp of the commit that set it, 0 where there is none: of the record that answers, but
    /// the insert's where that is an original.
    fn stamp(&self, reader: &Reader, page: &Page, row: usize, found: Option<usize>) -> u32 {
        let inserted = (self.get(Region::RowState, row), self.get(Region::RowStamp, row));
        let of = |k| {
            let slot = self.layout.slot(reader.range, k);
            (self.get(Region::TailState, slot), self.get(Region::TailStamp, slot))
        };
        let original =
            |k| self.get(Region::TailKind, self.layout.slot(reader.range, k)) == kind::ORIGINAL;
        let found = match found {
            Some(_) if FAULT == faults::STAMP_OF_AN_ABORTED => {
                self.walk(reader, 0, self.link(row), true)
            }
            found => found,
        };
        let (state, stamp) = match found {
            _ if FAULT == faults::STAMP_OF_THE_ROW && self.link(row) != 0 => of(self.link(row)),
            Some(k) if FAULT == faults::STAMP_OF_THE_PAGE && k <= Self::down_to(reader, page) => {
                (state::COMMITTED, page.newest)
            }
            Some(k) if FAULT == faults::STAMP_OF_THE_UPDATER => of(k),
            Some(k) if !original(k) => of(k),
            _ => inserted,
        };
        match state {
            state::COMMITTED => stamp,
            _ if FAULT == faults::PENDING_AT_THE_LAST => self.header(header::LAST_STAMP),
            _ => 0,
        }
    }

    /// From record k back along the links, down to `low`, to the number of the first record that
    /// answers: a seen setting of the column, or its original, below which no setting of it lies; for
    /// a fault an aborted setting too.
    #[inline(always)]
    fn walk(&self, reader: &Reader, low: usize, mut k: usize, aborted: bool) -> Option<usize> {
        let Reader { snapshot, own, range, column } = *reader;
        while k > low {
            let slot = self.layout.slot(range, k);
            let answers = self.get(Region::TailMask, slot) >> column & 1 != 0
                && match self.get(Region::TailKind, slot) {
                    kind::ORIGINAL => true,
                    kind::SETTING => {
                        self.sees_record(snapshot, own, slot, faults::SCAN_SEES_LATER_SETTING)
                            || (aborted && self.get(Region::TailState, slot) >= state::ABORTED)
                    }
                    _ => false,
                };
            if answers {
                return Some(k);
            }
            k = self.get(Region::TailLink, slot) as usize;
        }
        None
    }

    /// The page of a place that was current when so many merges had been made.
    pub(super) fn scan_page(&self, merges: u32, range: usize, column: usize) -> usize {
        let current = self.current(range, column);
        if self.get(Region::PageMade, current) <= merges || FAULT == faults::SCAN_ON_CURRENT_PAGE {
            return current;
        }
        let place = self.layout.chunk(range, column);
        let was_current = |at: &usize| {
            self.get(Region::PageState, *at) >= page::WAITING
                && self.get(Region::PageChunk, *at) as usize % self.layout.chunks == place
                && (FAULT == faults::SCAN_ON_OLD_PAGE
                    || (self.get(Region::PageMade, *at) <= merges
                        && merges < self.get(Region::PageReplaced, *at)))
        };
        (0..self.layout.pages).find(was_current).unwrap_or(current)
    }

    /// The count and sum of the rows that a scan sees. Each range's page is found once, and the
    /// rows' words are taken in their order.
    pub(super) fn sum(&self, scan: ScanEntry, column: usize) -> Answer {
        let snapshot = Self::scanned(scan);
        let given = self.header(header::ROWS_GIVEN) as usize;
        let mut count = 0;
        let mut sum = 0;
        for first in (0..given).step_by(ROWS) {
            let rows = ROWS.min(given - first);
            let range = first / ROWS;
            let at = self.scan_page(scan.merges, range, column);
            let page = self.page(at);
            let reader = Reader { snapshot, own: 0, range, column };
            let states = words(self.run(Region::RowState, first, rows));
            let stamps = words(self.run(Region::RowStamp, first, rows));
            let ordinals = words(self.run(Region::RowOrdinal, first, rows));
            let links = words(self.run(Region::RowLink, first, rows));
            let masks = words(self.run(Region::RowMask, first, rows));
            let cells = words(self.run(Region::Cells, at * ROWS, rows));
            let all = states.zip(stamps).zip(ordinals).zip(links).zip(masks).zip(cells);
            for (((((state, stamp), ordinal), link), mask), cell) in all {
                let link = link as usize;
                let seen = state == state::COMMITTED
                    && Self::has(snapshot, stamp, ordinal, faults::SCAN_SEES_LATER_INSERT);
                let ended = || link != 0 && self.ends(snapshot, 0, self.layout.slot(range, link));
                if !seen || ended() {
                    continue;
                }
                let found = if mask >> column & 1 != 0 {
                    self.walk(&reader, Self::down_to(&reader, &page), link, false)
                } else {
                    None
                };
                let word = self.word(&reader, &page, cell, found);
                count += 1;
                sum += i64::from(word as i32);
            }
        }
        Answer::Sum { count, sum }
    }

    // Parts of the wrong stores.

    /// The number of the record whose keeper is given; where there is none, the row's is.
    fn found_by_fault(&self, reader: &Reader, row: usize) -> Option<usize> {
        let Reader { snapshot, range, column, .. } = *reader;
        let newest = |passes: &dyn Fn(usize) -> bool| {
            let next = |k: &usize| {
                let slot = self.layout.slot(range, *k);
                Some(self.get(Region::TailLink, slot) as usize).filter(|k| *k != 0)
            };
            let mut links = iter::successors(Some(self.link(row)).filter(|k| *k != 0), next);
            links.find(|k| passes(self.layout.slot(range, *k)))
        };
        let setting = |slot: usize| self.get(Region::TailKind, slot) == kind::SETTING;
        let of_column = |slot: usize| self.get(Region::TailMask, slot) >> column & 1 != 0;
        let seen = |slot: usize| self.sees_record(snapshot, 0, slot, faults::NONE);
        match FAULT {
            faults::KEEPER_OF_THE_ROW => None,
            faults::KEEPER_OF_AN_ABORTED => self.walk(reader, 0, self.link(row), true),
            faults::KEEPER_OF_THE_NEWEST => newest(&|slot| setting(slot) && of_column(slot)),
            faults::KEEPER_OF_ANOTHER_COLUMN => newest(&|slot| setting(slot) && seen(slot)),
            faults::KEEPER_LOST_BY_MERGE => {
                let page = self.page(self.current(range, column));
                self.found(reader, row).filter(|k| *k > page.lineage)
            }
            faults::KEEPER_WITHOUT_THE_MASK => self.walk(reader, 0, self.link(row), false),
            _ => self.found(reader, row),
        }
    }

    /// The ordinal of the oldest commit of a minute, of which a row or record is left; the commits made
    /// where there is none.
    pub(super) fn oldest_ordinal(&self, minute: u32) -> u32 {
        let given = self.header(header::ROWS_GIVEN) as usize;
        let rows = (0..given).map(|row| {
            let [state, stamp, ordinal] = [Region::RowState, Region::RowStamp, Region::RowOrdinal]
                .map(|region| self.get(region, row));
            (state, stamp, ordinal)
        });
        let records = (0..self.layout.ranges).flat_map(|range| {
            (1..=self.used(range) as usize).map(move |k| {
                let slot = self.layout.slot(range, k);
                let regions = [Region::TailState, Region::TailStamp, Region::TailOrdinal];
                let [state, stamp, ordinal] = regions.map(|region| self.get(region, slot));
                (state, stamp, ordinal)
            })
        });
        let made = self.header(header::COMMITS_MADE);
        rows.chain(records)
            .filter(|(state, stamp, _)| *state == state::COMMITTED && *stamp == minute)
            .fold(made, |oldest, (_, _, ordinal)| oldest.min(ordinal))
    }
}
