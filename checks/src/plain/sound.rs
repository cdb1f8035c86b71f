//! The test of the stored facts that every call makes first. It passes over all that is used, so
//! it is the greatest part of a call in a full store: one flag is carried to the end of each pass
//! instead of an early exit, which lets the compiler test several words at once.

use crate::memory::{form_of, header, page, word, words, Layout, Region, ScanEntry};
use crate::memory::{MOST_COLUMNS, MOST_RANGES, MOST_RECORDS, NUMBERS, OPENS, ROWS, SCANS, WORD};

/// A range with no more records takes a smaller array to look them up in, which is sooner cleared.
const FEW_RECORDS: usize = 32;

/// The layout of a store whose facts hold, in its form.
pub fn sound(memory: &[u8], list: &[ScanEntry]) -> Option<Layout> {
    let layout = Layout::stored(memory)?;
    if memory.len() < layout.need() || list.len() < SCANS || form_of(memory).is_none() {
        return None;
    }
    let facts = Facts::of(memory, layout)?;
    let holds = facts.opens()
        && facts.scans(list)
        && facts.current_pages()
        && (0..layout.ranges).all(|range| facts.range(range))
        && facts.pages();
    holds.then_some(layout)
}

/// The header's counts, which have been found within the measures.
struct Facts<'m> {
    memory: &'m [u8],
    layout: Layout,
    rows: usize,
    transactions: u32,
    scans: u32,
    last: u32,
    merges: u32,
    commits: u32,
    used: [u32; MOST_RANGES],
}

impl<'m> Facts<'m> {
    fn of(memory: &'m [u8], layout: Layout) -> Option<Facts<'m>> {
        let mut used = [0; MOST_RANGES];
        for (range, used) in used.iter_mut().enumerate().take(layout.ranges) {
            *used = word(memory, layout.base(Region::Used) + range);
        }
        let facts = Facts {
            memory,
            layout,
            rows: word(memory, header::ROWS_GIVEN) as usize,
            transactions: word(memory, header::TRANSACTIONS_GIVEN),
            scans: word(memory, header::SCANS_GIVEN),
            last: word(memory, header::LAST_STAMP),
            merges: word(memory, header::MERGES_MADE),
            commits: word(memory, header::COMMITS_MADE),
            used,
        };
        let holds = facts.rows <= layout.rows
            && facts.transactions <= NUMBERS
            && facts.scans <= NUMBERS
            && used.iter().all(|used| *used as usize <= layout.capacity);
        holds.then_some(facts)
    }

    #[inline(always)]
    fn run(&self, region: Region, from: usize, n: usize) -> &'m [u8] {
        let first = (self.layout.base(region) + from) * WORD;
        &self.memory[first..first + n * WORD]
    }

    /// Open transactions are among those given and differ.
    fn opens(&self) -> bool {
        let mut open = [0; OPENS];
        for (open, number) in open.iter_mut().zip(words(self.run(Region::Opens, 0, OPENS))) {
            *open = number;
        }
        let mut bad = false;
        for (place, number) in open.iter().enumerate() {
            bad |= *number > self.transactions;
            for other in &open[..place] {
                bad |= number == other && *number != 0;
            }
        }
        !bad
    }

    /// Open scans are at most `SCANS`, among those given, differ, and have a stamp and counts of
    /// merges and commits that were there.
    fn scans(&self, list: &[ScanEntry]) -> bool {
        let mut open = [0; SCANS];
        for (count, scan) in list.iter().filter(|scan| scan.is_open()).enumerate() {
            let known = scan.number <= self.scans
                && scan.stamp <= self.last
                && scan.merges <= self.merges
                && scan.commits <= self.commits;
            if count == SCANS || !known || open[..count].contains(&scan.number) {
                return false;
            }
            open[count] = scan.number;
        }
        true
    }

    /// The page of each place is in the pool, marked current, and names its place; its stamp and
    /// its lineage are within theirs.
    fn current_pages(&self) -> bool {
        let states = self.run(Region::PageState, 0, self.layout.pages);
        let owners = self.run(Region::PageChunk, 0, self.layout.pages);
        let lineages = self.run(Region::PageLineage, 0, self.layout.pages);
        let newest = self.run(Region::PageNewest, 0, self.layout.pages);
        let columns = self.layout.columns;
        let mut current = words(self.run(Region::Current, 0, self.layout.chunks));
        self.used.iter().take(self.layout.ranges).enumerate().all(|(range, used)| {
            current.by_ref().take(columns).enumerate().all(|(column, at)| {
                let at = at as usize;
                at < self.layout.pages
                    && word(states, at) == page::CURRENT
                    && word(owners, at) as usize == range * columns + column
                    && word(newest, at) <= self.last
                    && word(lineages, at) <= *used
            })
        })
    }

    /// The rows and records of a range.
    fn range(&self, range: usize) -> bool {
        let first = range * ROWS;
        let given = self.rows.saturating_sub(first).min(ROWS);
        let slot = range * self.layout.capacity;
        let used = self.used[range] as usize;
        self.numbers(Region::TailTransaction, slot, used)
            && self.stamps(Region::TailStamp, slot, used)
            && self.numbers(Region::RowTransaction, first, given)
            && self.stamps(Region::RowStamp, first, given)
            && if used <= FEW_RECORDS {
                self.links::<FEW_RECORDS>(first, given, slot, used)
            } else {
                self.links::<MOST_RECORDS>(first, given, slot, used)
            }
    }

    /// Recorded numbers are 1 to those given.
    #[inline(always)]
    fn numbers(&self, region: Region, from: usize, n: usize) -> bool {
        let given = self.transactions;
        !words(self.run(region, from, n)).fold(false, |bad, number| {
            // 0 goes round to the greatest number.
            bad | (number.wrapping_sub(1) >= given)
        })
    }

    /// No stamp is after the last commit's.
    #[inline(always)]
    fn stamps(&self, region: Region, from: usize, n: usize) -> bool {
        let last = self.last;
        !words(self.run(region, from, n)).fold(false, |bad, stamp| bad | (stamp > last))
    }

    /// The rows that records name, and the links. The rows are looked up by the records' numbers,
    /// which is quicker in an array of their own.
    fn links<const N: usize>(&self, first: usize, given: usize, slot: usize, used: usize) -> bool {
        let mut rows = [0; N];
        let rows = &mut rows[..used];
        let mut bad = false;
        for (place, row) in rows.iter_mut().zip(words(self.run(Region::TailRow, slot, used))) {
            *place = row;
            bad |= row.wrapping_sub(first as u32) >= given as u32;
        }
        !bad & self.record_links(slot, rows) & self.row_links(first, given, rows)
    }

    /// A record's link is 0 or a lower record of its row. Link 0 is looked up as the record
    /// itself, which names its own row, so that no branch is needed.
    #[inline(always)]
    fn record_links(&self, slot: usize, rows: &[u32]) -> bool {
        let links = words(self.run(Region::TailLink, slot, rows.len()));
        let mut differing = 0;
        let mut high = false;
        for (own, link) in (0..rows.len()).zip(links) {
            let at = (link.wrapping_sub(1) as usize).min(own);
            high |= link as usize > own;
            differing |= rows[at] ^ rows[own];
        }
        !high && differing == 0
    }

    /// A row's link is 0 or a used record of the row.
    #[inline(always)]
    fn row_links(&self, first: usize, given: usize, rows: &[u32]) -> bool {
        let links = words(self.run(Region::RowLink, first, given));
        let mut bad = false;
        for (row, link) in (first as u32..).zip(links) {
            if link != 0 {
                bad |= rows.get(link as usize - 1) != Some(&row);
            }
        }
        !bad
    }

    /// The pages marked as waiting.
    fn pages(&self) -> bool {
        // The records used of each place's range, so that no page needs a division.
        let mut most = [0; MOST_COLUMNS * MOST_RANGES];
        let columns = self.layout.columns;
        for (range, used) in self.used.iter().enumerate().take(self.layout.ranges) {
            most[range * columns..(range + 1) * columns].fill(*used);
        }
        let most = &most[..self.layout.chunks];
        let pages = self.layout.pages;
        let states = words(self.run(Region::PageState, 0, pages));
        let owners = words(self.run(Region::PageChunk, 0, pages));
        let replaced = words(self.run(Region::PageReplaced, 0, pages));
        let lineages = words(self.run(Region::PageLineage, 0, pages));
        let newest = words(self.run(Region::PageNewest, 0, pages));
        let all = states.zip(owners).zip(replaced).zip(lineages).zip(newest);
        let mut bad = false;
        for ((((state, owner), replaced), lineage), newest) in all {
            if state < page::WAITING {
                continue;
            }
            let owner = owner as usize;
            let place = if owner < most.len() { owner } else { owner % most.len() };
            bad |= newest > self.last || replaced > self.merges || lineage > most[place];
        }
        !bad
    }
}
