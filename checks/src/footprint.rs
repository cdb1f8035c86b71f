//! What an accepted call may change, its footprint: words of the memory, and an entry of the scan list.
//! By document 01, Items 3 and 5 to 7 of document 02, and docs/SPECIFICATION.md: section 8 for what is stored,
//! rules 8.7 and 10.2 where the papers leave open which free page or entry is taken. Written from these
//! alone, over `facts` and `stated`, to judge what a store changed, so it is plain rather than quick.
//!
//! It is told before the call, of a usable memory, whoever wrote it. What is outside must be as it was; what
//! is in it may change, and to what is judged elsewhere. Only the bytes before and after a call are compared:
//! what a call writes and puts back is not seen here, nor what it keeps outside the lent bytes.

use reference::Call;

use crate::facts::Stored;
use crate::memory::{differing, header, where_differ, Region, ScanEntry, OPENS, ROWS};
use crate::stated;

/// The words and the entry.
#[derive(Clone, Debug, PartialEq, Eq)]
pub struct Footprint {
    /// The words by their numbers in the memory, in rising order, each once.
    words: Vec<usize>,
    /// The entry of the list.
    entry: Option<usize>,
}

impl Footprint {
    /// That of a call that these bytes accept; where they have no words to look at, why.
    pub fn of(memory: &[u8], list: &[ScanEntry], call: &Call) -> Result<Footprint, &'static str> {
        let stored = Stored::of(memory, list)?;
        let mut traced = Traced { stored: &stored, words: Vec::new() };
        traced.call(call);
        let mut words = traced.words;
        words.sort_unstable();
        words.dedup();
        Ok(Footprint { words, entry: entry(list, call) })
    }

    /// The words by their numbers in the memory, in rising order, each once.
    pub fn words(&self) -> &[usize] {
        &self.words
    }

    /// The entry of the list.
    pub fn entry(&self) -> Option<usize> {
        self.entry
    }

    /// No word of the memory may differ but these.
    pub fn judge_memory(&self, before: &[u8], after: &[u8]) -> Result<(), String> {
        let outside = differing(before, after).find(|at| self.words.binary_search(at).is_err());
        outside.map_or(Ok(()), |at| {
            let place = where_differ(before, after, at);
            Err(format!("the memory changed outside the call's footprint, {place}"))
        })
    }

    /// No entry of the list may differ but this one.
    pub fn judge_list(&self, before: &[ScanEntry], after: &[ScanEntry]) -> Result<(), String> {
        let mut both = before.iter().zip(after).enumerate();
        let outside = both.find(|(at, (one, other))| one != other && Some(*at) != self.entry);
        outside.map_or(Ok(()), |(at, _)| {
            Err(format!("the list changed outside the call's footprint, at entry {at}"))
        })
    }
}

/// "number 0 marks a free place": a scan is opened in the first of these, and closed in its own.
fn entry(list: &[ScanEntry], call: &Call) -> Option<usize> {
    let number = match *call {
        Call::OpenScan { .. } => 0,
        Call::Close { scan } => scan,
        _ => return None,
    };
    list.iter().position(|scan| scan.number == number)
}

/// The words of a record but its values.
const OF_RECORD: [Region; 9] = [
    Region::TailTransaction,
    Region::TailRow,
    Region::TailKind,
    Region::TailMask,
    Region::TailLink,
    Region::TailState,
    Region::TailStamp,
    Region::TailOrdinal,
    Region::TailKeeper,
];
const OF_ROW: [Region; 7] = [
    Region::RowTransaction,
    Region::RowState,
    Region::RowStamp,
    Region::RowOrdinal,
    Region::RowLink,
    Region::RowMask,
    Region::RowKeeper,
];
/// The words of a page that a merge writes: all but the merge that replaced it, since none has.
const OF_NEW_PAGE: [Region; 5] = [
    Region::PageState,
    Region::PageChunk,
    Region::PageMade,
    Region::PageLineage,
    Region::PageNewest,
];

/// A footprint as it grows, over the bytes before the call.
struct Traced<'s, 'm> {
    stored: &'s Stored<'m>,
    words: Vec<usize>,
}

impl Traced<'_, '_> {
    fn call(&mut self, call: &Call) {
        let (_, n) = stated::tests(call);
        match call {
            // "Transaction numbers run 1 to 65,535 .. none is used again"; with the open numbers stand
            // the count of the transaction's changes and its keeper.
            Call::Begin | Call::BeginAs { .. } => {
                self.add(Region::Header, header::TRANSACTIONS_GIVEN);
                self.open_entry(0);
            }
            Call::Insert { .. } => self.insert(n.transaction),
            // "It takes one tail record. It takes one more before it, holding the original values, when
            // it sets a column that no earlier accepted update of that row has set": then the row's mask
            // gains it, and else has all of the columns already.
            Call::Update { .. } => {
                let wanted = stated::wanted(self.stored, call, &n);
                for later in 0..wanted {
                    let slot = self.record(n.row, later);
                    let columns = self.stored.layout.columns;
                    self.run(Region::TailValues, slot * columns, columns);
                }
                if wanted > 1 {
                    self.add(Region::RowMask, n.row as usize);
                }
                self.noted(n.transaction);
            }
            // "A delete takes one", which holds no values.
            Call::Delete { .. } => {
                self.record(n.row, 0);
                self.noted(n.transaction);
            }
            Call::Commit { .. } => {
                self.settled(n.transaction);
                self.add(Region::Header, header::LAST_STAMP);
                self.add(Region::Header, header::COMMITS_MADE);
            }
            Call::Abort { .. } => self.settled(n.transaction),
            // "scan numbers likewise in a series of their own"
            Call::OpenScan { .. } => self.add(Region::Header, header::SCANS_GIVEN),
            Call::Merge { .. } => self.merge(n.range as usize, n.column as usize),
            Call::Release => self.release(),
            // "Reads follow the rules above and alter nothing"; an open scan stands in the list alone, and
            // crossings in the lent stamps.
            Call::Latest { .. }
            | Call::ReadAt { .. }
            | Call::OwnRead { .. }
            | Call::ScanRead { .. }
            | Call::Sum { .. }
            | Call::Close { .. }
            | Call::PageCell { .. }
            | Call::Lineage { .. }
            | Call::Crossings { .. }
            | Call::KeeperAt { .. } => {}
            // Item 7: "the one moved from, its bytes unchanged, is none". What a move leaves in the second
            // memory is told by `moves`.
            Call::Upgrade | Call::Downgrade => {}
        }
    }

    fn add(&mut self, region: Region, place: usize) {
        self.run(region, place, 1);
    }

    fn run(&mut self, region: Region, from: usize, count: usize) {
        let layout = &self.stored.layout;
        let first = layout.base(region) + from;
        // Form 1 has no word for a keeper.
        if from + count <= layout.length(region) {
            self.words.extend(first..first + count);
        }
    }

    /// The first open entry with a number; 0 is that of a free one.
    fn entry_of(&self, number: u32) -> Option<usize> {
        (0..OPENS).find(|entry| self.stored.get(Region::Opens, *entry) == number)
    }

    /// An open entry that is taken or given back, its count of changes and its keeper.
    fn open_entry(&mut self, number: u32) {
        if let Some(entry) = self.entry_of(number) {
            for region in [Region::Opens, Region::Changes, Region::OpenKeeper] {
                self.add(region, entry);
            }
        }
    }

    /// The count of a transaction's changes.
    fn noted(&mut self, transaction: u32) {
        if let Some(entry) = self.entry_of(transaction) {
            self.add(Region::Changes, entry);
        }
    }

    /// "An insert gives the next row number"; "rows are inserted straight into base pages".
    fn insert(&mut self, transaction: u32) {
        let s = self.stored;
        let row = s.header(header::ROWS_GIVEN) as usize;
        for region in OF_ROW {
            self.add(region, row);
        }
        for column in 0..s.layout.columns {
            let page = s.get(Region::Current, s.layout.chunk(row / ROWS, column)) as usize;
            self.add(Region::Cells, page * ROWS + row % ROWS);
        }
        self.add(Region::Header, header::ROWS_GIVEN);
        self.noted(transaction);
    }

    /// The next record of a row's range, or so many after it: its slot. It is the row's newest.
    fn record(&mut self, row: u32, later: u32) -> usize {
        let range = row as usize / ROWS;
        let number = self.stored.used(range) + 1 + later;
        let slot = self.stored.layout.slot(range, number as usize);
        for region in OF_RECORD {
            self.add(region, slot);
        }
        self.add(Region::RowLink, row as usize);
        self.add(Region::Used, range);
        slot
    }

    /// "Commit, abort and close mark theirs": the rows that the transaction inserted and its records,
    /// by state, stamp and, since Item 3, the order of commits. Its open entry is free then.
    fn settled(&mut self, transaction: u32) {
        let s = self.stored;
        for row in s.rows().filter(|row| s.get(Region::RowTransaction, *row) == transaction) {
            for region in [Region::RowState, Region::RowStamp, Region::RowOrdinal] {
                self.add(region, row);
            }
        }
        for slot in s.slots().filter(|slot| s.get(Region::TailTransaction, *slot) == transaction) {
            for region in [Region::TailState, Region::TailStamp, Region::TailOrdinal] {
                self.add(region, slot);
            }
        }
        self.open_entry(transaction);
    }

    /// Item 5: "an accepted merge changes no lent byte but those of the page it writes and those that say
    /// which page is current, waiting or free, the lineage and the merges made". That the old page waits is
    /// told by two words, its state and the merge that replaced it, by which a release goes.
    fn merge(&mut self, range: usize, column: usize) {
        let chunk = self.stored.layout.chunk(range, column);
        let old = self.stored.get(Region::Current, chunk) as usize;
        if let Some(new) = self.page_taken() {
            self.run(Region::Cells, new * ROWS, ROWS);
            for region in OF_NEW_PAGE {
                self.add(region, new);
            }
        }
        self.add(Region::PageState, old);
        self.add(Region::PageReplaced, old);
        self.add(Region::Current, chunk);
        self.add(Region::Header, header::MERGES_MADE);
    }

    /// "takes a free page": by rule 10.2 the first with the state word 0, and where there is none the first
    /// with the state word 1. No free page has another.
    fn page_taken(&self) -> Option<usize> {
        let s = self.stored;
        s.free_pages().min_by_key(|page| s.get(Region::PageState, *page))
    }

    /// "Release frees every waiting page, unless a scan that is still open was opened before the merge
    /// that replaced it."
    fn release(&mut self) {
        let s = self.stored;
        for page in s.waiting_pages() {
            let replaced = s.get(Region::PageReplaced, page);
            if s.scans.iter().all(|scan| scan.merges >= replaced) {
                self.add(Region::PageState, page);
            }
        }
    }
}
