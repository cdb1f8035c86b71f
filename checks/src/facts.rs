//! The stored facts, one after the other: document 01's paragraph "The stored facts are these", with
//! Items 2 and 3 of document 02 for the list and Items 6 and 7 for the form, here whether some call works on
//! it; which do is for `stated` to say. Written from these and the layout
//! alone, to judge a store's answer 2, so it is plain rather than quick.

use crate::memory::{form_of, header, page, word, Layout, Region, ScanEntry};
use crate::memory::{NUMBERS, OPENS, ROWS, SCANS};

/// What is stored, or the name of the first fact that fails.
pub fn usable<'m>(memory: &'m [u8], list: &[ScanEntry]) -> Result<Stored<'m>, &'static str> {
    let stored = Stored::of(memory, list)?;
    match FACTS.iter().find(|fact| !(fact.1)(&stored)) {
        Some(fact) => Err(fact.0),
        None => Ok(stored),
    }
}

/// The name of the first fact that fails.
pub fn failing(memory: &[u8], list: &[ScanEntry]) -> Option<&'static str> {
    usable(memory, list).err()
}

/// The names of all facts that fail.
pub fn all_failing(memory: &[u8], list: &[ScanEntry]) -> Vec<&'static str> {
    match Stored::of(memory, list) {
        Err(name) => vec![name],
        Ok(stored) => FACTS.iter().filter(|fact| !(fact.1)(&stored)).map(|fact| fact.0).collect(),
    }
}

/// The names of all facts.
pub fn names() -> impl Iterator<Item = &'static str> {
    [LIST, MEASURES, LENGTH].into_iter().chain(FACTS.iter().map(|fact| fact.0))
}

// These are looked at first: without them there is no word to look at.

/// "a scan list under 16 places"; Item 2: "The list then needs five places"
const LIST: &str = "the scan list has at least 5 entries";
/// "the stored measures lie within their limits"; a memory too short for them has none.
const MEASURES: &str = "the measures lie within their limits";
/// "shorter than the shape needs"
const LENGTH: &str = "the memory is as long as the shape needs";

type Fact = (&'static str, fn(&Stored) -> bool);

const FACTS: [Fact; 24] = [
    // Item 6: "a memory not in a form that the call works on fails a stored fact"; Item 7: the calls work
    // "on form 1" or "the newest"
    ("the memory is in form 1 or 2", |s| form_of(s.memory).is_some()),
    // "counts within the measures"
    ("rows given are no more than the rows", |s| {
        s.header(header::ROWS_GIVEN) as usize <= s.layout.rows
    }),
    ("records used are no more than the capacity", |s| {
        s.ranges().all(|range| s.get(Region::Used, range) as usize <= s.layout.capacity)
    }),
    ("transaction numbers given are at most 65,535", |s| {
        s.header(header::TRANSACTIONS_GIVEN) <= NUMBERS
    }),
    ("scan numbers given are at most 65,535", |s| s.header(header::SCANS_GIVEN) <= NUMBERS),
    // Item 2: "one that holds more open scans is answered 2"
    ("at most 5 scans are open", |s| s.scans.len() <= SCANS),
    // "a used tail record names a given row of its range"
    ("a used record names a given row of its range", |s| {
        s.records().all(|(range, number)| {
            let row = s.row_of(range, number);
            row < s.header(header::ROWS_GIVEN) && row as usize / ROWS == range
        })
    }),
    // "open and recorded numbers are among those given"
    ("open transactions are among those given", |s| {
        s.open().iter().all(|number| *number <= s.header(header::TRANSACTIONS_GIVEN))
    }),
    ("open scans are among those given", |s| {
        s.scans.iter().all(|scan| scan.number <= s.header(header::SCANS_GIVEN))
    }),
    ("a row's transaction is among those given", |s| {
        s.rows().all(|row| s.recorded(s.get(Region::RowTransaction, row)))
    }),
    ("a record's transaction is among those given", |s| {
        s.slots().all(|slot| s.recorded(s.get(Region::TailTransaction, slot)))
    }),
    // "a link of a row or tail record is 0 or a used record of the same row, and of a tail record
    // a lower one"
    ("a row's link is 0 or a used record of the row", |s| {
        s.rows().all(|row| {
            let link = s.get(Region::RowLink, row);
            let used = link <= s.used(row / ROWS);
            link == 0 || (used && s.row_of(row / ROWS, link) as usize == row)
        })
    }),
    ("a record's link is 0 or a lower record of its row", |s| {
        s.records().all(|(range, number)| {
            let link = s.of_record(Region::TailLink, range, number);
            link == 0 || (link < number && s.row_of(range, link) == s.row_of(range, number))
        })
    }),
    // "no recorded stamp, an open scan's included, exceeds the last commit's"
    ("a row's stamp is not after the last commit's", |s| {
        s.rows().all(|row| s.get(Region::RowStamp, row) <= s.header(header::LAST_STAMP))
    }),
    ("a record's stamp is not after the last commit's", |s| {
        s.slots().all(|slot| s.get(Region::TailStamp, slot) <= s.header(header::LAST_STAMP))
    }),
    ("a page's newest stamp is not after the last commit's", |s| {
        s.kept_pages().all(|at| s.get(Region::PageNewest, at) <= s.header(header::LAST_STAMP))
    }),
    ("an open scan's stamp is not after the last commit's", |s| {
        s.scans.iter().all(|scan| scan.stamp <= s.header(header::LAST_STAMP))
    }),
    // "no scan's or waiting page's merge count exceeds the merges made"
    ("an open scan's merges are among those made", |s| {
        s.scans.iter().all(|scan| scan.merges <= s.header(header::MERGES_MADE))
    }),
    // Item 3: "the count of all commits made before it, which as a stored fact does not exceed the
    // commits made"
    ("an open scan's commits are among those made", |s| {
        s.scans.iter().all(|scan| scan.commits <= s.header(header::COMMITS_MADE))
    }),
    ("a waiting page's merge is among those made", |s| {
        let made = s.header(header::MERGES_MADE);
        s.waiting_pages().all(|at| s.get(Region::PageReplaced, at) <= made)
    }),
    // "open numbers differ, each within its own series"
    ("open transactions differ", |s| differ(&s.open())),
    ("open scans differ", |s| {
        differ(&s.scans.iter().map(|scan| scan.number).collect::<Vec<u32>>())
    }),
    // "current, waiting and free pages are distinct and in the pool": each place's page is in the
    // pool, is marked current and names its place, so no other place has it.
    ("a current page is in the pool, marked and of its chunk", |s| {
        (0..s.layout.chunks).all(|place| {
            let at = s.get(Region::Current, place) as usize;
            at < s.layout.pages
                && s.get(Region::PageState, at) == page::CURRENT
                && s.get(Region::PageChunk, at) as usize == place
        })
    }),
    // "a page's lineage is not above the records used"
    ("a page's lineage is not above the records used", |s| {
        s.kept_pages().all(|at| {
            let place = s.get(Region::PageChunk, at) as usize % s.layout.chunks;
            let range = place / s.layout.columns;
            s.get(Region::PageLineage, at) <= s.get(Region::Used, range)
        })
    }),
];

/// Bytes that are long enough for the measures they say.
pub struct Stored<'m> {
    memory: &'m [u8],
    pub layout: Layout,
    /// The open scans.
    pub scans: Vec<ScanEntry>,
}

impl Stored<'_> {
    /// What is stored, whether the facts hold or not, or the name of the fact without which there is no
    /// word to look at.
    pub fn of<'m>(memory: &'m [u8], list: &[ScanEntry]) -> Result<Stored<'m>, &'static str> {
        if list.len() < SCANS {
            return Err(LIST);
        }
        let layout = Layout::stored(memory).ok_or(MEASURES)?;
        if memory.len() < layout.need() {
            return Err(LENGTH);
        }
        let scans = list.iter().copied().filter(ScanEntry::is_open).collect();
        Ok(Stored { memory, layout, scans })
    }

    pub fn get(&self, region: Region, i: usize) -> u32 {
        assert!(i < self.layout.length(region), "{region:?} has no word {i}");
        word(self.memory, self.layout.base(region) + i)
    }

    pub fn header(&self, i: usize) -> u32 {
        self.get(Region::Header, i)
    }

    // What is used, and no more than there are places: where a count is too great, that fact fails
    // and the others are still to be looked at.

    fn ranges(&self) -> std::ops::Range<usize> {
        0..self.layout.ranges
    }

    /// The given rows.
    pub fn rows(&self) -> std::ops::Range<usize> {
        0..self.layout.rows.min(self.header(header::ROWS_GIVEN) as usize)
    }

    pub fn used(&self, range: usize) -> u32 {
        self.get(Region::Used, range).min(self.layout.capacity as u32)
    }

    /// The used records, each as range and number.
    fn records(&self) -> impl Iterator<Item = (usize, u32)> + '_ {
        self.ranges().flat_map(|range| (1..=self.used(range)).map(move |number| (range, number)))
    }

    /// The slots of the used records.
    pub fn slots(&self) -> impl Iterator<Item = usize> + '_ {
        self.records().map(|(range, number)| self.layout.slot(range, number as usize))
    }

    /// The current and the waiting pages: those that a place names, and those marked as waiting.
    /// Any other page is free, whatever it says.
    fn kept_pages(&self) -> impl Iterator<Item = usize> + '_ {
        (0..self.layout.pages).filter(|at| self.is_current(*at) || self.waits(*at))
    }

    pub fn free_pages(&self) -> impl Iterator<Item = usize> + '_ {
        (0..self.layout.pages).filter(|at| !self.is_current(*at) && !self.waits(*at))
    }

    pub fn waiting_pages(&self) -> impl Iterator<Item = usize> + '_ {
        (0..self.layout.pages).filter(|at| self.waits(*at))
    }

    fn is_current(&self, at: usize) -> bool {
        (0..self.layout.chunks).any(|place| self.get(Region::Current, place) as usize == at)
    }

    fn waits(&self, at: usize) -> bool {
        self.get(Region::PageState, at) > page::CURRENT
    }

    /// The numbers of the open transactions.
    pub fn open(&self) -> Vec<u32> {
        let all = (0..OPENS).map(|place| self.get(Region::Opens, place));
        all.filter(|number| *number != 0).collect()
    }

    fn recorded(&self, transaction: u32) -> bool {
        (1..=self.header(header::TRANSACTIONS_GIVEN)).contains(&transaction)
    }

    /// A word of a record of a range.
    pub fn of_record(&self, region: Region, range: usize, number: u32) -> u32 {
        self.get(region, self.layout.slot(range, number as usize))
    }

    /// The row that a record of a range names.
    pub fn row_of(&self, range: usize, number: u32) -> u32 {
        self.of_record(Region::TailRow, range, number)
    }
}

/// Whether no number comes twice.
fn differ(numbers: &[u32]) -> bool {
    (0..numbers.len()).all(|place| !numbers[..place].contains(&numbers[place]))
}
