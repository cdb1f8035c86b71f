//! The layout of a store's lent memory: little-endian 32-bit words in regions one after the other, of which
//! form 1 lacks the last; and the lent list of scans.

use reference::{call::RANGE_ROWS, Form, Shape};

/// Bytes in a word.
pub const WORD: usize = 4;
/// Rows in a range, cells in a page.
pub const ROWS: usize = RANGE_ROWS as usize;
/// Entries for open transactions.
pub const OPENS: usize = 8;
/// The fewest entries of a scan list, and how many scans can be open.
pub const SCANS: usize = 5;
/// The greatest transaction or scan number.
pub const NUMBERS: u32 = 65_535;
/// The greatest measures, for tables of a fixed length.
pub const MOST_COLUMNS: usize = 16;
pub const MOST_RANGES: usize = 16;
pub const MOST_RECORDS: usize = 512;
/// The number of the newest stored form, which making gives.
pub const FORM: u32 = 2;
/// What each form above the first adds to the columns in their word.
const FORM_UNIT: u32 = 1 << 16;
/// A keeper is a number of two bytes; of a word that holds one, the lower two count.
pub const KEEPER_LIMIT: u32 = 1 << 16;

/// The regions in their order in memory.
#[derive(Clone, Copy, Debug, PartialEq, Eq, PartialOrd, Ord)]
pub enum Region {
    Header,
    Opens,
    RowTransaction,
    RowState,
    RowStamp,
    RowLink,
    RowMask,
    TailTransaction,
    TailRow,
    TailKind,
    TailMask,
    TailLink,
    TailState,
    TailStamp,
    TailValues,
    Used,
    Current,
    PageState,
    PageChunk,
    PageMade,
    PageReplaced,
    PageLineage,
    PageNewest,
    Cells,
    Changes,
    RowOrdinal,
    TailOrdinal,
    // Form 2 has these behind all that form 1 has, where they are absent.
    RowKeeper,
    TailKeeper,
    OpenKeeper,
}

pub const REGIONS: usize = Region::OpenKeeper as usize + 1;

impl Region {
    pub const ALL: [Region; REGIONS] = [
        Region::Header,
        Region::Opens,
        Region::RowTransaction,
        Region::RowState,
        Region::RowStamp,
        Region::RowLink,
        Region::RowMask,
        Region::TailTransaction,
        Region::TailRow,
        Region::TailKind,
        Region::TailMask,
        Region::TailLink,
        Region::TailState,
        Region::TailStamp,
        Region::TailValues,
        Region::Used,
        Region::Current,
        Region::PageState,
        Region::PageChunk,
        Region::PageMade,
        Region::PageReplaced,
        Region::PageLineage,
        Region::PageNewest,
        Region::Cells,
        Region::Changes,
        Region::RowOrdinal,
        Region::TailOrdinal,
        Region::RowKeeper,
        Region::TailKeeper,
        Region::OpenKeeper,
    ];
}

/// The words of the header. Those behind the commits made are unused and may hold anything.
pub mod header {
    /// The columns, and the form less 1 in the upper half, so that form 1 has the columns alone.
    pub const COLUMNS: usize = 0;
    pub const RANGES: usize = 1;
    pub const CAPACITY: usize = 2;
    pub const SPARES: usize = 3;
    pub const ROWS_GIVEN: usize = 4;
    pub const TRANSACTIONS_GIVEN: usize = 5;
    pub const SCANS_GIVEN: usize = 6;
    pub const LAST_STAMP: usize = 7;
    pub const MERGES_MADE: usize = 8;
    pub const COMMITS_MADE: usize = 9;
    pub const WORDS: usize = 16;
}

/// What the state of a row or record is written as. Any greater number counts as aborted.
pub mod state {
    pub const OPEN: u32 = 0;
    pub const COMMITTED: u32 = 1;
    pub const ABORTED: u32 = 2;
}

/// What the kind of a record is written as. Any greater number counts as a delete.
pub mod kind {
    pub const ORIGINAL: u32 = 0;
    pub const SETTING: u32 = 1;
    pub const DELETE: u32 = 2;
}

/// What the state of a page is written as. Any greater number counts as waiting.
pub mod page {
    pub const FREE: u32 = 0;
    pub const CURRENT: u32 = 1;
    pub const WAITING: u32 = 2;
}

/// The sizes that a shape makes, and where each region begins, in words. A region that the form lacks is
/// empty.
#[derive(Clone, Copy, Debug)]
pub struct Layout {
    pub form: Form,
    pub columns: usize,
    pub ranges: usize,
    pub capacity: usize,
    pub rows: usize,
    pub slots: usize,
    pub chunks: usize,
    pub pages: usize,
    bases: [usize; REGIONS + 1],
}

impl Layout {
    /// The layout of a shape within the limits in the newest form.
    pub fn of(shape: &Shape) -> Layout {
        Layout::in_form(shape, Form::Newest)
    }

    /// The layout of a shape within the limits in a form.
    pub fn in_form(shape: &Shape, form: Form) -> Layout {
        debug_assert!(shape.within_limits());
        let (columns, ranges) = (shape.columns as usize, shape.ranges as usize);
        let capacity = shape.capacity as usize;
        let rows = ranges * ROWS;
        let slots = ranges * capacity;
        let chunks = columns * ranges;
        let pages = chunks + shape.spares as usize;
        // 0 times a length where the form lacks the region.
        let keepers = usize::from(form == Form::Newest);
        let lengths: [usize; REGIONS] = [
            header::WORDS,
            OPENS,
            rows,
            rows,
            rows,
            rows,
            rows,
            slots,
            slots,
            slots,
            slots,
            slots,
            slots,
            slots,
            slots * columns,
            ranges,
            chunks,
            pages,
            pages,
            pages,
            pages,
            pages,
            pages,
            pages * ROWS,
            OPENS,
            rows,
            slots,
            rows * keepers,
            slots * keepers,
            OPENS * keepers,
        ];
        let mut bases = [0; REGIONS + 1];
        for (region, length) in lengths.iter().enumerate() {
            bases[region + 1] = bases[region] + length;
        }
        Layout { form, columns, ranges, capacity, rows, slots, chunks, pages, bases }
    }

    /// The same measures in a form.
    pub fn moved_to(&self, form: Form) -> Layout {
        let shape = Shape {
            columns: self.columns as u32,
            ranges: self.ranges as u32,
            capacity: self.capacity as u32,
            spares: (self.pages - self.chunks) as u32,
        };
        Layout::in_form(&shape, form)
    }

    /// The shape that the memory's first words say, if it lies within the limits, laid out in the form that
    /// they say, and in the newest where they say one that no call works on.
    pub fn stored(memory: &[u8]) -> Option<Layout> {
        if memory.len() < header::WORDS * WORD {
            return None;
        }
        let shape = Shape {
            columns: word(memory, header::COLUMNS) % FORM_UNIT,
            ranges: word(memory, header::RANGES),
            capacity: word(memory, header::CAPACITY),
            spares: word(memory, header::SPARES),
        };
        let form = form_of(memory).unwrap_or(Form::Newest);
        shape.within_limits().then(|| Layout::in_form(&shape, form))
    }

    /// The first word of a region.
    #[inline(always)]
    pub fn base(&self, region: Region) -> usize {
        self.bases[region as usize]
    }

    /// The same, by the region's number in the order.
    pub fn first(&self, region: usize) -> usize {
        self.bases[region]
    }

    /// The words of a region.
    #[inline(always)]
    pub fn length(&self, region: Region) -> usize {
        self.bases[region as usize + 1] - self.bases[region as usize]
    }

    /// The bytes that the shape needs in the form.
    pub fn need(&self) -> usize {
        self.bases[REGIONS] * WORD
    }

    /// The region of a word of the memory, and which of the region's words it is. A word past the need
    /// has none.
    pub fn place_of(&self, at: usize) -> Option<(Region, usize)> {
        let has = |region: &Region| {
            (self.base(*region)..self.base(*region) + self.length(*region)).contains(&at)
        };
        Region::ALL.into_iter().find(has).map(|region| (region, at - self.base(region)))
    }

    /// Where record k (from 1) of a range stands.
    #[inline(always)]
    pub fn slot(&self, range: usize, k: usize) -> usize {
        range * self.capacity + k - 1
    }

    /// The chunk of a range and column.
    #[inline(always)]
    pub fn chunk(&self, range: usize, column: usize) -> usize {
        range * self.columns + column
    }
}

/// The number of a form.
pub const fn form_number(form: Form) -> u32 {
    match form {
        Form::First => 1,
        Form::Newest => FORM,
    }
}

/// The columns' word in a memory of a form.
pub const fn columns_word(columns: u32, form: u32) -> u32 {
    columns + FORM_UNIT * (form - 1)
}

/// The form that the columns' word says, if some call works on it.
#[inline(always)]
pub fn form_of(memory: &[u8]) -> Option<Form> {
    let said = word(memory, header::COLUMNS) / FORM_UNIT + 1;
    Form::ALL.into_iter().find(|form| form_number(*form) == said)
}

/// The keeper that a word holds: its lower two bytes.
#[inline(always)]
pub const fn keeper(word: u32) -> u32 {
    word % KEEPER_LIMIT
}

/// Word i of some bytes.
#[inline(always)]
pub fn word(bytes: &[u8], i: usize) -> u32 {
    let from = i * WORD;
    u32::from_le_bytes(bytes[from..from + WORD].try_into().expect("a word has four bytes"))
}

#[inline(always)]
pub fn put_word(bytes: &mut [u8], i: usize, word: u32) {
    let from = i * WORD;
    bytes[from..from + WORD].copy_from_slice(&word.to_le_bytes());
}

/// The words of some bytes.
#[inline(always)]
pub fn words(bytes: &[u8]) -> impl ExactSizeIterator<Item = u32> + '_ {
    bytes
        .chunks_exact(WORD)
        .map(|word| u32::from_le_bytes(word.try_into().expect("a word has four bytes")))
}

/// Words that are first compared together: most of two memories is alike.
const STRETCH: usize = 256;

/// The words in which two memories of one length differ, from the first on. The last may have fewer bytes
/// than a word, past the need.
pub fn differing<'m>(one: &'m [u8], other: &'m [u8]) -> impl Iterator<Item = usize> + 'm {
    let stretches = one.chunks(STRETCH * WORD).zip(other.chunks(STRETCH * WORD)).enumerate();
    stretches.filter(|(_, (one, other))| one != other).flat_map(|(place, (one, other))| {
        let words = one.chunks(WORD).zip(other.chunks(WORD)).enumerate();
        words.filter(|(_, (one, other))| one != other).map(move |(at, _)| place * STRETCH + at)
    })
}

/// Where a word stands in which two memories differ, by the measures of the first, and what it is in each.
pub fn where_differ(one: &[u8], other: &[u8], at: usize) -> String {
    let place = match Layout::stored(one).map(|layout| layout.place_of(at)) {
        None => format!("at word {at}"),
        Some(None) => format!("at word {at}, past the need"),
        Some(Some((region, place))) => format!("at word {place} of {region:?}"),
    };
    let bytes = |memory: &[u8]| memory[at * WORD..].iter().take(WORD).copied().collect::<Vec<u8>>();
    format!("{place}: {:?} and {:?}", bytes(one), bytes(other))
}

/// An entry of the scan list, as the C interface has it; number 0 marks a free one.
#[repr(C)]
#[derive(Clone, Copy, Debug, PartialEq, Eq)]
pub struct ScanEntry {
    pub number: u32,
    pub stamp: u32,
    pub merges: u32,
    pub commits: u32,
}

impl ScanEntry {
    /// A free entry as the store writes it.
    pub const FREE: ScanEntry = ScanEntry { number: 0, stamp: 0, merges: 0, commits: 0 };

    pub fn is_open(&self) -> bool {
        self.number != 0
    }
}

/// Words in an entry of the scan list.
pub const SCAN_WORDS: usize = 4;

/// Word i of a scan list.
pub fn list_word(list: &mut [ScanEntry], i: usize) -> &mut u32 {
    let scan = &mut list[i / SCAN_WORDS];
    match i % SCAN_WORDS {
        0 => &mut scan.number,
        1 => &mut scan.stamp,
        2 => &mut scan.merges,
        _ => &mut scan.commits,
    }
}
