//! Random memories and scan lists that no call made, in either form: anything, words of which every stored
//! fact holds, such words with a few of them changed or in another form, and stores in which words are
//! changed that the facts leave free.

use reference::random::Random;
use reference::{Form, Shape};

use crate::lent::{Content, Lent};
use crate::memory::word;
use crate::memory::{columns_word, form_number, header, kind, list_word, page, put_word, state};
use crate::memory::{Layout, Region, ScanEntry};
use crate::memory::{FORM, KEEPER_LIMIT, NUMBERS, OPENS, ROWS, SCANS, SCAN_WORDS, WORD};

/// Random memory and list: good ones, nearly good ones, and anything.
pub fn any_lent(random: &mut Random) -> (Lent<u8>, Lent<ScanEntry>) {
    let (mut memory, mut list) = match random.below(8) {
        0 => (anything(6000, 0, random), anything(50, ScanEntry::FREE, random)),
        1 => (measured(random), anything(50, ScanEntry::FREE, random)),
        _ => passing(random),
    };
    match random.below(4) {
        // Some words changed, mostly to a number near another one.
        0 => {
            for _ in 0..random.between(1, 3) {
                if random.percent(80) {
                    change_memory(&mut memory, random);
                } else {
                    change_list(&mut list, random);
                }
            }
        }
        // Cut a little or much.
        1 if random.percent(30) => {
            if random.percent(70) {
                memory.truncate(cut(memory.len(), random));
            } else {
                list.truncate(cut(list.len(), random));
            }
        }
        2 if random.percent(20) => other_form(&mut memory, random),
        _ => {}
    }
    (Lent::copy(&memory, random), Lent::copy(&list, random))
}

fn change_memory(memory: &mut [u8], random: &mut Random) {
    let count = (memory.len() / WORD) as u32;
    if count > 0 {
        // The header has few words, of which much hangs.
        let among = if random.percent(20) { count.min(header::WORDS as u32) } else { count };
        let at = random.below(among) as usize;
        let new = odd_word(word(memory, at), random);
        put_word(memory, at, new);
    }
}

/// Another form under the same measures. Form 1 has all of its words where the newest has them, so that a
/// good memory is a good one of form 1 too, and with the bytes that it lacks one of the newest.
fn other_form(memory: &mut Vec<u8>, random: &mut Random) {
    let Some(layout) = Layout::stored(memory) else { return };
    // The last is the greatest that the word has room for.
    let form = random.pick(&[1, FORM, FORM + 1, FORM + 2, 1 << 16]);
    put_word(memory, header::COLUMNS, columns_word(layout.columns as u32, form));
    if random.percent(50) {
        let need = Layout::stored(memory).map_or(0, |layout| layout.need());
        memory.resize(need, random.word() as u8);
    }
}

fn change_list(list: &mut [ScanEntry], random: &mut Random) {
    if list.is_empty() {
        return;
    }
    let any = |random: &mut Random| random.below(list.len() as u32) as usize;
    // Another place again, under another number.
    if random.percent(30) {
        let (at, scan) = (any(random), list[any(random)]);
        list[at] = ScanEntry { number: scan.number.wrapping_add(1), ..scan };
        return;
    }
    let word = list_word(list, random.below((list.len() * SCAN_WORDS) as u32) as usize);
    *word = odd_word(*word, random);
}

/// A lesser length, by a little or much.
fn cut(length: usize, random: &mut Random) -> usize {
    match random.below(3) {
        0 => length.saturating_sub(random.between(1, 4) as usize),
        1 => random.below(length as u32 + 1) as usize,
        _ => length.saturating_sub(random.between(1, 80) as usize),
    }
}

fn odd_word(old: u32, random: &mut Random) -> u32 {
    match random.below(6) {
        0 => old.wrapping_add(1),
        1 => old.wrapping_sub(1),
        2 => 0,
        3 => random.below(8),
        4 => u32::MAX,
        _ => random.word() as u32,
    }
}

fn anything<T: Content>(most: u32, blank: T, random: &mut Random) -> Vec<T> {
    let mut all = vec![blank; random.below(most + 1) as usize];
    T::fill(&mut all, random);
    all
}

/// A shape of which there is little memory.
pub fn small_shape(random: &mut Random) -> Shape {
    Shape {
        columns: random.between(1, 4),
        ranges: random.between(1, 3),
        capacity: random.between(1, 8),
        spares: random.below(5),
    }
}

/// A form, more often the newest, on which more calls work.
fn any_form(random: &mut Random) -> Form {
    random.pick(&[Form::First, Form::Newest, Form::Newest])
}

/// Random bytes under measures within the limits, about as long as they need.
fn measured(random: &mut Random) -> Vec<u8> {
    let (shape, form) = (small_shape(random), any_form(random));
    let length = Layout::in_form(&shape, form).need() + random.below(40) as usize;
    let mut bytes = vec![0; length];
    if random.percent(50) {
        Content::fill(&mut bytes[..], random);
    }
    put_measures(&mut bytes, &shape, form);
    bytes
}

fn put_measures(bytes: &mut [u8], shape: &Shape, form: Form) {
    put_word(bytes, header::COLUMNS, columns_word(shape.columns, form_number(form)));
    put_word(bytes, header::RANGES, shape.ranges);
    put_word(bytes, header::CAPACITY, shape.capacity);
    put_word(bytes, header::SPARES, shape.spares);
}

/// A memory and list of which every stored fact holds, and else anything.
pub fn passing(random: &mut Random) -> (Vec<u8>, Vec<ScanEntry>) {
    let (shape, form) = (small_shape(random), any_form(random));
    let mut builder = Builder::new(&shape, form, random);
    builder.opens();
    for range in 0..shape.ranges as usize {
        builder.records(range);
    }
    builder.rows();
    builder.keepers();
    builder.pages();
    let list = builder.scans();
    (builder.bytes, list)
}

/// Changes words that the facts leave free, in a memory whose facts hold. Whether there is a change.
pub fn disturbed(memory: &mut [u8], random: &mut Random) -> bool {
    let count = random.between(1, 8);
    let mut builder = Builder::of(memory, random);
    for _ in 0..count {
        builder.disturb();
    }
    let changed = memory != builder.bytes;
    memory.copy_from_slice(&builder.bytes);
    changed
}

/// A count of commits that were made before a scan: as many as there are, a few less, or any.
fn before(made: u32, random: &mut Random) -> u32 {
    match random.below(3) {
        0 => made,
        1 => made.saturating_sub(random.between(1, 3)),
        _ => (random.word() % (u64::from(made) + 1)) as u32,
    }
}

/// Writes words that pass the facts into random bytes.
struct Builder<'r> {
    bytes: Vec<u8>,
    layout: Layout,
    random: &'r mut Random,
    rows: u32,
    transactions: u32,
    scans: u32,
    last: u32,
    merges: u32,
    commits: u32,
    /// The count of commits that most scans have, about which the ordinals lie.
    before: u32,
    open: Vec<u32>,
    /// How many of a hundred rows and records bear an open transaction, at least.
    share: u32,
    /// How many of a hundred records are committed settings of every column of one row, or of a
    /// hundred rows committed, at least.
    settings: u32,
}

/// Shares of which each memory has one: a merge wants records that no open transaction made.
const SHARES: [u32; 3] = [0, 10, 50];
/// The same of `settings`: for a crossing there must be several of one row.
const SETTINGS: [u32; 2] = [0, 70];
/// The regions of keepers.
const KEEPERS: [Region; 3] = [Region::RowKeeper, Region::TailKeeper, Region::OpenKeeper];

impl Builder<'_> {
    fn new<'r>(shape: &Shape, form: Form, random: &'r mut Random) -> Builder<'r> {
        let layout = Layout::in_form(shape, form);
        let mut bytes = vec![0; layout.need() + random.below(40) as usize];
        Content::fill(&mut bytes[..], random);
        put_measures(&mut bytes, shape, form);
        let rows = match random.below(4) {
            0 => layout.rows as u32,
            _ => random.below(layout.rows as u32 + 1),
        };
        // Rows and records need a number to bear.
        let transactions = random.pick(&[1, 3, 8, 20, NUMBERS - 1, NUMBERS]);
        let scans = random.pick(&[0, 2, 20, NUMBERS - 1, NUMBERS]);
        let last = random.pick(&[0, 5, 30, u32::MAX]);
        let merges = random.pick(&[0, 3, 12, u32::MAX - 1, u32::MAX]);
        let commits = random.pick(&[0, 1, 3, 12, u32::MAX - 1, u32::MAX]);
        let before = before(commits, random);
        put_word(&mut bytes, header::ROWS_GIVEN, rows);
        put_word(&mut bytes, header::TRANSACTIONS_GIVEN, transactions);
        put_word(&mut bytes, header::SCANS_GIVEN, scans);
        put_word(&mut bytes, header::LAST_STAMP, last);
        put_word(&mut bytes, header::MERGES_MADE, merges);
        put_word(&mut bytes, header::COMMITS_MADE, commits);
        Builder {
            bytes,
            layout,
            share: random.pick(&SHARES),
            settings: random.pick(&SETTINGS),
            random,
            rows,
            transactions,
            scans,
            last,
            merges,
            commits,
            before,
            open: Vec::new(),
        }
    }

    /// With the words that a memory has, whose facts hold.
    fn of<'r>(memory: &[u8], random: &'r mut Random) -> Builder<'r> {
        let layout = Layout::stored(memory).expect("the measures lie within their limits");
        let header = |i| word(memory, i);
        let opens = (0..OPENS).map(|place| word(memory, layout.base(Region::Opens) + place));
        let before = before(header(header::COMMITS_MADE), random);
        Builder {
            bytes: memory.to_vec(),
            layout,
            share: random.pick(&SHARES),
            settings: 0,
            random,
            rows: header(header::ROWS_GIVEN),
            transactions: header(header::TRANSACTIONS_GIVEN),
            scans: header(header::SCANS_GIVEN),
            last: header(header::LAST_STAMP),
            merges: header(header::MERGES_MADE),
            commits: header(header::COMMITS_MADE),
            before,
            open: opens.filter(|number| *number != 0).collect(),
        }
    }

    /// Another word in the place of one that the facts leave free.
    fn disturb(&mut self) {
        match self.random.below(12) {
            0 => self.other_open(),
            1 | 2 => self.other_page(),
            3 => self.other_lineage(),
            4 => self.more_commits(),
            5 => self.other_keeper(),
            6 if self.random.percent(50) => self.unknown_keepers(),
            6 => self.other_keeper(),
            _ => self.other_record(),
        }
    }

    /// Another keeper of a row, a record or an entry of the open transactions, used or not.
    fn other_keeper(&mut self) {
        let region = self.random.pick(&KEEPERS);
        let all = self.layout.length(region) as u32;
        if all == 0 {
            return;
        }
        // The rows that records name are the first of a range.
        let most = if self.random.percent(50) { all.min(3) } else { all };
        let (at, keeper) = (self.random.below(most) as usize, self.keeper());
        self.put(region, at, keeper);
    }

    fn keepers(&mut self) {
        for region in KEEPERS {
            for at in 0..self.layout.length(region) {
                let keeper = self.keeper();
                self.put(region, at, keeper);
            }
        }
        // One that bears a keeper, or an unused place that holds one, among many that bear none.
        if self.random.percent(40) {
            self.unknown_keepers();
            if self.random.percent(40) {
                self.other_keeper();
            }
        }
    }

    /// No row, record or open transaction bears a keeper other than 0, so that the way back to form 1 is
    /// open. What is not used keeps its words, and in some memories the upper half of a word holds something.
    fn unknown_keepers(&mut self) {
        if self.layout.form == Form::First {
            return;
        }
        let rows = (0..self.rows as usize).map(|row| (Region::RowKeeper, row));
        let ranges = 0..self.layout.ranges;
        let slots = ranges.flat_map(|range| {
            let used = self.get(Region::Used, range) as usize;
            let layout = self.layout;
            (1..=used).map(move |number| (Region::TailKeeper, layout.slot(range, number)))
        });
        let opens = (0..OPENS).filter(|open| self.get(Region::Opens, *open) != 0);
        let opens = opens.map(|open| (Region::OpenKeeper, open));
        let borne: Vec<(Region, usize)> = rows.chain(slots).chain(opens).collect();
        let upper = if self.random.percent(30) { 20 } else { 0 };
        for (region, at) in borne {
            let half = self.random.below(KEEPER_LIMIT);
            let word = if self.random.percent(upper) { half * KEEPER_LIMIT } else { 0 };
            self.put(region, at, word);
        }
    }

    /// A keeper's word: mostly a number of 16 bits, as the store writes it.
    fn keeper(&mut self) -> u32 {
        let word = self.random.word() as u32;
        if self.random.percent(70) {
            word % KEEPER_LIMIT
        } else {
            word
        }
    }

    /// A greater count of commits made, which may be about to go round: no scan's is above it then.
    fn more_commits(&mut self) {
        let more = self.random.pick(&[self.commits.saturating_add(1), u32::MAX - 1, u32::MAX]);
        self.commits = self.commits.max(more);
        self.put(Region::Header, header::COMMITS_MADE, self.commits);
    }

    /// Another number, or none, in a place of the open transactions.
    fn other_open(&mut self) {
        let place = self.random.below(OPENS as u32) as usize;
        let number = self.up_to(self.transactions);
        let number = if self.open.contains(&number) { 0 } else { number };
        let old = self.get(Region::Opens, place);
        self.put(Region::Opens, place, number);
        self.open.retain(|open| *open != old);
        if number != 0 {
            self.open.push(number);
        }
    }

    /// Another state and place of a page that is not current.
    fn other_page(&mut self) {
        let at = self.random.below(self.layout.pages as u32) as usize;
        let mut current = (0..self.layout.chunks).map(|place| self.get(Region::Current, place));
        if !current.any(|page| page as usize == at) {
            let (state, least) = (self.code(), self.random.below(2));
            let place = self.random.below(self.layout.chunks as u32);
            self.page(at, state.max(least), place);
        }
    }

    fn other_lineage(&mut self) {
        let place = self.random.below(self.layout.chunks as u32) as usize;
        let used = self.get(Region::Used, place / self.layout.columns);
        let (at, lineage) = (self.get(Region::Current, place), self.up_to(used));
        self.put(Region::PageLineage, at as usize, lineage);
    }

    /// Another word of a used record, or of the row that it names.
    fn other_record(&mut self) {
        let range = self.random.below(self.layout.ranges as u32) as usize;
        let used = self.get(Region::Used, range);
        if used == 0 {
            return;
        }
        let number = 1 + self.random.below(used);
        let slot = self.layout.slot(range, number as usize);
        let row = self.get(Region::TailRow, slot);
        let (region, at, word) = match self.random.below(12) {
            0 => (Region::RowLink, row as usize, self.linked(range, row, used)),
            1 => (Region::RowTransaction, row as usize, self.transaction()),
            2 => (Region::RowState, row as usize, self.code()),
            3 => (Region::TailLink, slot, self.linked(range, row, number - 1)),
            4 => (Region::TailTransaction, slot, self.transaction()),
            5 => (Region::TailState, slot, self.code()),
            6 => (Region::RowOrdinal, row as usize, self.ordinal()),
            7 => (Region::TailOrdinal, slot, self.ordinal()),
            8 => (Region::TailMask, slot, self.mask()),
            9 => (Region::TailStamp, slot, self.up_to(self.last)),
            10 => (Region::RowStamp, row as usize, self.up_to(self.last)),
            _ => (Region::TailKind, slot, self.code()),
        };
        self.put(region, at, word);
    }

    fn put(&mut self, region: Region, i: usize, word: u32) {
        put_word(&mut self.bytes, self.layout.base(region) + i, word);
    }

    fn get(&self, region: Region, i: usize) -> u32 {
        word(&self.bytes, self.layout.base(region) + i)
    }

    /// A number up to `most`, often a small one.
    fn up_to(&mut self, most: u32) -> u32 {
        let limit = if self.random.percent(50) { most.min(8) } else { most };
        (self.random.word() % (u64::from(limit) + 1)) as u32
    }

    /// An ordinal: mostly the last that most scans see or the first that they do not, else about the
    /// commits made, which it may exceed, or anything.
    fn ordinal(&mut self) -> u32 {
        let (before, made) = (self.before, self.commits);
        match self.random.below(10) {
            0 | 1 => before,
            2 | 3 => before.wrapping_add(1),
            4 => before.wrapping_sub(1),
            5 => made,
            6 => made.wrapping_add(1),
            7 => self.random.pick(&[0, u32::MAX]),
            8 => self.up_to(made),
            _ => self.random.word() as u32,
        }
    }

    /// A state or kind: mostly one that the store writes.
    fn code(&mut self) -> u32 {
        if self.random.percent(90) {
            self.random.below(3)
        } else {
            self.random.word() as u32
        }
    }

    fn mask(&mut self) -> u32 {
        if self.random.percent(80) {
            self.random.below(1 << self.layout.columns)
        } else {
            self.random.word() as u32
        }
    }

    /// A transaction to bear.
    fn transaction(&mut self) -> u32 {
        if !self.open.is_empty() && self.random.percent(self.share) {
            return self.random.pick(&self.open);
        }
        let (one, other) = (self.up_to(self.transactions - 1), self.up_to(self.transactions - 1));
        // Rather one that is not open, where the other is.
        1 + if self.open.contains(&(one + 1)) { other } else { one }
    }

    fn opens(&mut self) {
        for place in 0..OPENS {
            let number = self.up_to(self.transactions);
            let number = if self.open.contains(&number) { 0 } else { number };
            self.put(Region::Opens, place, number);
            if self.random.percent(40) {
                self.put(Region::Changes, place, 0);
            }
            if number != 0 {
                self.open.push(number);
            }
        }
    }

    fn records(&mut self, range: usize) {
        let first = (range * ROWS) as u32;
        let given = self.rows.saturating_sub(first).min(ROWS as u32);
        let capacity = self.layout.capacity as u32;
        let used = match given {
            0 => 0,
            _ if self.random.percent(self.settings) => capacity,
            _ => self.random.below(capacity + 1),
        };
        self.put(Region::Used, range, used);
        for number in 1..=used {
            let slot = self.layout.slot(range, number as usize);
            // Few rows, so that links find records.
            let mut row = first + self.random.below(given.min(3));
            let (mut kind, mut mask, mut state) = (self.code(), self.mask(), self.code());
            if self.random.percent(self.settings) {
                (row, kind, mask, state) = (first, kind::SETTING, u32::MAX, state::COMMITTED);
            }
            let link = self.linked(range, row, number - 1);
            let transaction = self.transaction();
            let (stamp, ordinal) = (self.up_to(self.last), self.ordinal());
            self.put(Region::TailTransaction, slot, transaction);
            self.put(Region::TailRow, slot, row);
            self.put(Region::TailKind, slot, kind);
            self.put(Region::TailMask, slot, mask);
            self.put(Region::TailLink, slot, link);
            self.put(Region::TailState, slot, state);
            self.put(Region::TailStamp, slot, stamp);
            self.put(Region::TailOrdinal, slot, ordinal);
        }
    }

    /// 0 or a record up to `most` of the row.
    fn linked(&mut self, range: usize, row: u32, most: u32) -> u32 {
        let named = |number: &u32| {
            self.get(Region::TailRow, self.layout.slot(range, *number as usize)) == row
        };
        let all: Vec<u32> = (1..=most).filter(named).collect();
        match all.last() {
            Some(last) if self.random.percent(70) => *last,
            Some(_) if self.random.percent(60) => self.random.pick(&all),
            _ => 0,
        }
    }

    fn rows(&mut self) {
        for row in 0..self.rows {
            let at = row as usize;
            let used = self.get(Region::Used, at / ROWS);
            let link = self.linked(at / ROWS, row, used);
            let (transaction, mut state) = (self.transaction(), self.code());
            if self.random.percent(self.settings) {
                state = state::COMMITTED;
            }
            let (stamp, mask) = (self.up_to(self.last), self.mask());
            // Mostly seen by most scans, so that these have records to see or not.
            let seen = self.random.percent(60);
            let ordinal = if seen { self.up_to(self.before) } else { self.ordinal() };
            self.put(Region::RowTransaction, at, transaction);
            self.put(Region::RowState, at, state);
            self.put(Region::RowStamp, at, stamp);
            self.put(Region::RowLink, at, link);
            self.put(Region::RowMask, at, mask);
            self.put(Region::RowOrdinal, at, ordinal);
        }
    }

    fn pages(&mut self) {
        // In some memories no page says that it is free.
        let least = self.random.below(2);
        for at in 0..self.layout.pages {
            let state = self.code().max(least);
            let place = if self.random.percent(70) {
                self.random.below(self.layout.chunks as u32)
            } else {
                self.random.word() as u32
            };
            self.page(at, state, place);
        }
        // Any pages of the pool may be the current ones.
        let mut pool: Vec<usize> = (0..self.layout.pages).collect();
        for place in 0..self.layout.chunks {
            let other = place + self.random.below((pool.len() - place) as u32) as usize;
            pool.swap(place, other);
            self.put(Region::Current, place, pool[place] as u32);
            self.page(pool[place], page::CURRENT, place as u32);
        }
    }

    fn page(&mut self, at: usize, state: u32, place: u32) {
        let range = place as usize % self.layout.chunks / self.layout.columns;
        let used = self.get(Region::Used, range);
        let (lineage, newest) = (self.up_to(used), self.up_to(self.last));
        let (made, replaced) = (self.up_to(self.merges), self.up_to(self.merges));
        self.put(Region::PageState, at, state);
        self.put(Region::PageChunk, at, place);
        self.put(Region::PageLineage, at, lineage);
        self.put(Region::PageNewest, at, newest);
        self.put(Region::PageReplaced, at, replaced);
        if self.random.percent(90) {
            self.put(Region::PageMade, at, made);
        }
    }

    /// A list with up to `SCANS` open scans.
    fn scans(&mut self) -> Vec<ScanEntry> {
        let mut list = vec![ScanEntry::FREE; SCANS + self.random.below(25) as usize];
        Content::fill(&mut list[..], self.random);
        let share = self.random.pick(&[0, 20, 100]);
        let mut open: Vec<u32> = Vec::new();
        for place in &mut list {
            let number = self.up_to(self.scans);
            let wanted = open.len() < SCANS && self.random.percent(share);
            if number == 0 || open.contains(&number) || !wanted {
                place.number = 0;
                continue;
            }
            open.push(number);
            let (stamp, merges) = (self.up_to(self.last), self.up_to(self.merges));
            let stamp = if self.random.percent(50) { self.last } else { stamp };
            let commits = match self.random.below(4) {
                0 => self.commits,
                1 => self.up_to(self.commits),
                _ => self.before,
            };
            *place = ScanEntry { number, stamp, merges, commits };
        }
        list
    }
}
