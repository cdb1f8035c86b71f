//! A page store in plain Rust on the lent memory's layout: the benchmark's baseline, and a store
//! to try the checks on. It does what the definitions of the proved store say, word for word, so
//! that the two can be compared by their bytes. Written for speed, in safe code.
//!
//! The parameter switches on one of the wrong behaviours in `faults`, for the checks to find; the
//! store itself is `Plain<NONE>`. A constant, so that the right store pays nothing for it.
//!
//! One code serves both forms: a region that the form lacks is empty, reads as 0, and a write into it is
//! nothing.

mod crossings;
pub mod faults;
mod moving;
mod reading;
mod sound;
mod writing;

use reference::{Answer, Call, Shape};

use crate::memory::{
    columns_word, form_number, form_of, header, kind, page, put_word, state, word,
};
use crate::memory::{words, Layout, Region, ScanEntry};
use crate::memory::{FORM, NUMBERS, OPENS, ROWS, SCANS, WORD};
use crate::store::Store;

use crossings::Asked;
use moving::works_on;
use reading::Snapshot;
pub use sound::sound;

/// The store. `FAULT` is one of the numbers in `faults`.
#[derive(Clone, Copy, Debug, Default)]
pub struct Plain<const FAULT: u8 = { faults::NONE }>;

impl<const FAULT: u8> Store for Plain<FAULT> {
    fn need(&self, shape: &Shape) -> Result<usize, u8> {
        require(shape.within_limits(), 1)?;
        Ok(Layout::of(shape).need())
    }

    fn make(&self, memory: &mut [u8], scans: &mut [ScanEntry], shape: &Shape) -> Answer {
        answer(make(memory, scans, shape))
    }

    fn call_with(
        &self,
        memory: &mut [u8],
        scans: &mut [ScanEntry],
        stamps: &mut [u32],
        call: &Call,
    ) -> Answer {
        if FAULT == faults::LATER_FORM_ACCEPTED && says_later_form(memory) {
            return self.as_the_newest(memory, scans, stamps, call);
        }
        match Table::<FAULT>::of(memory, scans, call) {
            Some(mut table) => answer(table.call(call, stamps)),
            None => Answer::Refused(2),
        }
    }

    fn move_with(
        &self,
        memory: &mut [u8],
        scans: &mut [ScanEntry],
        second: &mut [u8],
        call: &Call,
    ) -> Answer {
        match (Table::<FAULT>::of(memory, scans, call), call.moves_to()) {
            (Some(mut table), Some(form)) => answer(table.move_to(form, second)),
            _ => Answer::Refused(2),
        }
    }

    fn check(&self, memory: &[u8], scans: &[ScanEntry]) -> Answer {
        match sound(memory, scans) {
            Some(layout) => Answer::Number(form_number(layout.form)),
            None => Answer::Refused(2),
        }
    }
}

/// Whether the columns' word says a form that no call works on.
fn says_later_form(memory: &[u8]) -> bool {
    memory.len() >= WORD && form_of(memory).is_none()
}

impl<const FAULT: u8> Plain<FAULT> {
    /// Part of a wrong store: a call on a memory of a later form that is taken for one of the newest.
    fn as_the_newest(
        &self,
        memory: &mut [u8],
        scans: &mut [ScanEntry],
        stamps: &mut [u32],
        call: &Call,
    ) -> Answer {
        let first = word(memory, header::COLUMNS);
        put_word(memory, header::COLUMNS, columns_word(first % (1 << 16), FORM));
        let answer = self.call_with(memory, scans, stamps, call);
        put_word(memory, header::COLUMNS, first);
        answer
    }
}

/// The plain store with other calls, the moves excepted, for wrong stores that the parameter does not make.
pub struct Altered<F>(pub F);

impl<F> Store for Altered<F>
where
    F: Fn(&mut [u8], &mut [ScanEntry], &mut [u32], &Call) -> Answer,
{
    fn need(&self, shape: &Shape) -> Result<usize, u8> {
        Plain::<{ faults::NONE }>.need(shape)
    }

    fn make(&self, memory: &mut [u8], scans: &mut [ScanEntry], shape: &Shape) -> Answer {
        Plain::<{ faults::NONE }>.make(memory, scans, shape)
    }

    fn call_with(
        &self,
        memory: &mut [u8],
        scans: &mut [ScanEntry],
        stamps: &mut [u32],
        call: &Call,
    ) -> Answer {
        (self.0)(memory, scans, stamps, call)
    }

    fn move_with(
        &self,
        memory: &mut [u8],
        scans: &mut [ScanEntry],
        second: &mut [u8],
        call: &Call,
    ) -> Answer {
        Plain::<{ faults::NONE }>.move_with(memory, scans, second, call)
    }

    fn check(&self, memory: &[u8], scans: &[ScanEntry]) -> Answer {
        Plain::<{ faults::NONE }>.check(memory, scans)
    }
}

/// An accepted call's answer, or the refusal's number.
type Outcome = Result<Answer, u8>;

fn answer(outcome: Outcome) -> Answer {
    outcome.unwrap_or_else(Answer::Refused)
}

#[inline(always)]
fn require(holds: bool, number: u8) -> Result<(), u8> {
    if holds {
        Ok(())
    } else {
        Err(number)
    }
}

/// Making looks at no content. It frees every entry of the list, however long the list is.
fn make(memory: &mut [u8], scans: &mut [ScanEntry], shape: &Shape) -> Outcome {
    require(shape.within_limits(), 1)?;
    let layout = Layout::of(shape);
    require(memory.len() >= layout.need() && scans.len() >= SCANS, 2)?;
    memory[..layout.need()].fill(0);
    scans.fill(ScanEntry::FREE);
    put_word(memory, header::COLUMNS, columns_word(shape.columns, FORM));
    put_word(memory, header::RANGES, shape.ranges);
    put_word(memory, header::CAPACITY, shape.capacity);
    put_word(memory, header::SPARES, shape.spares);
    for place in 0..layout.chunks {
        put_word(memory, layout.base(Region::Current) + place, place as u32);
        put_word(memory, layout.base(Region::PageChunk) + place, place as u32);
        put_word(memory, layout.base(Region::PageState) + place, page::CURRENT);
    }
    Ok(Answer::Done)
}

/// A store whose stored facts hold.
struct Table<'m, const FAULT: u8> {
    memory: &'m mut [u8],
    scans: &'m mut [ScanEntry],
    layout: Layout,
}

impl<'m, const FAULT: u8> Table<'m, FAULT> {
    /// The store for a call, if the facts hold and it works on the form.
    #[inline(always)]
    fn of(memory: &'m mut [u8], scans: &'m mut [ScanEntry], call: &Call) -> Option<Self> {
        let layout = sound(memory, scans).filter(|it| works_on::<FAULT>(call, it.form))?;
        Some(Table { memory, scans, layout })
    }
}

/// Words.
impl<const FAULT: u8> Table<'_, FAULT> {
    #[inline(always)]
    fn get(&self, region: Region, i: usize) -> u32 {
        word(self.memory, self.layout.base(region) + i)
    }

    #[inline(always)]
    fn put(&mut self, region: Region, i: usize, word: u32) {
        put_word(self.memory, self.layout.base(region) + i, word);
    }

    /// A word of a region that form 1 lacks: there it is 0.
    #[inline(always)]
    fn get_later(&self, region: Region, i: usize) -> u32 {
        if i < self.layout.length(region) {
            self.get(region, i)
        } else {
            0
        }
    }

    /// The same: there nothing is written.
    #[inline(always)]
    fn put_later(&mut self, region: Region, i: usize, word: u32) {
        if i < self.layout.length(region) {
            self.put(region, i, word);
        }
    }

    /// The bytes of n words of a region.
    #[inline(always)]
    fn run(&self, region: Region, from: usize, n: usize) -> &[u8] {
        let first = (self.layout.base(region) + from) * WORD;
        &self.memory[first..first + n * WORD]
    }

    #[inline(always)]
    fn run_mut(&mut self, region: Region, from: usize, n: usize) -> &mut [u8] {
        let first = (self.layout.base(region) + from) * WORD;
        &mut self.memory[first..first + n * WORD]
    }

    #[inline(always)]
    fn header(&self, i: usize) -> u32 {
        self.get(Region::Header, i)
    }

    fn used(&self, range: usize) -> u32 {
        self.get(Region::Used, range)
    }

    fn current(&self, range: usize, column: usize) -> usize {
        self.get(Region::Current, self.layout.chunk(range, column)) as usize
    }
}

/// The calls: the tests in the papers' order, then the work.
impl<const FAULT: u8> Table<'_, FAULT> {
    fn call(&mut self, call: &Call, stamps: &mut [u32]) -> Outcome {
        match *call {
            Call::Begin => self.begin(None),
            Call::BeginAs { keeper } => self.begin(Some(keeper)),
            Call::Insert { transaction, ref values } => {
                let open = self.open(transaction)?;
                require((self.header(header::ROWS_GIVEN) as usize) < self.layout.rows, 11)?;
                Ok(self.insert(transaction, open, values))
            }
            Call::Update { transaction, row, mask, ref values } => {
                let open = self.open(transaction)?;
                let row = self.given(row)?;
                let mask = u32::from(mask);
                require(mask != 0 && mask >> self.layout.columns == 0, 8)?;
                self.not_held(transaction, row)?;
                self.not_gone(transaction, row)?;
                let new = mask & !self.get(Region::RowMask, row);
                self.tail_has(row, if new == 0 { 1 } else { 2 })?;
                Ok(self.update(transaction, open, row, mask, values))
            }
            Call::Delete { transaction, row } => {
                let open = self.open(transaction)?;
                let row = self.given(row)?;
                self.not_held(transaction, row)?;
                self.not_gone(transaction, row)?;
                self.tail_has(row, 1)?;
                Ok(self.delete(transaction, open, row))
            }
            Call::Commit { transaction, stamp } => {
                let open = self.open(transaction)?;
                let last = self.header(header::LAST_STAMP);
                require(stamp >= last || FAULT == faults::EARLIER_COMMIT_ACCEPTED, 13)?;
                require(stamp != last || FAULT != faults::COMMIT_MUST_BE_LATER, 13)?;
                require(stamp != 0 || FAULT != faults::COMMIT_AT_0_REFUSED, 13)?;
                Ok(self.commit(transaction, open, stamp))
            }
            Call::Abort { transaction } => {
                let open = self.open(transaction)?;
                Ok(self.abort(transaction, open))
            }
            Call::Latest { row, column } => {
                let row = self.given(row)?;
                let column = self.column(column)?;
                Ok(self.read(self.latest(), 0, row, column))
            }
            Call::ReadAt { stamp, row, column } => {
                require(stamp <= self.header(header::LAST_STAMP), 13)?;
                let row = self.given(row)?;
                let column = self.column(column)?;
                Ok(self.read(self.snapshot(stamp), 0, row, column))
            }
            Call::OwnRead { transaction, row, column } => {
                let open = self.open(transaction)?;
                let row = self.given(row)?;
                let column = self.column(column)?;
                // With nothing noted it is the latest read.
                let own = if self.get(Region::Changes, open) == 0 { 0 } else { transaction };
                Ok(self.read(self.latest(), own, row, column))
            }
            Call::OpenScan { stamp } => self.open_scan(stamp),
            Call::ScanRead { scan, row, column } => {
                let (_, scan) = self.scan(scan)?;
                let row = self.given(row)?;
                let column = self.column(column)?;
                let at = self.scan_page(scan.merges, row / ROWS, column);
                Ok(self.read_page(Self::scanned(scan), 0, at, row, column))
            }
            Call::Sum { scan, column } => {
                let (_, scan) = self.scan(scan)?;
                let column = self.column(column)?;
                Ok(self.sum(scan, column))
            }
            Call::Close { scan } => {
                let (place, _) = self.scan(scan)?;
                self.scans[place] = ScanEntry::FREE;
                Ok(Answer::Done)
            }
            Call::Merge { range, column, through } => {
                let range = self.range(range)?;
                let column = self.column(column)?;
                let at = self.current(range, column);
                let lineage = self.lineage(range, column, at);
                require(lineage < through && through <= self.used(range), 16)?;
                let (low, high) = (lineage as usize, through as usize);
                require(!self.any_open(range, high), 17)?;
                let free = self.free_page().ok_or(18)?;
                Ok(self.merge(range, column, low, high, at, free))
            }
            Call::Release => Ok(self.release()),
            Call::PageCell { column, row } => {
                let column = self.column(column)?;
                let row = self.given(row)?;
                let at = self.current(row / ROWS, column);
                Ok(Answer::Value(self.cell(at, row) as i32))
            }
            Call::Lineage { range, column } => {
                let range = self.range(range)?;
                let column = self.column(column)?;
                let at = self.current(range, column);
                let through = self.lineage(range, column, at);
                Ok(Answer::Lineage { through, used: self.used(range) })
            }
            Call::Crossings { row, column, mark, from, to, .. } => {
                let minutes = self.are_minutes(from, to);
                require(minutes || FAULT != faults::MINUTES_TESTED_FIRST, 13)?;
                let row = self.given(row)?;
                let column = self.column(column)?;
                require(minutes, 13)?;
                self.list(&Asked { row, column, mark, from, to }, stamps)
            }
            Call::KeeperAt { stamp, row, column } => {
                let last = self.header(header::LAST_STAMP);
                let ahead = stamp > last && FAULT != faults::KEEPER_AHEAD_ACCEPTED;
                require(!ahead || FAULT == faults::KEEPER_TESTS_STAMP_LAST, 13)?;
                let row = self.given(row)?;
                let column = self.column(column)?;
                require(!ahead, 13)?;
                Ok(self.keeper(self.snapshot(stamp), row, column))
            }
            // Without a byte of a second memory.
            Call::Upgrade | Call::Downgrade => Err(2),
        }
    }

    /// Without a keeper it is begun with 0.
    fn begin(&mut self, keeper: Option<u16>) -> Outcome {
        let given = self.header(header::TRANSACTIONS_GIVEN);
        require(given < NUMBERS, 15)?;
        let most = if FAULT == faults::TRANSACTIONS_AS_SCANS { SCANS } else { OPENS };
        let open = words(self.run(Region::Opens, 0, most)).position(|number| number == 0);
        let open = open.ok_or(14)?;
        self.put(Region::Opens, open, given + 1);
        self.put(Region::Changes, open, 0);
        if keeper.is_some() || !faults::begins_without_keeper(FAULT) {
            self.put_later(Region::OpenKeeper, open, u32::from(keeper.unwrap_or(0)));
        }
        self.put(Region::Header, header::TRANSACTIONS_GIVEN, given + 1);
        Ok(Answer::Number(given + 1))
    }

    fn open_scan(&mut self, stamp: u32) -> Outcome {
        require(stamp <= self.header(header::LAST_STAMP), 13)?;
        let given = self.header(header::SCANS_GIVEN);
        require(given < NUMBERS, 15)?;
        let open = self.scans.iter().filter(|scan| scan.is_open()).count();
        require(open < SCANS || FAULT == faults::SCANS_BY_ENTRIES, 14)?;
        let place = self.scans.iter().position(|scan| !scan.is_open()).ok_or(14)?;
        let merges = self.header(header::MERGES_MADE);
        let commits = match FAULT {
            faults::SCAN_HAS_NO_COMMITS => 0,
            _ => self.header(header::COMMITS_MADE),
        };
        self.scans[place] = ScanEntry { number: given + 1, stamp, merges, commits };
        self.put(Region::Header, header::SCANS_GIVEN, given + 1);
        Ok(Answer::Number(given + 1))
    }

    /// What a read at a stamp may see: every commit up to the stamp, whatever its ordinal.
    fn snapshot(&self, stamp: u32) -> Snapshot {
        let commits = match FAULT {
            faults::OLDEST_OF_THE_MINUTE => self.oldest_ordinal(stamp),
            _ => u32::MAX,
        };
        Snapshot { stamp, commits }
    }

    /// What a latest read may see.
    fn latest(&self) -> Snapshot {
        let stamp = self.header(header::LAST_STAMP);
        Snapshot { stamp, commits: u32::MAX }
    }

    /// What a scan may see: what was committed up to its stamp before it was opened.
    fn scanned(scan: ScanEntry) -> Snapshot {
        let ScanEntry { stamp, commits, .. } = scan;
        match FAULT {
            faults::SCAN_MISSES_LAST_COMMIT => {
                Snapshot { stamp, commits: commits.saturating_sub(1) }
            }
            faults::SCAN_FORGETS_STAMP => Snapshot { stamp: u32::MAX, commits },
            _ => Snapshot { stamp, commits },
        }
    }

    /// The place of an open transaction. Number 0 marks a free entry, so it is never found.
    fn open(&self, transaction: u32) -> Result<usize, u8> {
        require(transaction != 0, 3)?;
        words(self.run(Region::Opens, 0, OPENS)).position(|number| number == transaction).ok_or(3)
    }

    /// An open scan and its place.
    fn scan(&self, number: u32) -> Result<(usize, ScanEntry), u8> {
        require(number != 0, 4)?;
        self.scans.iter().copied().enumerate().find(|(_, scan)| scan.number == number).ok_or(4)
    }

    fn given(&self, row: u32) -> Result<usize, u8> {
        require(row < self.header(header::ROWS_GIVEN), 5)?;
        Ok(row as usize)
    }

    fn column(&self, column: u32) -> Result<usize, u8> {
        require((column as usize) < self.layout.columns, 6)?;
        Ok(column as usize)
    }

    /// Whether these are minutes from one to another, up to the last commit's.
    fn are_minutes(&self, from: u32, to: u32) -> bool {
        (from <= to || FAULT == faults::FROM_AFTER_TO_ACCEPTED)
            && (to <= self.header(header::LAST_STAMP) || FAULT == faults::LATER_TO_ACCEPTED)
    }

    fn range(&self, range: u32) -> Result<usize, u8> {
        require((range as usize) < self.layout.ranges, 7)?;
        Ok(range as usize)
    }

    /// The slot of a row's newest record, if it has one.
    fn head(&self, row: usize) -> Option<usize> {
        let link = self.get(Region::RowLink, row) as usize;
        (link != 0).then(|| self.layout.slot(row / ROWS, link))
    }

    /// Each other open number looks through the records that name the row: most often there is none.
    fn not_held(&self, transaction: u32, row: usize) -> Result<(), u8> {
        let inserter = self.get(Region::RowTransaction, row);
        require(inserter == transaction || self.open(inserter).is_err(), 9)?;
        if FAULT == faults::HELD_BY_INSERTER_ONLY {
            return Ok(());
        }
        let (at, used) = ((row / ROWS) * self.layout.capacity, self.used(row / ROWS) as usize);
        let others = words(self.run(Region::Opens, 0, OPENS));
        let held = others.filter(|other| *other != 0 && *other != transaction).any(|other| {
            let rows = words(self.run(Region::TailRow, at, used));
            let setters = words(self.run(Region::TailTransaction, at, used));
            rows.zip(setters).fold(false, |any, (named, setter)| {
                any | ((named == row as u32) & (setter == other))
            })
        });
        require(!held, 9)
    }

    /// An aborted delete ends nothing; what is not open is aborted unless it says committed.
    fn not_gone(&self, transaction: u32, row: usize) -> Result<(), u8> {
        let stands = |number: u32, state: u32| {
            (number == transaction)
                | (state == state::COMMITTED)
                | (FAULT == faults::ABORTED_DELETE_MAKES_GONE)
        };
        let inserter = self.get(Region::RowTransaction, row);
        let state = self.get(Region::RowState, row);
        require(inserter == transaction || state == state::COMMITTED, 10)?;
        let (at, used) = ((row / ROWS) * self.layout.capacity, self.used(row / ROWS) as usize);
        let rows = words(self.run(Region::TailRow, at, used));
        let kinds = words(self.run(Region::TailKind, at, used));
        let setters = words(self.run(Region::TailTransaction, at, used));
        let states = words(self.run(Region::TailState, at, used));
        let ended = rows.zip(kinds).zip(setters.zip(states)).fold(false, |any, (x, y)| {
            any | ((x.0 == row as u32) & (x.1 >= kind::DELETE) & stands(y.0, y.1))
        });
        require(!ended, 10)
    }

    fn tail_has(&self, row: usize, wanted: u32) -> Result<(), u8> {
        require((self.used(row / ROWS) + wanted) as usize <= self.layout.capacity, 12)
    }

    /// The lineage of a place's current page.
    fn lineage(&self, range: usize, column: usize, at: usize) -> u32 {
        if FAULT == faults::OTHER_COLUMNS_LINEAGE {
            let other = self.current(range, (column + 1) % self.layout.columns);
            return self.get(Region::PageLineage, other);
        }
        self.get(Region::PageLineage, at)
    }
}
