//! The model's definitions of the calls (crates/model/specs: Stored, Reading, Versions, Writing,
//! Calls), put into Rust one for one over a list of words for each region, under their own names.
//! Slow, and only there to compare the bytes that another store leaves with what the definitions say.

use reference::{Answer, Call, Form, Shape};

use crate::facts;
use crate::memory::{columns_word, form_number, put_word, word};
use crate::memory::{Layout, Region, ScanEntry, FORM, OPENS, REGIONS, SCANS};
use crate::store::Store;

const RANGE_ROWS: usize = 64;
const MOST_NUMBERS: u32 = 65_535;
const KEEPER_LIMIT: u32 = 1 << 16;
const UNKNOWN_KEEPER: u32 = 0;
const FREE_ENTRY: ScanEntry = ScanEntry::FREE;

/// The definitions as a store.
#[derive(Clone, Copy, Debug, Default)]
pub struct Defined;

impl Store for Defined {
    fn need(&self, shape: &Shape) -> Result<usize, u8> {
        if shape.within_limits() {
            Ok(Layout::of(shape).need())
        } else {
            Err(1)
        }
    }

    fn make(&self, memory: &mut [u8], list: &mut [ScanEntry], shape: &Shape) -> Answer {
        if !shape.within_limits() {
            return Answer::Refused(1);
        }
        let layout = Layout::of(shape);
        if memory.len() < layout.need() || list.len() < SCANS {
            return Answer::Refused(2);
        }
        let mut view = View { layout, lists: Vec::new() };
        for region in 0..REGIONS {
            view.lists.push(vec![0; layout.first(region + 1) - layout.first(region)]);
        }
        view.put(Region::Header, 0, columns_word(shape.columns, FORM));
        view.put(Region::Header, 1, shape.ranges);
        view.put(Region::Header, 2, shape.capacity);
        view.put(Region::Header, 3, shape.spares);
        for place in 0..layout.chunks {
            view.put(Region::Current, place, place as u32);
            view.put(Region::PageChunk, place, place as u32);
            view.put(Region::PageState, place, 1);
        }
        view.lay(memory);
        list.fill(FREE_ENTRY);
        Answer::Done
    }

    fn call_with(
        &self,
        memory: &mut [u8],
        list: &mut [ScanEntry],
        stamps: &mut [u32],
        call: &Call,
    ) -> Answer {
        let Some(view) = View::usable(memory, list).filter(|view| view.takes(call)) else {
            return Answer::Refused(2);
        };
        let places = list.to_vec();
        let tests = view.tests_in(&places, stamps, call);
        if let Some((number, _)) = tests.into_iter().find(|test| test.1) {
            return Answer::Refused(number);
        }
        let answer = view.reply_in(&places, call);
        stamps.copy_from_slice(&view.stamps_in(stamps, call));
        list.copy_from_slice(&view.entries_after(&places, call));
        view.act_in(&places, call).lay(memory);
        answer
    }

    fn move_with(
        &self,
        memory: &mut [u8],
        list: &mut [ScanEntry],
        second: &mut [u8],
        call: &Call,
    ) -> Answer {
        let view = View::usable(memory, list).filter(|view| view.takes(call));
        let Some((view, form)) = view.zip(call.moves_to()) else {
            return Answer::Refused(2);
        };
        let moved = view.moved_to(form);
        if second.len() < moved.layout.need() {
            return Answer::Refused(2);
        }
        if form == Form::First && view.bears_keeper() {
            return Answer::Refused(22);
        }
        moved.lay(second);
        Answer::Done
    }

    fn check(&self, memory: &[u8], list: &[ScanEntry]) -> Answer {
        match View::usable(memory, list) {
            Some(view) => Answer::Number(form_number(view.layout.form)),
            None => Answer::Refused(2),
        }
    }
}

/// One list for each region; the list of a region that the form lacks is empty.
#[derive(Clone)]
struct View {
    layout: Layout,
    lists: Vec<Vec<u32>>,
}

#[derive(Clone, Copy)]
struct RowWords {
    transaction: u32,
    state: u32,
    stamp: u32,
    ordinal: u32,
    link: u32,
    mask: u32,
}

#[derive(Clone, Copy)]
struct RecordWords {
    transaction: u32,
    row: u32,
    kind: u32,
    mask: u32,
    link: u32,
    state: u32,
    stamp: u32,
    ordinal: u32,
}

#[derive(Clone, Copy)]
struct PageWords {
    state: u32,
    place: u32,
    made: u32,
    replaced: u32,
    lineage: u32,
    newest: u32,
}

/// A commit's stamp and its ordinal.
#[derive(Clone, Copy)]
struct Commit {
    stamp: u32,
    ordinal: u32,
}

const NO_COMMIT: Commit = Commit { stamp: 0, ordinal: 0 };

/// Of the first so many commits those with a stamp at or before this one.
#[derive(Clone, Copy)]
struct Snapshot {
    stamp: u32,
    commits: u32,
}

#[derive(Clone, Copy)]
struct Reader {
    stamp: u32,
    commits: u32,
    me: u32,
}

/// The number below the first record of a range.
const FLOOR: u32 = 0;

enum Found {
    At(usize),
    Nothing,
}

/// The row's insert, or the update whose record is at a slot.
#[derive(Clone, Copy)]
enum Setter {
    Insert,
    Update(usize),
}

#[derive(Clone, Copy)]
struct Version {
    word: u32,
    setter: Setter,
}

fn commit_stamp(state: u32, stamp: u32) -> u32 {
    if state == 1 {
        stamp
    } else {
        0
    }
}

fn range_of(row: usize) -> usize {
    row / RANGE_ROWS
}

fn within(row: usize) -> usize {
    row % RANGE_ROWS
}

fn bit(mask: u32, column: usize) -> bool {
    mask >> column & 1 == 1
}

fn bears(number: u32, word: u32) -> bool {
    word != 0 && word == number
}

// Stored
impl View {
    fn of(memory: &[u8], layout: Layout) -> View {
        let list = |region| {
            (layout.first(region)..layout.first(region + 1)).map(|at| word(memory, at)).collect()
        };
        View { layout, lists: (0..REGIONS).map(list).collect() }
    }

    /// In whatever form some call works on.
    fn usable(memory: &[u8], list: &[ScanEntry]) -> Option<View> {
        let usable = facts::failing(memory, list).is_none();
        usable.then(|| View::of(memory, Layout::stored(memory).expect("the facts hold")))
    }

    /// Whether a call works on the form.
    fn takes(&self, call: &Call) -> bool {
        let forms: &[Form] = match call {
            Call::Upgrade => &[Form::First],
            Call::Downgrade | Call::BeginAs { .. } | Call::KeeperAt { .. } => &[Form::Newest],
            _ => &[Form::First, Form::Newest],
        };
        forms.contains(&self.layout.form)
    }

    fn lay(&self, memory: &mut [u8]) {
        for (at, word) in self.lists.iter().flatten().enumerate() {
            put_word(memory, at, *word);
        }
    }

    /// 0 beyond the list's end.
    fn get(&self, region: Region, at: usize) -> u32 {
        self.lists[region as usize].get(at).copied().unwrap_or(0)
    }

    /// Nothing beyond the list's end.
    fn put(&mut self, region: Region, at: usize, word: u32) {
        if let Some(place) = self.lists[region as usize].get_mut(at) {
            *place = word;
        }
    }

    fn header(&self, at: usize) -> u32 {
        self.get(Region::Header, at)
    }

    fn rows_given(&self) -> u32 {
        self.header(4)
    }

    fn transactions_given(&self) -> u32 {
        self.header(5)
    }

    fn scans_given(&self) -> u32 {
        self.header(6)
    }

    fn last_stamp(&self) -> u32 {
        self.header(7)
    }

    fn merges_made(&self) -> u32 {
        self.header(8)
    }

    fn commits_made(&self) -> u32 {
        self.header(9)
    }

    fn row_in(&self, row: usize) -> RowWords {
        RowWords {
            transaction: self.get(Region::RowTransaction, row),
            state: self.get(Region::RowState, row),
            stamp: self.get(Region::RowStamp, row),
            ordinal: self.get(Region::RowOrdinal, row),
            link: self.get(Region::RowLink, row),
            mask: self.get(Region::RowMask, row),
        }
    }

    fn record_in(&self, slot: usize) -> RecordWords {
        RecordWords {
            transaction: self.get(Region::TailTransaction, slot),
            row: self.get(Region::TailRow, slot),
            kind: self.get(Region::TailKind, slot),
            mask: self.get(Region::TailMask, slot),
            link: self.get(Region::TailLink, slot),
            state: self.get(Region::TailState, slot),
            stamp: self.get(Region::TailStamp, slot),
            ordinal: self.get(Region::TailOrdinal, slot),
        }
    }

    fn page_in(&self, at: usize) -> PageWords {
        PageWords {
            state: self.get(Region::PageState, at),
            place: self.get(Region::PageChunk, at),
            made: self.get(Region::PageMade, at),
            replaced: self.get(Region::PageReplaced, at),
            lineage: self.get(Region::PageLineage, at),
            newest: self.get(Region::PageNewest, at),
        }
    }

    fn slot(&self, range: usize, number: usize) -> usize {
        range * self.layout.capacity + number.saturating_sub(1)
    }

    fn used_in(&self, range: usize) -> u32 {
        self.get(Region::Used, range)
    }

    fn value_in(&self, slot: usize, column: usize) -> u32 {
        self.get(Region::TailValues, slot * self.layout.columns + column)
    }

    fn chunk_of(&self, range: usize, column: usize) -> usize {
        range * self.layout.columns + column
    }

    fn current_in(&self, range: usize, column: usize) -> usize {
        self.get(Region::Current, self.chunk_of(range, column)) as usize
    }

    fn cell_in(&self, page: usize, at: usize) -> u32 {
        self.get(Region::Cells, page * RANGE_ROWS + at)
    }

    fn opens(&self) -> &[u32] {
        &self.lists[Region::Opens as usize]
    }

    fn open_index(&self, transaction: u32) -> usize {
        let opens = self.opens();
        opens.iter().position(|word| bears(transaction, *word)).unwrap_or(opens.len())
    }

    fn row_keeper(&self, row: usize) -> u32 {
        self.get(Region::RowKeeper, row)
    }

    fn record_keeper(&self, slot: usize) -> u32 {
        self.get(Region::TailKeeper, slot)
    }

    fn open_keeper(&self, transaction: u32) -> u32 {
        self.get(Region::OpenKeeper, self.open_index(transaction))
    }
}

// Moves
impl View {
    /// Each region's list in another form: the same words, none where that form lacks the region, and zeros
    /// where this one does.
    fn moved_to(&self, form: Form) -> View {
        let layout = self.layout.moved_to(form);
        let lists = Region::ALL
            .map(|region| (0..layout.length(region)).map(|at| self.get(region, at)).collect());
        let mut moved = View { layout, lists: lists.to_vec() };
        moved.put(Region::Header, 0, columns_word(layout.columns as u32, form_number(form)));
        moved
    }

    fn bears_keeper(&self) -> bool {
        let other = |word: u32| word % KEEPER_LIMIT != UNKNOWN_KEEPER;
        let row = (0..self.rows_given() as usize).any(|row| other(self.row_keeper(row)));
        let record = (0..self.layout.ranges).any(|range| {
            (1..=self.used_in(range) as usize)
                .any(|number| other(self.record_keeper(self.slot(range, number))))
        });
        let open =
            (0..OPENS).any(|at| self.opens()[at] != 0 && other(self.get(Region::OpenKeeper, at)));
        row || record || open
    }
}

fn scan_entry(places: &[ScanEntry], number: u32) -> ScanEntry {
    places.iter().copied().find(|scan| bears(number, scan.number)).unwrap_or(FREE_ENTRY)
}

// Reading
fn reader(t: Snapshot, me: u32) -> Reader {
    Reader { stamp: t.stamp, commits: t.commits, me }
}

fn all_up_to(stamp: u32) -> Snapshot {
    Snapshot { stamp, commits: u32::MAX }
}

fn snapshot_of(scan: ScanEntry) -> Snapshot {
    Snapshot { stamp: scan.stamp, commits: scan.commits }
}

fn sees(who: Reader, state: u32, stamp: u32, ordinal: u32, transaction: u32) -> bool {
    (state == 1 && stamp <= who.stamp && ordinal <= who.commits)
        || (state == 0 && who.me != 0 && transaction == who.me)
}

fn sees_row(who: Reader, x: &RowWords) -> bool {
    sees(who, x.state, x.stamp, x.ordinal, x.transaction)
}

fn sees_record(who: Reader, x: &RecordWords) -> bool {
    sees(who, x.state, x.stamp, x.ordinal, x.transaction)
}

fn answers_for(who: Reader, c: usize, x: &RecordWords) -> bool {
    bit(x.mask, c) && (x.kind == 0 || (x.kind == 1 && sees_record(who, x)))
}

fn down_to(who: Reader, page: &PageWords) -> u32 {
    if page.newest <= who.stamp {
        page.lineage
    } else {
        FLOOR
    }
}

impl View {
    fn head_in(&self, row: usize) -> RecordWords {
        self.record_in(self.slot(range_of(row), self.row_in(row).link as usize))
    }

    fn has_record(&self, row: usize) -> bool {
        self.row_in(row).link != 0
    }

    fn visible_in(&self, who: Reader, row: usize) -> bool {
        let (x, y) = (self.row_in(row), self.head_in(row));
        let ended = y.kind > 1 && sees_record(who, &y);
        sees_row(who, &x) && !(self.has_record(row) && ended)
    }

    fn walk(&self, who: Reader, g: usize, c: usize, low: usize, k: usize) -> Found {
        let (mut steps, mut k) = (k, k);
        while steps > 0 && k > low {
            let x = self.record_in(self.slot(g, k));
            if answers_for(who, c, &x) {
                return Found::At(self.slot(g, k));
            }
            k = x.link as usize;
            steps -= 1;
        }
        Found::Nothing
    }

    fn found_in(&self, who: Reader, low: u32, row: usize, c: usize) -> Found {
        let x = self.row_in(row);
        if bit(x.mask, c) {
            self.walk(who, range_of(row), c, low as usize, x.link as usize)
        } else {
            Found::Nothing
        }
    }

    fn word_in(&self, who: Reader, page: usize, row: usize, c: usize) -> u32 {
        match self.found_in(who, down_to(who, &self.page_in(page)), row, c) {
            Found::At(slot) => self.value_in(slot, c),
            Found::Nothing => self.cell_in(page, within(row)),
        }
    }

    fn setter_at(&self, slot: usize) -> Setter {
        match self.record_in(slot).kind {
            0 => Setter::Insert,
            _ => Setter::Update(slot),
        }
    }

    fn setter_in(&self, who: Reader, row: usize, c: usize) -> Setter {
        match self.found_in(who, FLOOR, row, c) {
            Found::At(slot) => self.setter_at(slot),
            Found::Nothing => Setter::Insert,
        }
    }

    fn setter_stamp(&self, row: usize, setter: Setter) -> u32 {
        match setter {
            Setter::Insert => commit_stamp(self.row_in(row).state, self.row_in(row).stamp),
            Setter::Update(slot) => {
                commit_stamp(self.record_in(slot).state, self.record_in(slot).stamp)
            }
        }
    }

    fn lookup_in(&self, who: Reader, page: usize, row: usize, c: usize) -> Version {
        Version { word: self.word_in(who, page, row, c), setter: self.setter_in(who, row, c) }
    }

    fn shown_in(&self, row: usize, version: Version) -> Answer {
        let stamp = self.setter_stamp(row, version.setter);
        Answer::Version { value: version.word as i32, stamp }
    }

    fn read_in(&self, who: Reader, page: usize, row: usize, c: usize) -> Answer {
        if self.visible_in(who, row) {
            self.shown_in(row, self.lookup_in(who, page, row, c))
        } else {
            Answer::None
        }
    }

    fn read_current(&self, who: Reader, row: usize, c: usize) -> Answer {
        self.read_in(who, self.current_in(range_of(row), c), row, c)
    }

    fn keeper_word(&self, who: Reader, row: usize, c: usize) -> u32 {
        match self.found_in(who, FLOOR, row, c) {
            Found::At(slot) => self.record_keeper(slot),
            Found::Nothing => self.row_keeper(row),
        }
    }

    fn keeper_in(&self, who: Reader, row: usize, c: usize) -> Answer {
        if self.visible_in(who, row) {
            Answer::Number(self.keeper_word(who, row, c) % KEEPER_LIMIT)
        } else {
            Answer::None
        }
    }

    fn own_changes(&self, transaction: u32) -> u32 {
        match self.get(Region::Changes, self.open_index(transaction)) {
            0 => 0,
            _ => transaction,
        }
    }

    fn was_current(&self, merges: u32, place: usize, page: usize) -> bool {
        let x = self.page_in(page);
        x.state > 1
            && x.place as usize % self.layout.chunks == place
            && x.made <= merges
            && merges < x.replaced
    }

    fn scan_page(&self, merges: u32, g: usize, c: usize) -> usize {
        let current = self.current_in(g, c);
        let place = self.chunk_of(g, c);
        if self.page_in(current).made <= merges {
            return current;
        }
        let old = (0..self.layout.pages).find(|page| self.was_current(merges, place, *page));
        old.unwrap_or(current)
    }

    fn sum_in(&self, scan: ScanEntry, c: usize) -> Answer {
        let (mut count, mut sum) = (0, 0);
        let who = reader(snapshot_of(scan), 0);
        for row in 0..self.rows_given() as usize {
            if self.visible_in(who, row) {
                let page = self.scan_page(scan.merges, range_of(row), c);
                count += 1;
                sum += i64::from(self.word_in(who, page, row, c) as i32);
            }
        }
        Answer::Sum { count, sum }
    }
}

// Versions

/// A value, with the transaction that set it and the stamp of that one's commit.
#[derive(Clone, Copy)]
struct Dated {
    setter: u32,
    stamp: u32,
    value: i32,
}

fn last_of_each(values: &[Dated]) -> Vec<Dated> {
    let setter = |k: usize| values.get(k).map(|value| value.setter);
    let stays = |k: &usize| setter(*k) != setter(k + 1);
    (0..values.len()).filter(stays).map(|k| values[k]).collect()
}

fn above(mark: i32, v: &Dated) -> bool {
    mark <= v.value
}

fn crossings_from(mark: i32, from: u32, values: &[Dated]) -> Vec<u32> {
    let mut stamps = Vec::new();
    for pair in values.windows(2) {
        let (v, w) = (&pair[0], &pair[1]);
        if above(mark, v) != above(mark, w) && from <= w.stamp {
            stamps.push(w.stamp);
        }
    }
    stamps
}

impl View {
    fn tells(&self, who: Reader, row: usize, c: usize, x: &RecordWords) -> bool {
        x.row as usize == row
            && answers_for(who, c, x)
            && (x.kind != 0 || sees_row(who, &self.row_in(row)))
    }

    fn setter_number(&self, row: usize, setter: Setter) -> u32 {
        match setter {
            Setter::Insert => self.row_in(row).transaction,
            Setter::Update(slot) => self.record_in(slot).transaction,
        }
    }

    fn dated_in(&self, row: usize, c: usize, slot: usize) -> Dated {
        Dated {
            setter: self.setter_number(row, self.setter_at(slot)),
            stamp: self.setter_stamp(row, self.setter_at(slot)),
            value: self.value_in(slot, c) as i32,
        }
    }

    fn values_in(&self, who: Reader, row: usize, c: usize, n: usize) -> Vec<Dated> {
        (1..=n)
            .map(|k| self.slot(range_of(row), k))
            .filter(|slot| self.tells(who, row, c, &self.record_in(*slot)))
            .map(|slot| self.dated_in(row, c, slot))
            .collect()
    }

    fn crossings_in(&self, row: usize, c: usize, mark: i32, from: u32, to: u32) -> Vec<u32> {
        let n = self.used_in(range_of(row)) as usize;
        let values = self.values_in(reader(all_up_to(to), 0), row, c, n);
        crossings_from(mark, from, &last_of_each(&values))
    }
}

// Writing
impl View {
    fn begun(mut self, keeper: u32) -> View {
        let number = self.transactions_given() + 1;
        let place = self.opens().iter().position(|word| *word == 0).unwrap_or(self.opens().len());
        self.put(Region::Opens, place, number);
        self.put(Region::Changes, place, 0);
        self.put(Region::OpenKeeper, place, keeper);
        self.put(Region::Header, 5, number);
        self
    }

    fn noted(mut self, transaction: u32) -> View {
        let place = self.open_index(transaction);
        let noted = self.get(Region::Changes, place).wrapping_add(1);
        self.put(Region::Changes, place, noted);
        self
    }

    fn mark_all(mut self, transaction: u32, rows: Region, tails: Region, word: u32) -> View {
        for row in 0..self.rows_given() as usize {
            if self.get(Region::RowTransaction, row) == transaction {
                self.put(rows, row, word);
            }
        }
        for range in 0..self.layout.ranges {
            for number in 1..=self.used_in(range) as usize {
                let slot = self.slot(range, number);
                if self.get(Region::TailTransaction, slot) == transaction {
                    self.put(tails, slot, word);
                }
            }
        }
        self
    }

    fn settled(self, transaction: u32, state: u32, commit: Commit) -> View {
        self.mark_all(transaction, Region::RowState, Region::TailState, state)
            .mark_all(transaction, Region::RowStamp, Region::TailStamp, commit.stamp)
            .mark_all(transaction, Region::RowOrdinal, Region::TailOrdinal, commit.ordinal)
    }

    fn freed(mut self, transaction: u32) -> View {
        let place = self.open_index(transaction);
        self.put(Region::Opens, place, 0);
        self.put(Region::Changes, place, 0);
        self.put(Region::OpenKeeper, place, 0);
        self
    }

    fn next_in(&self, stamp: u32) -> Commit {
        Commit { stamp, ordinal: self.commits_made().wrapping_add(1) }
    }

    fn committed_in(self, transaction: u32, stamp: u32) -> View {
        let next = self.next_in(stamp);
        let mut after = self.settled(transaction, 1, next).freed(transaction);
        after.put(Region::Header, 7, stamp);
        after.put(Region::Header, 9, next.ordinal);
        after
    }

    fn aborted_in(self, transaction: u32) -> View {
        self.settled(transaction, 2, NO_COMMIT).freed(transaction)
    }

    fn inserted_at(mut self, transaction: u32, values: &[i32], row: usize) -> View {
        let keeper = self.open_keeper(transaction);
        self.put(Region::RowTransaction, row, transaction);
        self.put(Region::RowState, row, 0);
        self.put(Region::RowStamp, row, 0);
        self.put(Region::RowOrdinal, row, 0);
        self.put(Region::RowLink, row, 0);
        self.put(Region::RowMask, row, 0);
        self.put(Region::RowKeeper, row, keeper);
        for c in 0..self.layout.columns {
            let at = self.current_in(range_of(row), c) * RANGE_ROWS + within(row);
            self.put(Region::Cells, at, value_of(values, c));
        }
        self.put(Region::Header, 4, row as u32 + 1);
        self.noted(transaction)
    }

    fn inserted_in(self, transaction: u32, values: &[i32]) -> View {
        let row = self.rows_given() as usize;
        self.inserted_at(transaction, values, row)
    }

    fn appended(mut self, transaction: u32, keeper: u32, row: usize, kind: u32, mask: u32) -> View {
        let range = range_of(row);
        let number = self.used_in(range) + 1;
        let slot = self.slot(range, number as usize);
        let link = self.row_in(row).link;
        self.put(Region::TailTransaction, slot, transaction);
        self.put(Region::TailRow, slot, row as u32);
        self.put(Region::TailKind, slot, kind);
        self.put(Region::TailMask, slot, mask);
        self.put(Region::TailLink, slot, link);
        self.put(Region::TailState, slot, 0);
        self.put(Region::TailStamp, slot, 0);
        self.put(Region::TailOrdinal, slot, 0);
        self.put(Region::TailKeeper, slot, keeper);
        self.put(Region::Used, range, number);
        self.put(Region::RowLink, row, number);
        self
    }

    fn filled_in(mut self, slot: usize, words: &[u32]) -> View {
        for (c, word) in words.iter().enumerate() {
            self.put(Region::TailValues, slot * self.layout.columns + c, *word);
        }
        self
    }

    fn new_bits_in(&self, row: usize, mask: u32) -> u32 {
        let old = self.row_in(row).mask;
        (mask | old) ^ old
    }

    fn records_wanted(&self, row: usize, mask: u32) -> u32 {
        if self.new_bits_in(row, mask) == 0 {
            1
        } else {
            2
        }
    }

    fn next_slot(&self, range: usize) -> usize {
        self.slot(range, self.used_in(range) as usize + 1)
    }

    fn original_appended(self, transaction: u32, row: usize, mask: u32) -> View {
        let range = range_of(row);
        let slot = self.next_slot(range);
        let cell = |c| self.cell_in(self.current_in(range, c), within(row));
        let cells: Vec<u32> = (0..self.layout.columns).map(cell).collect();
        let (new, keeper) = (self.new_bits_in(row, mask), self.row_keeper(row));
        self.appended(transaction, keeper, row, 0, new).filled_in(slot, &cells)
    }

    fn setting_appended(
        self,
        transaction: u32,
        keeper: u32,
        row: usize,
        mask: u32,
        values: &[i32],
    ) -> View {
        let slot = self.next_slot(range_of(row));
        let words: Vec<u32> = (0..self.layout.columns).map(|c| value_of(values, c)).collect();
        self.appended(transaction, keeper, row, 1, mask).filled_in(slot, &words)
    }

    fn updated_in(self, transaction: u32, row: usize, mask: u32, values: &[i32]) -> View {
        let (old, keeper) = (self.row_in(row).mask, self.open_keeper(transaction));
        let before = if self.new_bits_in(row, mask) == 0 {
            self
        } else {
            self.original_appended(transaction, row, mask)
        };
        let mut after = before.setting_appended(transaction, keeper, row, mask, values);
        after.put(Region::RowMask, row, mask | old);
        after.noted(transaction)
    }

    fn deleted_in(self, transaction: u32, row: usize) -> View {
        let keeper = self.open_keeper(transaction);
        self.appended(transaction, keeper, row, 2, 0).noted(transaction)
    }

    fn applies(c: usize, x: &RecordWords) -> bool {
        bit(x.mask, c) && x.kind == 1 && x.state == 1
    }

    fn named_in(&self, page: usize) -> bool {
        let place = self.page_in(page).place as usize;
        place < self.layout.columns * self.layout.ranges
            && self.get(Region::Current, place) as usize == page
    }

    fn stray_in(&self, page: usize) -> bool {
        self.page_in(page).state == 1 && !self.named_in(page)
    }

    fn free_in(&self) -> usize {
        let free = |page: &usize| self.page_in(*page).state == 0;
        let stray = |page: &usize| self.stray_in(*page);
        let mut pages = 0..self.layout.pages;
        pages.clone().find(free).or_else(|| pages.find(stray)).unwrap_or(self.layout.pages)
    }

    fn merged_in(mut self, g: usize, c: usize, through: usize) -> View {
        let before = self.clone();
        let old = before.current_in(g, c);
        let (x, new) = (before.page_in(old), before.free_in());
        let merges = before.merges_made().wrapping_add(1);
        for at in 0..RANGE_ROWS {
            self.put(Region::Cells, new * RANGE_ROWS + at, before.cell_in(old, at));
        }
        let mut newest = x.newest;
        for number in x.lineage as usize + 1..=through {
            let slot = before.slot(g, number);
            let y = before.record_in(slot);
            if View::applies(c, &y) {
                let at = new * RANGE_ROWS + within(y.row as usize);
                self.put(Region::Cells, at, before.value_in(slot, c));
                newest = newest.max(y.stamp);
            }
        }
        let place = before.chunk_of(g, c);
        self.put(Region::PageState, new, 1);
        self.put(Region::PageChunk, new, place as u32);
        self.put(Region::PageMade, new, merges);
        self.put(Region::PageLineage, new, through as u32);
        self.put(Region::PageNewest, new, newest);
        self.put(Region::PageState, old, 2);
        self.put(Region::PageReplaced, old, merges);
        self.put(Region::Current, place, new as u32);
        self.put(Region::Header, 8, merges);
        self
    }

    fn releasable(&self, places: &[ScanEntry], page: usize) -> bool {
        let x = self.page_in(page);
        let needed = places.iter().any(|scan| scan.number != 0 && scan.merges < x.replaced);
        x.state > 1 && !needed
    }

    fn released_in(mut self, places: &[ScanEntry]) -> View {
        let before = self.clone();
        for page in 0..self.layout.pages {
            if before.releasable(places, page) {
                self.put(Region::PageState, page, 0);
            }
        }
        self
    }
}

fn value_of(values: &[i32], column: usize) -> u32 {
    values.get(column).copied().unwrap_or(0) as u32
}

// Calls
fn outnumber(found: &[u32], stamps: &[u32]) -> bool {
    stamps.len() < found.len()
}

impl View {
    fn not_open_in(&self, transaction: u32) -> bool {
        !self.open_in(transaction)
    }

    fn not_given_in(&self, row: u32) -> bool {
        self.rows_given() <= row
    }

    fn no_column(&self, column: u32) -> bool {
        self.layout.columns as u32 <= column
    }

    fn no_range(&self, range: u32) -> bool {
        self.layout.ranges as u32 <= range
    }

    fn bad_mask(&self, mask: u16) -> bool {
        mask == 0 || u32::from(mask) >= 1 << self.layout.columns
    }

    fn open_in(&self, transaction: u32) -> bool {
        self.opens().iter().any(|word| bears(transaction, *word))
    }

    fn any_record(&self, row: u32, test: impl Fn(&RecordWords) -> bool) -> bool {
        let g = range_of(row as usize);
        (1..=self.used_in(g) as usize).any(|k| {
            let x = self.record_in(self.slot(g, k));
            x.row == row && test(&x)
        })
    }

    fn held_in(&self, transaction: u32, row: u32) -> bool {
        let other = |number: u32| self.open_in(number) && number != transaction;
        other(self.row_in(row as usize).transaction)
            || self.any_record(row, |x| other(x.transaction))
    }

    fn gone_in(&self, transaction: u32, row: u32) -> bool {
        let stands = |number: u32, state: u32| number == transaction || state == 1;
        let x = self.row_in(row as usize);
        !stands(x.transaction, x.state)
            || self.any_record(row, |y| y.kind > 1 && stands(y.transaction, y.state))
    }

    fn lacks_in(&self, row: u32, wanted: u32) -> bool {
        (self.layout.capacity as u32) < self.used_in(range_of(row as usize)) + wanted
    }

    fn earlier_in(&self, stamp: u32) -> bool {
        stamp < self.last_stamp()
    }

    fn later_in(&self, stamp: u32) -> bool {
        self.last_stamp() < stamp
    }

    fn no_span_in(&self, from: u32, to: u32) -> bool {
        to < from || self.later_in(to)
    }

    fn lineage_in(&self, g: usize, c: usize) -> u32 {
        self.page_in(self.current_in(g, c)).lineage
    }

    fn open_among_in(&self, g: usize, through: u32) -> bool {
        (1..=through as usize).any(|k| self.open_in(self.record_in(self.slot(g, k)).transaction))
    }

    /// The refusals in the stated order, each with whether it applies. A test is only looked at
    /// where those before it pass, as it may stand on them.
    fn tests_in(&self, places: &[ScanEntry], stamps: &[u32], call: &Call) -> Vec<(u8, bool)> {
        let no_scan = |number| !places.iter().any(|scan| bears(number, scan.number));
        let mut tests: Vec<(u8, bool)> = Vec::new();
        let mut test = |number: u8, applies: &dyn Fn() -> bool| {
            let refused = tests.iter().any(|test| test.1);
            tests.push((number, !refused && applies()));
        };
        match *call {
            Call::Begin | Call::BeginAs { .. } => {
                test(15, &|| MOST_NUMBERS <= self.transactions_given());
                test(14, &|| !self.opens().contains(&0));
            }
            Call::Insert { transaction, .. } => {
                test(3, &|| self.not_open_in(transaction));
                test(11, &|| self.layout.rows as u32 <= self.rows_given());
            }
            Call::Update { transaction, row, mask, .. } => {
                test(3, &|| self.not_open_in(transaction));
                test(5, &|| self.not_given_in(row));
                test(8, &|| self.bad_mask(mask));
                test(9, &|| self.held_in(transaction, row));
                test(10, &|| self.gone_in(transaction, row));
                let wanted = || self.records_wanted(row as usize, u32::from(mask));
                test(12, &|| self.lacks_in(row, wanted()));
            }
            Call::Delete { transaction, row } => {
                test(3, &|| self.not_open_in(transaction));
                test(5, &|| self.not_given_in(row));
                test(9, &|| self.held_in(transaction, row));
                test(10, &|| self.gone_in(transaction, row));
                test(12, &|| self.lacks_in(row, 1));
            }
            Call::Commit { transaction, stamp } => {
                test(3, &|| self.not_open_in(transaction));
                test(13, &|| self.earlier_in(stamp));
            }
            Call::Abort { transaction } => test(3, &|| self.not_open_in(transaction)),
            Call::Latest { row, column } => {
                test(5, &|| self.not_given_in(row));
                test(6, &|| self.no_column(column));
            }
            Call::ReadAt { stamp, row, column } | Call::KeeperAt { stamp, row, column } => {
                test(13, &|| self.later_in(stamp));
                test(5, &|| self.not_given_in(row));
                test(6, &|| self.no_column(column));
            }
            Call::OwnRead { transaction, row, column } => {
                test(3, &|| self.not_open_in(transaction));
                test(5, &|| self.not_given_in(row));
                test(6, &|| self.no_column(column));
            }
            Call::OpenScan { stamp } => {
                test(13, &|| self.later_in(stamp));
                test(15, &|| MOST_NUMBERS <= self.scans_given());
                let open = || places.iter().filter(|scan| scan.number != 0).count();
                test(14, &|| SCANS <= open());
            }
            Call::ScanRead { scan, row, column } => {
                test(4, &|| no_scan(scan));
                test(5, &|| self.not_given_in(row));
                test(6, &|| self.no_column(column));
            }
            Call::Sum { scan, column } => {
                test(4, &|| no_scan(scan));
                test(6, &|| self.no_column(column));
            }
            Call::Close { scan } => test(4, &|| no_scan(scan)),
            Call::Merge { range, column, through } => {
                let (g, c) = (range as usize, column as usize);
                test(7, &|| self.no_range(range));
                test(6, &|| self.no_column(column));
                test(16, &|| through <= self.lineage_in(g, c) || self.used_in(g) < through);
                test(17, &|| self.open_among_in(g, through));
                test(18, &|| self.layout.pages <= self.free_in());
            }
            Call::Release => {}
            Call::PageCell { column, row } => {
                test(6, &|| self.no_column(column));
                test(5, &|| self.not_given_in(row));
            }
            Call::Lineage { range, column } => {
                test(7, &|| self.no_range(range));
                test(6, &|| self.no_column(column));
            }
            Call::Crossings { row, column, mark, from, to, .. } => {
                test(5, &|| self.not_given_in(row));
                test(6, &|| self.no_column(column));
                test(13, &|| self.no_span_in(from, to));
                let found = || self.crossings_in(row as usize, column as usize, mark, from, to);
                test(21, &|| outnumber(&found(), stamps));
            }
            // Without a byte of a second memory.
            Call::Upgrade | Call::Downgrade => test(2, &|| true),
        }
        tests
    }

    fn reply_in(&self, places: &[ScanEntry], call: &Call) -> Answer {
        let used = |row: u32| self.used_in(range_of(row as usize));
        match *call {
            Call::Begin | Call::BeginAs { .. } => Answer::Number(self.transactions_given() + 1),
            Call::Insert { .. } => Answer::Number(self.rows_given()),
            Call::Update { row, mask, .. } => {
                Answer::Number(used(row) + self.records_wanted(row as usize, u32::from(mask)))
            }
            Call::Delete { row, .. } => Answer::Number(used(row) + 1),
            Call::Commit { .. } | Call::Abort { .. } | Call::Close { .. } | Call::Merge { .. } => {
                Answer::Done
            }
            Call::Upgrade | Call::Downgrade => Answer::Done,
            Call::Latest { row, column } => self.read_current(
                reader(all_up_to(self.last_stamp()), 0),
                row as usize,
                column as usize,
            ),
            Call::ReadAt { stamp, row, column } => {
                let who = reader(all_up_to(stamp), 0);
                self.read_current(who, row as usize, column as usize)
            }
            Call::OwnRead { transaction, row, column } => {
                let who = reader(all_up_to(self.last_stamp()), self.own_changes(transaction));
                self.read_current(who, row as usize, column as usize)
            }
            Call::OpenScan { .. } => Answer::Number(self.scans_given() + 1),
            Call::ScanRead { scan, row, column } => {
                let (scan, row, c) = (scan_entry(places, scan), row as usize, column as usize);
                let page = self.scan_page(scan.merges, range_of(row), c);
                self.read_in(reader(snapshot_of(scan), 0), page, row, c)
            }
            Call::Sum { scan, column } => self.sum_in(scan_entry(places, scan), column as usize),
            Call::Release => {
                let freed = |page: &usize| self.releasable(places, *page);
                Answer::Number((0..self.layout.pages).filter(freed).count() as u32)
            }
            Call::PageCell { column, row } => {
                let page = self.current_in(range_of(row as usize), column as usize);
                Answer::Value(self.cell_in(page, within(row as usize)) as i32)
            }
            Call::Lineage { range, column } => Answer::Lineage {
                through: self.lineage_in(range as usize, column as usize),
                used: self.used_in(range as usize),
            },
            Call::Crossings { row, column, mark, from, to, .. } => {
                let found = self.crossings_in(row as usize, column as usize, mark, from, to);
                Answer::Number(found.len() as u32)
            }
            Call::KeeperAt { stamp, row, column } => {
                self.keeper_in(reader(all_up_to(stamp), 0), row as usize, column as usize)
            }
        }
    }

    /// The lent stamps as an accepted call leaves them.
    fn stamps_in(&self, stamps: &[u32], call: &Call) -> Vec<u32> {
        match *call {
            Call::Crossings { row, column, mark, from, to, .. } => {
                let found = self.crossings_in(row as usize, column as usize, mark, from, to);
                [&found, &stamps[found.len()..]].concat()
            }
            _ => stamps.to_vec(),
        }
    }

    fn act_in(self, places: &[ScanEntry], call: &Call) -> View {
        match *call {
            Call::Begin => self.begun(UNKNOWN_KEEPER),
            Call::BeginAs { keeper } => self.begun(u32::from(keeper)),
            Call::Insert { transaction, ref values } => self.inserted_in(transaction, values),
            Call::Update { transaction, row, mask, ref values } => {
                self.updated_in(transaction, row as usize, u32::from(mask), values)
            }
            Call::Delete { transaction, row } => self.deleted_in(transaction, row as usize),
            Call::Commit { transaction, stamp } => self.committed_in(transaction, stamp),
            Call::Abort { transaction } => self.aborted_in(transaction),
            Call::OpenScan { .. } => {
                let mut after = self;
                let number = after.scans_given() + 1;
                after.put(Region::Header, 6, number);
                after
            }
            Call::Merge { range, column, through } => {
                self.merged_in(range as usize, column as usize, through as usize)
            }
            Call::Release => self.released_in(places),
            Call::Latest { .. }
            | Call::ReadAt { .. }
            | Call::OwnRead { .. }
            | Call::ScanRead { .. }
            | Call::Sum { .. }
            | Call::Close { .. }
            | Call::PageCell { .. }
            | Call::Lineage { .. }
            | Call::Crossings { .. }
            | Call::KeeperAt { .. }
            | Call::Upgrade
            | Call::Downgrade => self,
        }
    }

    fn new_entry(&self, stamp: u32) -> ScanEntry {
        ScanEntry {
            number: self.scans_given() + 1,
            stamp,
            merges: self.merges_made(),
            commits: self.commits_made(),
        }
    }

    fn entries_after(&self, places: &[ScanEntry], call: &Call) -> Vec<ScanEntry> {
        let mut after = places.to_vec();
        let (found, new) = match *call {
            Call::OpenScan { stamp } => {
                (places.iter().position(|scan| scan.number == 0), self.new_entry(stamp))
            }
            Call::Close { scan: number } => {
                (places.iter().position(|scan| bears(number, scan.number)), FREE_ENTRY)
            }
            _ => return after,
        };
        if let Some(at) = found {
            after[at] = new;
        }
        after
    }
}
