//! Random lists of calls on a store in either form, with moves from one to the other, each answer compared
//! with the plain history's, and the lent bytes looked at after every call.

use reference::history::InKeepers;
use reference::random::Random;
use reference::{generate, trace, Answer, Call, Form, History, Shape};

use crate::footprint::Footprint;
use crate::lent::{self, second_for, stamps_for, Lent};
use crate::memory::{form_number, form_of, header, word, Layout, ScanEntry, SCANS};
use crate::store::{told, writes, writes_list, Store};
use crate::{facts, first, moves};

/// What the lists of a run came to.
#[derive(Clone, Copy, Debug, Default, PartialEq, Eq)]
pub struct Tally {
    pub lists: u64,
    pub calls: u64,
    pub accepted: u64,
    pub largest: u64,
    /// Accepted commits; those at the last commit's stamp, the first at 0 included; and of these those
    /// that a scan is open at the same stamp to tell apart.
    pub commits: u64,
    pub repeated: u64,
    pub under_scans: u64,
    /// Lists of crossings that were not empty; those of them that filled their slice; and how many were
    /// refused, as they outnumbered it.
    pub crossings: u64,
    pub filled: u64,
    pub outnumbered: u64,
    pub keepers: Keepers,
    pub moves: Moves,
}

/// Lists that start in form 1, and calls on a memory in form 1, moves included; moves up, moves back, and
/// of both those that come with no call between after another one; and ways back that are refused with 22.
#[derive(Clone, Copy, Debug, Default, PartialEq, Eq)]
pub struct Moves {
    pub lists_from_form_1: u64,
    pub calls_on_form_1: u64,
    pub up: u64,
    pub back: u64,
    pub there_and_back: u64,
    pub refused: u64,
}

impl Moves {
    fn add(&mut self, other: Moves) {
        self.lists_from_form_1 += other.lists_from_form_1;
        self.calls_on_form_1 += other.calls_on_form_1;
        self.up += other.up;
        self.back += other.back;
        self.there_and_back += other.there_and_back;
        self.refused += other.refused;
    }

    /// Counts a call on a memory by what the plain history answers.
    fn count(&mut self, watched: &Watched, call: &Call, answer: &Answer) {
        let on_form_1 = form_of(watched.memory.get()) == Some(Form::First);
        self.calls_on_form_1 += u64::from(on_form_1);
        match (call, answer) {
            (Call::Upgrade, Answer::Done) => self.up += 1,
            (Call::Downgrade, Answer::Done) => self.back += 1,
            (Call::Downgrade, Answer::Refused(22)) => self.refused += 1,
            _ => return,
        }
        let again = watched.moved_from.is_some() && !answer.is_refused();
        self.there_and_back += u64::from(again);
    }
}

/// Accepted calls for a keeper: those that gave one, those that gave none, and of the first those at which
/// a wrong reading of Item 6 gives another keeper, by any reading and by each of these.
#[derive(Clone, Copy, Debug, Default, PartialEq, Eq)]
pub struct Keepers {
    pub given: u64,
    pub none: u64,
    pub telling: u64,
    /// The row's inserter has another keeper.
    pub not_the_inserters: u64,
    /// The row's last setting that is seen, one of another column, has.
    pub not_another_columns: u64,
    /// The value is the inserted one, and the update that wrote it down has.
    pub not_the_updaters: u64,
    /// A later setting of the column has, by a transaction that is aborted, or open, or committed.
    pub not_an_aborted: u64,
    pub not_a_pending: u64,
    pub not_the_latest: u64,
    /// The page holds the setting, and the row's inserter has.
    pub merged: u64,
}

impl Keepers {
    /// Those of one call in these situations.
    fn of(met: &[InKeepers]) -> Keepers {
        let has = |situation| u64::from(met.contains(&situation));
        let none = has(InKeepers::Nothing);
        let mut keepers = Keepers {
            given: u64::from(!met.is_empty()) - none,
            none,
            telling: 0,
            not_the_inserters: has(InKeepers::Inserter),
            not_another_columns: has(InKeepers::OtherColumn),
            not_the_updaters: has(InKeepers::Original),
            not_an_aborted: has(InKeepers::Aborted),
            not_a_pending: has(InKeepers::Pending),
            not_the_latest: has(InKeepers::Latest),
            merged: has(InKeepers::Merged),
        };
        keepers.telling = u64::from(keepers.readings().iter().any(|count| *count > 0));
        keepers
    }

    /// The counts for each wrong reading.
    pub fn readings(&self) -> [u64; 7] {
        [
            self.not_the_inserters,
            self.not_another_columns,
            self.not_the_updaters,
            self.not_an_aborted,
            self.not_a_pending,
            self.not_the_latest,
            self.merged,
        ]
    }

    fn add(&mut self, other: Keepers) {
        self.given += other.given;
        self.none += other.none;
        self.telling += other.telling;
        self.not_the_inserters += other.not_the_inserters;
        self.not_another_columns += other.not_another_columns;
        self.not_the_updaters += other.not_the_updaters;
        self.not_an_aborted += other.not_an_aborted;
        self.not_a_pending += other.not_a_pending;
        self.not_the_latest += other.not_the_latest;
        self.merged += other.merged;
    }
}

impl Tally {
    fn add(&mut self, other: Tally) {
        self.lists += other.lists;
        self.calls += other.calls;
        self.accepted += other.accepted;
        self.largest += other.largest;
        self.commits += other.commits;
        self.repeated += other.repeated;
        self.under_scans += other.under_scans;
        self.crossings += other.crossings;
        self.filled += other.filled;
        self.outnumbered += other.outnumbered;
        self.keepers.add(other.keepers);
        self.moves.add(other.moves);
    }

    /// Counts a call for crossings by what the plain history answers.
    fn count_crossings(&mut self, call: &Call, answer: &Answer) {
        match (call, answer) {
            (Call::Crossings { places, .. }, Answer::Crossings(stamps)) if !stamps.is_empty() => {
                self.crossings += 1;
                self.filled += u64::from(stamps.len() == *places as usize);
            }
            (_, Answer::Refused(21)) => self.outnumbered += 1,
            _ => {}
        }
    }

    /// Counts an accepted call on these bytes, as they were before it.
    fn count(&mut self, memory: &[u8], list: &[ScanEntry], call: &Call) {
        self.accepted += 1;
        if let Call::Commit { stamp, .. } = *call {
            let repeated = stamp == word(memory, header::LAST_STAMP);
            let under_scan = list.iter().any(|scan| scan.is_open() && scan.stamp == stamp);
            self.commits += 1;
            self.repeated += u64::from(repeated);
            self.under_scans += u64::from(repeated && under_scan);
        }
    }
}

pub const LARGEST: Shape = Shape { columns: 16, ranges: 16, capacity: 512, spares: 256 };

/// Calls on a store of a shape, which is in a form at the first of them.
#[derive(Clone, Debug)]
pub struct List {
    pub shape: Shape,
    pub form: Form,
    pub calls: Vec<Call>,
}

/// The list of a seed. Every 512th list is a long one on the largest shape, every 61st
/// one, of each workload in turn, has 700 calls; the greater numbers of calls fill rows and tails, and a
/// few lists are long enough to fill those of the largest shape.
pub fn list(seed: u64) -> List {
    let mut random = Random::new(seed ^ 0x6167_7265_6500_0000);
    let shape = if seed % 512 == 511 { LARGEST } else { generate::shape(seed) };
    let count = match seed % 32_768 {
        32_767 => 16_000,
        place if place % 512 == 511 => 1500,
        place if place % 61 == 0 => 700,
        _ => 40 + random.below(160) as usize,
    };
    let calls = if random.percent(50) {
        generate::wide_calls(seed, shape, count)
    } else {
        generate::calls(seed, shape, count)
    };
    List { shape, form: generate::form(seed), calls }
}

/// Runs the lists of so many seeds; an error is the first difference.
pub fn run(store: &dyn Store, first: u64, count: u64) -> Result<Tally, String> {
    let mut tally = Tally::default();
    for seed in first..first.saturating_add(count) {
        let list = list(seed);
        let named = |difference| format!("seed {seed}, {:?}: {difference}", list.shape);
        tally.add(compare(store, seed, &list).map_err(named)?);
    }
    Ok(tally)
}

/// A store's lent bytes, and the stamps or the second memory lent to the last call, with those before the
/// call, to see what a call changed.
pub struct Watched {
    pub memory: Lent<u8>,
    pub scans: Lent<ScanEntry>,
    pub stamps: Lent<u32>,
    pub second: Lent<u8>,
    memory_before: Vec<u8>,
    scans_before: Vec<ScanEntry>,
    stamps_before: Vec<u32>,
    second_before: Vec<u8>,
    /// The memory that the store was moved from, as long as no call has changed anything since.
    moved_from: Option<Vec<u8>>,
}

impl Watched {
    pub fn new(memory: Lent<u8>, scans: Lent<ScanEntry>) -> Watched {
        let memory_before = memory.get().to_vec();
        let scans_before = scans.get().to_vec();
        Watched {
            memory,
            scans,
            stamps: Lent::none(),
            second: Lent::none(),
            memory_before,
            scans_before,
            stamps_before: Vec::new(),
            second_before: Vec::new(),
            moved_from: None,
        }
    }

    /// Makes a call, with stamps, or a second memory that is long enough, of random content.
    pub fn call(&mut self, store: &dyn Store, call: &Call, random: &mut Random) -> Answer {
        let second = second_for(call, self.memory.get(), random);
        self.call_with(store, call, second, random)
    }

    /// The same with this second memory.
    pub fn call_with(
        &mut self,
        store: &dyn Store,
        call: &Call,
        second: Lent<u8>,
        random: &mut Random,
    ) -> Answer {
        self.stamps = stamps_for(call, random);
        self.stamps_before = self.stamps.get().to_vec();
        self.second = second;
        self.second_before = self.second.get().to_vec();
        let (memory, scans) = (self.memory.get_mut(), self.scans.get_mut());
        match call.moves_to() {
            Some(_) => store.move_with(memory, scans, self.second.get_mut(), call),
            None => store.call_with(memory, scans, self.stamps.get_mut(), call),
        }
    }

    /// Makes a call, and goes on in the second memory after an accepted move.
    pub fn follow(&mut self, store: &dyn Store, call: &Call, random: &mut Random) {
        let answer = self.call(store, call, random);
        if call.moves_to().is_some() && !answer.is_refused() {
            self.memory = std::mem::replace(&mut self.second, Lent::none());
            self.restart();
        }
    }

    /// From now on these are the bytes, of whatever length.
    fn restart(&mut self) {
        self.memory_before = self.memory.get().to_vec();
        self.scans_before = self.scans.get().to_vec();
        (self.second, self.second_before) = (Lent::none(), Vec::new());
        self.moved_from = None;
    }

    /// The bytes before the last call, to which `restore` goes back.
    pub fn restore(&mut self) {
        self.memory.get_mut().copy_from_slice(&self.memory_before);
        self.scans.get_mut().copy_from_slice(&self.scans_before);
        self.stamps.get_mut().copy_from_slice(&self.stamps_before);
        self.second.get_mut().copy_from_slice(&self.second_before);
    }

    /// From now on changes are looked for against these bytes.
    pub fn keep(&mut self) {
        self.memory_before.copy_from_slice(self.memory.get());
        self.scans_before.copy_from_slice(self.scans.get());
        self.stamps_before.copy_from_slice(self.stamps.get());
        self.second_before.copy_from_slice(self.second.get());
        self.moved_from = None;
    }

    /// No byte may have changed, of the second memory neither, and no stamp.
    pub fn unchanged(&self) -> Result<(), String> {
        self.guards()?;
        if self.memory.get() != self.memory_before || self.scans.get() != self.scans_before {
            return Err("it changed a byte".to_string());
        }
        if self.second.get() != self.second_before {
            return Err("it changed a byte of the second memory".to_string());
        }
        self.listed(&[])
    }

    /// The lent stamps must begin with these, and their rest be unchanged.
    pub fn listed(&self, list: &[u32]) -> Result<(), String> {
        lent::listed(list, &self.stamps_before, self.stamps.get())
    }

    /// What an accepted making may have changed: bytes below the need, and all places, which are
    /// free. Then the facts hold.
    pub fn made(&self, need: usize) -> Result<(), String> {
        self.guards()?;
        if self.memory.get()[need..] != self.memory_before[need..] {
            return Err("making changed a byte past the need".to_string());
        }
        if self.scans.get().iter().any(ScanEntry::is_open) {
            return Err("making left a place that is not free".to_string());
        }
        match facts::failing(self.memory.get(), self.scans.get()) {
            Some(fact) => Err(format!("after making the fact '{fact}' fails")),
            None => Ok(()),
        }
    }

    fn guards(&self) -> Result<(), String> {
        let lists = self.scans.guarded_well() && self.stamps.guarded_well();
        if self.memory.guarded_well() && self.second.guarded_well() && lists {
            return Ok(());
        }
        Err("a byte beside the lent bytes changed".to_string())
    }

    /// What an accepted call changed lies in its footprint, and a move left in the second memory what it
    /// is to leave there.
    pub fn changed_by(&self, call: &Call) -> Result<(), String> {
        self.guards()?;
        let footprint = Footprint::of(&self.memory_before, &self.scans_before, call)?;
        footprint.judge_memory(&self.memory_before, self.memory.get())?;
        footprint.judge_list(&self.scans_before, self.scans.get())?;
        match call.moves_to() {
            Some(form) => {
                moves::judge(&self.memory_before, &self.second_before, self.second.get(), form)
            }
            None => Ok(()),
        }
    }

    /// The memory that an accepted move led to is the store from now on. If nothing has changed since the
    /// move before it, this one went back, to the bytes that were moved first.
    fn moved(&mut self) -> Result<(), String> {
        let second = std::mem::replace(&mut self.second, Lent::none());
        if let Some(first) = &self.moved_from {
            moves::needed_alike(first, second.get())?;
        }
        let from = std::mem::replace(&mut self.memory, second);
        self.restart();
        self.moved_from = Some(from.get().to_vec());
        Ok(())
    }
}

/// One list; answers what it came to, or the difference.
pub fn compare(store: &dyn Store, seed: u64, list: &List) -> Result<Tally, String> {
    let List { shape, form, calls } = list;
    let mut random = Random::new(seed ^ 0x6C65_6E74_0000_0000);
    let mut watched = made_in(store, shape, *form, &mut random)?;
    let mut history = History::new(*shape);
    let mut tally = Tally { lists: 1, calls: calls.len() as u64, ..Tally::default() };
    tally.largest = u64::from(*shape == LARGEST);
    tally.moves.lists_from_form_1 = u64::from(*form == Form::First);
    for (place, call) in calls.iter().enumerate() {
        tally.keepers.add(Keepers::of(&history.in_keepers(call)));
        let expected = history.call(call);
        if !expected.is_refused() {
            tally.count(watched.memory.get(), watched.scans.get(), call);
        }
        tally.count_crossings(call, &expected);
        tally.moves.count(&watched, call, &expected);
        let found = watched.call(store, call, &mut random);
        let checked = after_call(&mut watched, call, expected, &found);
        checked
            .and_then(|()| says_form(store, &watched))
            .map_err(|error| format!("call {place}, {}: {error}", trace::call_words(call)))?;
    }
    Ok(tally)
}

/// The check of a good store answers the form that it is in.
fn says_form(store: &dyn Store, watched: &Watched) -> Result<(), String> {
    let memory = watched.memory.get();
    let form = form_of(memory).map(|form| Answer::Number(form_number(form)));
    let check = store.check(memory, watched.scans.get());
    if form.as_ref() == Some(&check) {
        return Ok(());
    }
    Err(format!("then the check answers {}", trace::answer_words(&check)))
}

fn after_call(
    watched: &mut Watched,
    call: &Call,
    expected: Answer,
    found: &Answer,
) -> Result<(), String> {
    let (expected, stamps) = told(expected);
    if *found != expected {
        let (found, expected) = (trace::answer_words(found), trace::answer_words(&expected));
        return Err(format!("answer {found}, the history says {expected}"));
    }
    watched.listed(&stamps)?;
    if found.is_refused() {
        return watched.unchanged();
    }
    watched.changed_by(call)?;
    let moved = call.moves_to().is_some();
    if moved {
        watched.moved()?;
    }
    if moved || writes(call) || writes_list(call) {
        if let Some(fact) = facts::failing(watched.memory.get(), watched.scans.get()) {
            return Err(format!("the fact '{fact}' fails"));
        }
    }
    if writes(call) || writes_list(call) {
        watched.keep();
    }
    Ok(())
}

/// A store of a shape in a form: the newest as `made` has it, the first as its making left it.
pub fn made_in(
    store: &dyn Store,
    shape: &Shape,
    form: Form,
    random: &mut Random,
) -> Result<Watched, String> {
    let mut watched = made(store, shape, random)?;
    if form == Form::First {
        let need = Layout::in_form(shape, form).need();
        watched.memory = Lent::dirty(need + random.below(64) as usize, random);
        watched.scans = Lent::dirty(SCANS + random.below(6) as usize, random);
        first::make(watched.memory.get_mut(), watched.scans.get_mut(), shape);
        watched.restart();
    }
    Ok(watched)
}

/// A store made in dirty memory, with the refusals of making tried on the same bytes before.
pub fn made(store: &dyn Store, shape: &Shape, random: &mut Random) -> Result<Watched, String> {
    let need = store.need(shape).map_err(|number| format!("the need is refused with {number}"))?;
    within_bound(shape, need)?;
    let memory = Lent::dirty(need + random.below(64) as usize, random);
    let scans = Lent::dirty(SCANS + random.below(6) as usize, random);
    let mut watched = Watched::new(memory, scans);
    refused_makings(store, shape, need, &mut watched)?;

    let answer = store.make(watched.memory.get_mut(), watched.scans.get_mut(), shape);
    if answer != Answer::Done {
        return Err(format!("making answers {}", trace::answer_words(&answer)));
    }
    watched.made(need)?;
    watched.keep();
    Ok(watched)
}

/// "they are at most 4,096, and 320 for each page, 64 for each row, 64 + 4 x columns for each tail
/// record", and the layout says how many they are.
fn within_bound(shape: &Shape, need: usize) -> Result<(), String> {
    let layout = Layout::of(shape);
    let records = (64 + 4 * layout.columns) * layout.slots;
    let bound = 4096 + 320 * layout.pages + 64 * layout.rows + records;
    if need > bound || need != layout.need() {
        return Err(format!(
            "the need is {need}, the bound {bound}, the layout's {}",
            layout.need()
        ));
    }
    Ok(())
}

/// Making tests 1, then both lengths; refused, it changes nothing.
fn refused_makings(
    store: &dyn Store,
    shape: &Shape,
    need: usize,
    watched: &mut Watched,
) -> Result<(), String> {
    let mut outside = [*shape; 7];
    outside[0].columns = 0;
    outside[1].columns = 17;
    outside[2].ranges = 0;
    outside[3].ranges = 17;
    outside[4].capacity = 0;
    outside[5].capacity = 513;
    outside[6].spares = 257;
    for shape in &outside {
        if store.need(shape) != Err(1) {
            return Err(format!("the need of {shape:?} is not refused with 1"));
        }
        // Too short as well: 1 comes first.
        let memory = &mut watched.memory.get_mut()[..need - 1];
        if store.make(memory, &mut [], shape) != Answer::Refused(1) {
            return Err(format!("making {shape:?} is not refused with 1"));
        }
    }
    for (bytes, places) in [(need - 1, SCANS), (need, SCANS - 1), (0, SCANS), (need, 0)] {
        let memory = &mut watched.memory.get_mut()[..bytes];
        let list = &mut watched.scans.get_mut()[..places];
        if store.make(memory, list, shape) != Answer::Refused(2) {
            return Err("making in too few bytes is not refused with 2".to_string());
        }
    }
    watched.unchanged().map_err(|error| format!("a refused making: {error}"))
}
