//! What must hold of every call on bytes that no call made: 2 exactly where a stored fact fails, the call
//! does not work on the form or a move's second memory is too short, any other refusal exactly where the
//! papers' words give it, the crossings and keepers that the words give, what a move is to leave, no byte
//! changed by a refused call, and an answer always.

use reference::random::Random;
use reference::{generate, trace, Answer, Call, Form, Shape};

use crate::agree::{made_in, Watched};
use crate::facts::{self, Stored};
use crate::lent::any_second_for;
use crate::memory::{form_number, header, list_word, word};
use crate::memory::{Layout, ScanEntry, SCANS, SCAN_WORDS, WORD};
use crate::operands::every_call_for;
use crate::shortcuts::{self, Differing, Differs};
use crate::stated;
use crate::store::Store;
use crate::unmade::{any_lent, disturbed, small_shape};

/// The shape whose every byte is damaged in turn.
pub const SMALL: Shape = Shape { columns: 2, ranges: 2, capacity: 4, spares: 2 };

/// Random memories, and disturbed ones, for each seed.
const MEMORIES: u64 = 4000;
/// How often a store is disturbed, each time further.
const TIMES: u64 = 10;

/// What a run came to.
#[derive(Clone, Copy, Debug, Default, PartialEq, Eq)]
pub struct Tally {
    pub memories: u64,
    pub failing: u64,
    pub calls: u64,
    pub accepted: u64,
    /// Lists of crossings that were not empty.
    pub crossings: u64,
    /// Keepers that were given.
    pub keepers: u64,
    pub moves: Moves,
    pub differing: Differing,
}

/// Usable memories in form 1; accepted moves up and back; of a usable memory in the form that a move works on
/// those refused with 2, for the second memory's length, and ways back refused with 22.
#[derive(Clone, Copy, Debug, Default, PartialEq, Eq)]
pub struct Moves {
    pub on_form_1: u64,
    pub up: u64,
    pub back: u64,
    pub too_short: u64,
    pub refused: u64,
}

impl Moves {
    fn add(&mut self, other: Moves) {
        self.on_form_1 += other.on_form_1;
        self.up += other.up;
        self.back += other.back;
        self.too_short += other.too_short;
        self.refused += other.refused;
    }

    fn count(&mut self, call: &Call, answer: &Answer, works: bool) {
        match (call, answer) {
            (Call::Upgrade, Answer::Done) => self.up += 1,
            (Call::Downgrade, Answer::Done) => self.back += 1,
            (Call::Upgrade | Call::Downgrade, Answer::Refused(2)) if works => self.too_short += 1,
            (Call::Downgrade, Answer::Refused(22)) => self.refused += 1,
            _ => {}
        }
    }
}

impl Tally {
    fn add(&mut self, other: Tally) {
        self.memories += other.memories;
        self.failing += other.failing;
        self.calls += other.calls;
        self.accepted += other.accepted;
        self.crossings += other.crossings;
        self.keepers += other.keepers;
        self.moves.add(other.moves);
        self.differing.add(other.differing);
    }
}

/// For each of so many seeds every byte of a good store, random memories, and stores with words
/// changed that the facts leave free.
pub fn run(store: &dyn Store, first: u64, count: u64) -> Result<Tally, String> {
    let mut tally = Tally::default();
    for seed in first..first.saturating_add(count) {
        let named = |difference| format!("seed {seed}: {difference}");
        tally.add(every_byte(store, seed).map_err(named)?);
        tally.add(random_memories(store, seed, MEMORIES).map_err(named)?);
        tally.add(disturbed_stores(store, seed, MEMORIES).map_err(named)?);
    }
    Ok(tally)
}

/// A good store of a random history, every byte of memory and list changed to three other values.
pub fn every_byte(store: &dyn Store, seed: u64) -> Result<Tally, String> {
    let mut random = Random::new(seed ^ 0x6279_7465_0000_0000);
    let mut watched = good(store, seed, &mut random)?;
    let mut tally = Tally::default();
    let bytes = watched.memory.get().len();
    let list_bytes = watched.scans.get().len() * SCAN_WORDS * WORD;
    for at in 0..bytes + list_bytes {
        let spread = 1 << random.between(1, 6);
        for bits in [0x01, 0x80, spread] {
            let byte = |watched: &mut Watched| match at.checked_sub(bytes) {
                None => watched.memory.get_mut()[at] ^= bits,
                Some(at) => flip(watched.scans.get_mut(), at, bits),
            };
            byte(&mut watched);
            watched.keep();
            let counted = every_call(store, &mut watched, &mut random);
            tally.add(counted.map_err(|error| format!("byte {at} ^ {bits:02X}: {error}"))?);
            byte(&mut watched);
            watched.keep();
        }
    }
    Ok(tally)
}

/// Changes bits of a byte of a scan list.
pub fn flip(list: &mut [ScanEntry], at: usize, bits: u8) {
    *list_word(list, at / WORD) ^= u32::from(bits) << (8 * (at % WORD));
}

/// A store of the small shape after a random list of calls.
pub fn good(store: &dyn Store, seed: u64, random: &mut Random) -> Result<Watched, String> {
    let count = 100 + random.below(200) as usize;
    grown(store, seed, &SMALL, count, random)
}

/// A store of a shape after so many random calls, in whatever form these leave it.
fn grown(
    store: &dyn Store,
    seed: u64,
    shape: &Shape,
    count: usize,
    random: &mut Random,
) -> Result<Watched, String> {
    let mut watched = made_in(store, shape, generate::form(seed), random)?;
    for call in generate::calls(seed, *shape, count) {
        watched.follow(store, &call, random);
    }
    watched.keep();
    Ok(watched)
}

/// Random memories of every kind with random lists of every kind.
pub fn random_memories(store: &dyn Store, seed: u64, count: u64) -> Result<Tally, String> {
    let mut random = Random::new(seed ^ 0x616E_7900_0000_0000);
    let mut tally = Tally::default();
    for _ in 0..count {
        let (memory, scans) = any_lent(&mut random);
        let mut watched = Watched::new(memory, scans);
        tally.add(every_call(store, &mut watched, &mut random)?);
    }
    Ok(tally)
}

/// Stores after random calls, with words changed that the facts leave free.
pub fn disturbed_stores(store: &dyn Store, seed: u64, count: u64) -> Result<Tally, String> {
    let mut random = Random::new(seed ^ 0x6672_6565_0000_0000);
    let mut tally = Tally::default();
    for place in 0..count / TIMES {
        let (shape, calls) = (small_shape(&mut random), random.between(20, 200) as usize);
        let mut watched = grown(store, random.word(), &shape, calls, &mut random)?;
        for _ in 0..TIMES {
            if !disturbed(watched.memory.get_mut(), &mut random) {
                continue;
            }
            watched.keep();
            let counted = every_call(store, &mut watched, &mut random);
            tally.add(counted.map_err(|error| format!("disturbed store {place}: {error}"))?);
        }
    }
    Ok(tally)
}

/// The refusal that is due to a call, a move with so many bytes of a second memory. Where it is not that of a
/// shortcut, this is noted.
pub fn due(
    usable: &Result<Stored, &'static str>,
    call: &Call,
    second: usize,
    differs: &mut Differs,
) -> Option<u8> {
    let Ok(stored) = usable else {
        return Some(2);
    };
    let due = stated::refusal_with(stored, call, second);
    shortcuts::note(differs, stored, call, due);
    due
}

/// Each of the calls on the same bytes.
fn every_call(
    store: &dyn Store,
    watched: &mut Watched,
    random: &mut Random,
) -> Result<Tally, String> {
    let (memory, list) = (watched.memory.get(), watched.scans.get());
    let usable = facts::usable(memory, list);
    let failing = usable.as_ref().err().copied();
    let mut tally =
        Tally { memories: 1, failing: u64::from(failing.is_some()), ..Tally::default() };
    let form = usable.as_ref().ok().map(|stored| stored.layout.form);
    tally.moves.on_form_1 += u64::from(form == Some(Form::First));
    let check = form.map_or(Answer::Refused(2), |form| Answer::Number(form_number(form)));
    stated::judge_answer(Some(&check), &store.check(memory, list))
        .map_err(|error| format!("check: {error}"))?;
    let mut differs = Differs::default();
    let mut calls = Vec::new();
    for call in every_call_for(memory, list, random) {
        let second = any_second_for(&call, memory, random);
        let due = due(&usable, &call, second.get().len(), &mut differs);
        let listed = usable.as_ref().map_or(Vec::new(), |stored| stated::listed(stored, &call));
        let stated = usable.as_ref().ok().and_then(|stored| stated::answer(stored, &call));
        calls.push((call, second, due, listed, stated));
    }
    tally.differing.count(differs);
    for (call, second, due, listed, stated) in calls {
        let answer = watched.call_with(store, &call, second, random);
        tally.moves.count(&call, &answer, form.is_some_and(|form| call.works_on(form)));
        tally.crossings += u64::from(!listed.is_empty());
        judge(watched, &call, &answer, due, failing)
            .and_then(|()| stated::judge_answer(stated.as_ref(), &answer))
            .and_then(|()| watched.listed(&listed))
            .map_err(|error| format!("{}: {error}", trace::call_words(&call)))?;
        tally.calls += 1;
        tally.accepted += u64::from(!answer.is_refused());
        let keeper = matches!((&call, &answer), (Call::KeeperAt { .. }, Answer::Number(_)));
        tally.keepers += u64::from(keeper);
        if !answer.is_refused() {
            watched.restore();
        }
    }
    let shape = any_shape(random);
    let answer = store.make(watched.memory.get_mut(), watched.scans.get_mut(), &shape);
    judge_making(store, watched, &shape, &answer)
        .map_err(|error| format!("making {shape:?}: {error}"))?;
    tally.calls += 3;
    if answer == Answer::Done {
        tally.accepted += 1;
        watched.restore();
    }
    Ok(tally)
}

/// Measures that a small memory has room for, and any others.
fn any_shape(random: &mut Random) -> Shape {
    let mut measure = |most: u32| match random.below(20) {
        0 => random.word() as u32,
        1 => 0,
        _ => random.between(1, most),
    };
    Shape { columns: measure(4), ranges: measure(2), capacity: measure(8), spares: measure(5) }
}

/// Making looks at the measures and at the lengths alone, and the need at the measures.
fn judge_making(
    store: &dyn Store,
    watched: &Watched,
    shape: &Shape,
    answer: &Answer,
) -> Result<(), String> {
    let need = shape.within_limits().then(|| Layout::of(shape).need());
    if store.need(shape) != need.ok_or(1) {
        return Err("the need is another".to_string());
    }
    let lengths = (watched.memory.get().len(), watched.scans.get().len());
    let expected = match need {
        None => Answer::Refused(1),
        Some(need) if lengths.0 < need || lengths.1 < SCANS => Answer::Refused(2),
        Some(_) => Answer::Done,
    };
    if *answer != expected {
        let (answer, expected) = (trace::answer_words(answer), trace::answer_words(&expected));
        return Err(format!("answer {answer} where {expected} is due"));
    }
    match need {
        Some(need) if expected == Answer::Done => watched.made(need),
        _ => watched.unchanged(),
    }
}

fn judge(
    watched: &Watched,
    call: &Call,
    answer: &Answer,
    due: Option<u8>,
    failing: Option<&str>,
) -> Result<(), String> {
    stated::judge(due, answer).map_err(|error| match failing {
        Some(fact) => format!("{error}: '{fact}' fails"),
        None => error,
    })?;
    if answer.is_refused() {
        return watched.unchanged();
    }
    watched.changed_by(call)?;
    let moved = call.moves_to().is_some();
    let memory = if moved { watched.second.get() } else { watched.memory.get() };
    // An accepted call keeps the facts, but for a count of merges or commits that goes round to 0.
    let round = match call {
        Call::Merge { .. } => word(memory, header::MERGES_MADE) == 0,
        Call::Commit { .. } => word(memory, header::COMMITS_MADE) == 0,
        _ => false,
    };
    match facts::failing(memory, watched.scans.get()) {
        Some(fact) if !round => Err(format!("'{fact}' fails afterwards")),
        _ => Ok(()),
    }
}
