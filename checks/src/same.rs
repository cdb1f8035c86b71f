//! Two stores on the same layout, call for call: the same answers, and the same bytes of memory, list and
//! second memory and the same lent stamps after each call, in either form and from one to the other. On memories that no call made the refusals, the
//! crossings listed and the keepers are also those of the papers' words.

use reference::random::Random;
use reference::{trace, Answer, Call, Form, Shape};

use crate::agree;
use crate::agree::List;
use crate::damage::{due, good};
use crate::lent::{self, any_second_for, second_for, stamps_for, Lent};
use crate::memory::{differing, where_differ, Layout, ScanEntry, SCANS};
use crate::operands::any_call_for;
use crate::shortcuts::{Differing, Differs};
use crate::stated;
use crate::store::{writes, Store};
use crate::unmade::{any_lent, disturbed};
use crate::{facts, first};

/// What a run came to.
#[derive(Clone, Copy, Debug, Default, PartialEq, Eq)]
pub struct Tally {
    pub lists: u64,
    pub calls: u64,
    pub accepted: u64,
    /// Accepted moves, and those refused with 22.
    pub moved: u64,
    pub refused_moves: u64,
    pub differing: Differing,
}

/// Calls made one after the other on a memory that no call made.
const STEPS: usize = 40;
/// Memories that no call made, and damaged ones, for each list.
const MEMORIES: usize = 8;

/// For each seed a random list of calls, and some memories that no call made.
pub fn run(one: &dyn Store, other: &dyn Store, first: u64, count: u64) -> Result<Tally, String> {
    let mut tally = Tally::default();
    for seed in first..first.saturating_add(count) {
        let named = |difference| format!("seed {seed}: {difference}");
        let mut random = Random::new(seed ^ 0x7361_6D65_0000_0000);
        let List { shape, form, calls } = agree::list(seed);
        let mut pair = Pair::made(one, other, &shape, &mut random).map_err(named)?;
        if form == Form::First {
            pair = Pair::first(one, other, &shape, &mut random);
        }
        for call in &calls {
            let second = second_for(call, pair.memory[0].get(), &mut random);
            pair.call(call, second, &mut random, &mut tally).map_err(named)?;
        }
        tally.lists += 1;
        for _ in 0..MEMORIES {
            let (memory, scans) = any_lent(&mut random);
            Pair::of(one, other, memory, scans).steps(&mut random, &mut tally).map_err(named)?;
        }
        let mut free = good(one, seed, &mut random).map_err(named)?;
        disturbed(free.memory.get_mut(), &mut random);
        Pair::of(one, other, free.memory, free.scans)
            .steps(&mut random, &mut tally)
            .map_err(named)?;
        let mut damaged = good(one, seed, &mut random).map_err(named)?;
        for _ in 0..random.between(1, 4) {
            let at = random.below(damaged.memory.get().len() as u32) as usize;
            damaged.memory.get_mut()[at] ^= 1 << random.below(8);
        }
        Pair::of(one, other, damaged.memory, damaged.scans)
            .steps(&mut random, &mut tally)
            .map_err(named)?;
    }
    Ok(tally)
}

/// Two stores with bytes of their own.
struct Pair<'s> {
    one: &'s dyn Store,
    other: &'s dyn Store,
    memory: [Lent<u8>; 2],
    scans: [Lent<ScanEntry>; 2],
    /// The stamps lent to the last call, and as they were before it.
    stamps: [Lent<u32>; 2],
    stamps_before: Vec<u32>,
    /// The second memory lent to the last call.
    second: [Lent<u8>; 2],
}

impl<'s> Pair<'s> {
    fn of(
        one: &'s dyn Store,
        other: &'s dyn Store,
        memory: Lent<u8>,
        scans: Lent<ScanEntry>,
    ) -> Pair<'s> {
        let (memory, scans) = ([memory.clone(), memory], [scans.clone(), scans]);
        let (stamps, stamps_before) = ([Lent::none(), Lent::none()], Vec::new());
        let second = [Lent::none(), Lent::none()];
        Pair { one, other, memory, scans, stamps, stamps_before, second }
    }

    /// Both in what form 1's making left.
    fn first(
        one: &'s dyn Store,
        other: &'s dyn Store,
        shape: &Shape,
        random: &mut Random,
    ) -> Pair<'s> {
        let need = Layout::in_form(shape, Form::First).need();
        let mut memory = Lent::dirty(need + random.below(64) as usize, random);
        let mut scans = Lent::dirty(SCANS + random.below(6) as usize, random);
        first::make(memory.get_mut(), scans.get_mut(), shape);
        Pair::of(one, other, memory, scans)
    }

    /// Both made in the same dirty memory.
    fn made(
        one: &'s dyn Store,
        other: &'s dyn Store,
        shape: &Shape,
        random: &mut Random,
    ) -> Result<Pair<'s>, String> {
        let need = one.need(shape);
        if need != other.need(shape) {
            return Err("the bytes needed differ".to_string());
        }
        let need = need.map_err(|number| format!("the need is refused with {number}"))?;
        let memory = Lent::dirty(need + random.below(64) as usize, random);
        let scans = Lent::dirty(SCANS + random.below(6) as usize, random);
        let mut pair = Pair::of(one, other, memory, scans);
        let [first, second] = &mut pair.memory;
        let [list, other_list] = &mut pair.scans;
        let first = one.make(first.get_mut(), list.get_mut(), shape);
        let second = other.make(second.get_mut(), other_list.get_mut(), shape);
        pair.alike(&first, &second).map_err(|error| format!("making {shape:?}: {error}"))?;
        Ok(pair)
    }

    /// Calls on memory that no call made, which stays such memory.
    fn steps(&mut self, random: &mut Random, tally: &mut Tally) -> Result<(), String> {
        tally.lists += 1;
        let mut differs = Differs::default();
        for _ in 0..STEPS {
            let (memory, list) = (self.memory[0].get(), self.scans[0].get());
            let call = any_call_for(memory, list, random);
            let second = any_second_for(&call, memory, random);
            let usable = facts::usable(memory, list);
            let due = due(&usable, &call, second.get().len(), &mut differs);
            let (listed, stated) = match usable {
                Ok(stored) => (stated::listed(&stored, &call), stated::answer(&stored, &call)),
                Err(_) => (Vec::new(), None),
            };
            let answer = self.call(&call, second, random, tally)?;
            stated::judge(due, &answer)
                .and_then(|()| stated::judge_answer(stated.as_ref(), &answer))
                .and_then(|()| lent::listed(&listed, &self.stamps_before, self.stamps[0].get()))
                .map_err(|error| format!("{}: {error}", trace::call_words(&call)))?;
            // A memory counts once, and an accepted call that writes makes another one, as a move does.
            if !answer.is_refused() && (writes(&call) || call.moves_to().is_some()) {
                tally.differing.count(differs);
                differs = Differs::default();
            }
        }
        tally.differing.count(differs);
        Ok(())
    }

    /// A call on both. After an accepted move the memories moved to are the stores.
    fn call(
        &mut self,
        call: &Call,
        second: Lent<u8>,
        random: &mut Random,
        tally: &mut Tally,
    ) -> Result<Answer, String> {
        self.second = [second.clone(), second];
        let stamps = stamps_for(call, random);
        self.stamps_before = stamps.get().to_vec();
        self.stamps = [stamps.clone(), stamps];
        let [first, second] = &mut self.memory;
        let [list, other_list] = &mut self.scans;
        let [stamps, other_stamps] = &mut self.stamps;
        let [moved, other_moved] = &mut self.second;
        let answer = |store: &dyn Store,
                      memory: &mut Lent<u8>,
                      list: &mut Lent<ScanEntry>,
                      stamps: &mut Lent<u32>,
                      second: &mut Lent<u8>| {
            let (memory, list) = (memory.get_mut(), list.get_mut());
            match call.moves_to() {
                Some(_) => store.move_with(memory, list, second.get_mut(), call),
                None => store.call_with(memory, list, stamps.get_mut(), call),
            }
        };
        let first = answer(self.one, first, list, stamps, moved);
        let second = answer(self.other, second, other_list, other_stamps, other_moved);
        tally.calls += 1;
        tally.accepted += u64::from(!first.is_refused());
        tally.refused_moves += u64::from(first == Answer::Refused(22));
        self.alike(&first, &second)
            .map_err(|error| format!("{}: {error}", trace::call_words(call)))?;
        if call.moves_to().is_some() && !first.is_refused() {
            tally.moved += 1;
            self.memory = std::mem::replace(&mut self.second, [Lent::none(), Lent::none()]);
        }
        Ok(first)
    }

    fn alike(&self, first: &Answer, second: &Answer) -> Result<(), String> {
        if first != second {
            let (first, second) = (trace::answer_words(first), trace::answer_words(second));
            return Err(format!("answers {first} and {second}"));
        }
        let [one, other] = &self.memory;
        if let Some(at) = differing(one.get(), other.get()).next() {
            let place = where_differ(one.get(), other.get(), at);
            return Err(format!("the memories differ {place}"));
        }
        let [moved, other_moved] = &self.second;
        if let Some(at) = differing(moved.get(), other_moved.get()).next() {
            let place = where_differ(moved.get(), other_moved.get(), at);
            return Err(format!("the second memories differ {place}"));
        }
        let [list, other_list] = &self.scans;
        if list.get() != other_list.get() {
            return Err("the scan lists differ".to_string());
        }
        let [stamps, other_stamps] = &self.stamps;
        if stamps.get() != other_stamps.get() {
            return Err(format!("the stamps are {:?} and {:?}", stamps.get(), other_stamps.get()));
        }
        let memories = [one, other, moved, other_moved];
        let guarded = memories.iter().all(|memory| memory.guarded_well());
        let listed = stamps.guarded_well() && other_stamps.guarded_well();
        if guarded && listed && list.guarded_well() && other_list.guarded_well() {
            return Ok(());
        }
        Err("a byte beside the lent bytes changed".to_string())
    }
}
