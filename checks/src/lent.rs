//! What is lent, with guard zones around it, and random content: what stands before and behind it
//! must never change.

use reference::random::Random;
use reference::Call;

use crate::memory::ScanEntry;
use crate::moves;

const GUARD: usize = 64;

/// What memory, scan list and stamps are made of.
pub trait Content: Copy + PartialEq {
    /// What stands in the guard zones.
    const MARK: Self;
    /// How many distances from an even address are tried.
    const SHIFTS: u32;

    /// Random content.
    fn fill(all: &mut [Self], random: &mut Random);
}

impl Content for u8 {
    const MARK: u8 = 0xA5;
    const SHIFTS: u32 = 4;

    fn fill(all: &mut [u8], random: &mut Random) {
        for part in all.chunks_mut(8) {
            part.copy_from_slice(&random.word().to_le_bytes()[..part.len()]);
        }
    }
}

impl Content for ScanEntry {
    const MARK: ScanEntry = ScanEntry {
        number: 0xA5A5_A5A5,
        stamp: 0xA5A5_A5A5,
        merges: 0xA5A5_A5A5,
        commits: 0xA5A5_A5A5,
    };
    const SHIFTS: u32 = 1;

    fn fill(all: &mut [ScanEntry], random: &mut Random) {
        for scan in all {
            let (one, other) = (random.word(), random.word());
            *scan = ScanEntry {
                number: one as u32,
                stamp: (one >> 32) as u32,
                merges: other as u32,
                commits: (other >> 32) as u32,
            };
        }
    }
}

impl Content for u32 {
    const MARK: u32 = 0xA5A5_A5A5;
    const SHIFTS: u32 = 1;

    fn fill(all: &mut [u32], random: &mut Random) {
        for stamp in all {
            *stamp = random.word() as u32;
        }
    }
}

/// Bytes to lend, at any distance from an even address, places of a scan list, or stamps.
#[derive(Clone, Debug)]
pub struct Lent<T> {
    all: Vec<T>,
    first: usize,
    length: usize,
}

/// The stamps that a call is lent, of random content.
pub fn stamps_for(call: &Call, random: &mut Random) -> Lent<u32> {
    match call {
        Call::Crossings { places, .. } => Lent::dirty(*places as usize, random),
        _ => Lent::none(),
    }
}

/// The second memory that a move of a good store is lent, of random content and long enough, often just so.
pub fn second_for(call: &Call, memory: &[u8], random: &mut Random) -> Lent<u8> {
    match moves::need(memory, call) {
        Some(need) if random.percent(30) => Lent::dirty(need, random),
        Some(need) => Lent::dirty(need + random.below(64) as usize, random),
        None => Lent::none(),
    }
}

/// A second memory of any length, mostly about as long as a move of the memory needs, and of any content, a
/// store's too.
pub fn any_second_for(call: &Call, memory: &[u8], random: &mut Random) -> Lent<u8> {
    if call.moves_to().is_none() {
        return Lent::none();
    }
    let need = moves::need(memory, call).unwrap_or(0);
    let length = match random.below(12) {
        0 => need.saturating_sub(1),
        1 => need.saturating_sub(random.between(1, 70) as usize),
        2 => random.below(need as u32 + 1) as usize,
        3 => memory.len(),
        4 => random.below(100) as usize,
        5 => 0,
        6 | 7 => need,
        _ => need + random.below(600) as usize,
    };
    let mut second = Lent::dirty(length, random);
    if random.percent(20) {
        second.get_mut().fill(0);
    } else if random.percent(30) {
        let both = length.min(memory.len());
        second.get_mut()[..both].copy_from_slice(&memory[..both]);
    }
    second
}

/// Lent stamps must begin with this list, and their rest be as it was before.
pub fn listed(list: &[u32], before: &[u32], after: &[u32]) -> Result<(), String> {
    let due = list.iter().chain(before.iter().skip(list.len()));
    match after.iter().zip(due).position(|(stamp, due)| stamp != due) {
        None => Ok(()),
        Some(at) => Err(format!("stamp {at} of {after:?}, which was {before:?}: {list:?} is due")),
    }
}

impl<T: Content> Lent<T> {
    /// Nothing, for a call that takes none.
    pub fn none() -> Lent<T> {
        Lent { all: Vec::new(), first: 0, length: 0 }
    }

    /// So much of random content.
    pub fn dirty(length: usize, random: &mut Random) -> Lent<T> {
        let mut lent = Lent::guarded(length, random);
        T::fill(lent.get_mut(), random);
        lent
    }

    /// A copy.
    pub fn copy(content: &[T], random: &mut Random) -> Lent<T> {
        let mut lent = Lent::guarded(content.len(), random);
        lent.get_mut().copy_from_slice(content);
        lent
    }

    fn guarded(length: usize, random: &mut Random) -> Lent<T> {
        let first = GUARD + random.below(T::SHIFTS) as usize;
        Lent { all: vec![T::MARK; first + length + GUARD], first, length }
    }

    pub fn get(&self) -> &[T] {
        &self.all[self.first..self.first + self.length]
    }

    pub fn get_mut(&mut self) -> &mut [T] {
        &mut self.all[self.first..self.first + self.length]
    }

    /// Whether the guard zones are as they were.
    pub fn guarded_well(&self) -> bool {
        let (before, after) = (&self.all[..self.first], &self.all[self.first + self.length..]);
        before.iter().chain(after).all(|mark| *mark == T::MARK)
    }
}
