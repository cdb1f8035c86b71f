//! A store as the checks use it: numbers, lent memory, a lent scan list and a lent slice of stamps or second
//! memory in, an answer out.

use reference::{Answer, Call, Shape};

use crate::memory::ScanEntry;

/// Something that makes stores in lent memory and answers calls on them.
pub trait Store {
    /// The bytes that a shape needs, or the refusal's number.
    fn need(&self, shape: &Shape) -> Result<usize, u8>;

    /// Makes a store; `Done` or a refusal.
    fn make(&self, memory: &mut [u8], scans: &mut [ScanEntry], shape: &Shape) -> Answer;

    /// One of the calls 01 to 14 (hexadecimal). 12 is lent the stamps, and answers `Number`: how many of
    /// them it wrote, from the first on. No other call is lent them. A move has a second memory of no byte.
    fn call_with(
        &self,
        memory: &mut [u8],
        scans: &mut [ScanEntry],
        stamps: &mut [u32],
        call: &Call,
    ) -> Answer;

    /// One of the moves, with the second memory. An accepted one writes there alone; memory and list are
    /// lent to be written all the same, for a wrong store to do so.
    fn move_with(
        &self,
        memory: &mut [u8],
        scans: &mut [ScanEntry],
        second: &mut [u8],
        call: &Call,
    ) -> Answer;

    /// The check whether memory and list are usable: `Number`, the stored form's, or a refusal.
    fn check(&self, memory: &[u8], scans: &[ScanEntry]) -> Answer;

    /// A call with no place for a stamp.
    fn call(&self, memory: &mut [u8], scans: &mut [ScanEntry], call: &Call) -> Answer {
        self.call_with(memory, scans, &mut [], call)
    }
}

/// What a store answers where the plain history gives this answer, and what it writes to the lent stamps.
pub fn told(answer: Answer) -> (Answer, Vec<u32>) {
    match answer {
        Answer::Crossings(stamps) => (Answer::Number(stamps.len() as u32), stamps),
        answer => (answer, Vec::new()),
    }
}

/// Whether an accepted call may change the lent memory. A move does not: another memory is the store then.
pub fn writes(call: &Call) -> bool {
    match call {
        Call::Latest { .. }
        | Call::ReadAt { .. }
        | Call::OwnRead { .. }
        | Call::ScanRead { .. }
        | Call::Sum { .. }
        | Call::Close { .. }
        | Call::PageCell { .. }
        | Call::Lineage { .. }
        | Call::Crossings { .. }
        | Call::KeeperAt { .. }
        | Call::Upgrade
        | Call::Downgrade => false,
        Call::Begin
        | Call::BeginAs { .. }
        | Call::Insert { .. }
        | Call::Update { .. }
        | Call::Delete { .. }
        | Call::Commit { .. }
        | Call::Abort { .. }
        | Call::OpenScan { .. }
        | Call::Merge { .. }
        | Call::Release => true,
    }
}

/// Whether an accepted call may change the scan list.
pub fn writes_list(call: &Call) -> bool {
    matches!(call, Call::OpenScan { .. } | Call::Close { .. })
}
