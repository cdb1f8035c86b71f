//! The time of calls. Calls that write are undone after each time, so that every repetition meets
//! the same bytes; only the blocks that they changed are put back, so that the rest stays in the
//! processor's cache as it was. A move writes the second memory alone, each time the same.

use std::hint::black_box;
use std::sync::atomic::{AtomicUsize, Ordering};
use std::time::{Duration, Instant};

use checks::Store;
use reference::Call;

use crate::filled::{places, second_bytes, Filled};
use crate::Named;

/// Rounds in which the stores are timed in turn, so that a busy stretch of the machine meets all.
const ROUNDS: usize = 9;
/// How often a whole table is measured: a stretch of seconds in which the machine is slow meets a
/// figure once.
pub const PASSES: usize = 4;
/// The memory lies elsewhere in each round, at one of so many blocks, so that no figure hangs on one place.
const PLACES: usize = 64;
static PLACE: AtomicUsize = AtomicUsize::new(0);
/// How long one call is measured in one round.
const SPAN: Duration = Duration::from_millis(5);
const MOST: usize = 4000;
/// Calls between two looks at the clock, where nothing need be undone.
pub const BATCH: u32 = 32;
const BLOCK: usize = 64;

/// The time of each store, the least of its rounds.
pub fn rounds(stores: &[Named], time: impl Fn(&dyn Store) -> f64) -> Vec<f64> {
    let mut least = vec![f64::INFINITY; stores.len()];
    for _ in 0..ROUNDS {
        for (least, (_, store)) in least.iter_mut().zip(stores) {
            *least = least.min(time(store.as_ref()));
        }
    }
    least
}

/// The lesser times of each store.
pub fn lesser(of: &mut [f64], than: &[f64]) {
    for (a, b) in of.iter_mut().zip(than) {
        *a = a.min(*b);
    }
}

/// The least of as many rounds of something else.
pub fn least(mut time: impl FnMut() -> f64) -> f64 {
    (0..ROUNDS).map(|_| typical(&mut time)).fold(f64::INFINITY, f64::min)
}

/// Nanoseconds of some calls, one after the other.
pub fn calls(store: &dyn Store, filled: &Filled, calls: &[&Call]) -> f64 {
    let skipped = PLACE.fetch_add(5, Ordering::Relaxed) % PLACES * BLOCK;
    let mut placed = vec![0; skipped + filled.memory.len()];
    let memory = &mut placed[skipped..];
    memory.copy_from_slice(&filled.memory);
    let mut bytes = filled.clone();
    let mut stamps = vec![0; calls.iter().map(|call| places(call)).max().unwrap_or(0)];
    let second = calls.iter().map(|call| second_bytes(memory, call)).max().unwrap_or(0);
    let mut second = vec![0; skipped + second];
    let mut made = |memory: &mut [u8], bytes: &mut Filled| {
        for call in calls {
            if call.moves_to().is_some() {
                let second = &mut second[skipped..];
                black_box(store.move_with(memory, &mut bytes.scans, second, black_box(call)));
                continue;
            }
            let stamps = &mut stamps[..places(call)];
            black_box(store.call_with(memory, &mut bytes.scans, stamps, black_box(call)));
        }
    };
    made(memory, &mut bytes);
    let changed = changed_blocks(&filled.memory, memory);
    if changed.is_empty() && filled.scans == bytes.scans {
        return typical(|| {
            let start = Instant::now();
            for _ in 0..BATCH {
                made(memory, &mut bytes);
            }
            start.elapsed().as_nanos() as f64 / f64::from(BATCH)
        });
    }
    let undo = |memory: &mut [u8], bytes: &mut Filled| {
        for block in &changed {
            memory[block.clone()].copy_from_slice(&filled.memory[block.clone()]);
        }
        bytes.scans.copy_from_slice(&filled.scans);
    };
    undo(memory, &mut bytes);
    let look = typical(|| {
        let start = Instant::now();
        start.elapsed().as_nanos() as f64
    });
    let whole = typical(|| {
        let start = Instant::now();
        made(memory, &mut bytes);
        let time = start.elapsed().as_nanos() as f64;
        undo(memory, &mut bytes);
        time
    });
    (whole - look).max(0.0)
}

fn changed_blocks(before: &[u8], after: &[u8]) -> Vec<std::ops::Range<usize>> {
    let both = before.chunks(BLOCK).zip(after.chunks(BLOCK)).enumerate();
    let changed = both.filter(|(_, (before, after))| before != after);
    changed.map(|(place, (block, _))| place * BLOCK..place * BLOCK + block.len()).collect()
}

/// The least tenth of as many runs as the span has room for ends here: other programs on the
/// machine only ever make a run slower.
pub fn typical(mut run: impl FnMut() -> f64) -> f64 {
    let start = Instant::now();
    let mut times = Vec::new();
    while times.len() < 3 || (times.len() < MOST && start.elapsed() < SPAN) {
        times.push(run());
    }
    times.sort_by(f64::total_cmp);
    times[times.len() / 10]
}
