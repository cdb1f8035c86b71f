//! Random lists of calls and random streams for gatebook, from a seed. The seed chooses a workload,
//! and by it the calls are chosen.

mod generator;
mod workload;

use self::generator::{Generator, Numbers};
pub use self::workload::COUNT as WORKLOADS;
use crate::call::{Call, Form, Shape};
use crate::command;
use crate::history::{NUMBERS, OPEN_SCANS, OPEN_TRANSACTIONS};
use crate::program::LENT;
use crate::random::Random;

/// A list of so many calls for a store of any shape within the limits, in the form of the seed at the first
/// of them. Every number fits the command bytes; slices are lent of any length.
pub fn calls(seed: u64, shape: Shape, count: usize) -> Vec<Call> {
    let random = Random::new(seed ^ 0x6361_6C6C_7300_0000);
    let (workload, form) = (workload::of(seed), form(seed));
    Generator::new(random, workload, shape, form, count, Numbers::Narrow).take(count)
}

/// The same, with some numbers that are too wide for the command bytes.
pub fn wide_calls(seed: u64, shape: Shape, count: usize) -> Vec<Call> {
    let random = Random::new(seed ^ 0x7769_6465_0000_0000);
    let (workload, form) = (workload::of(seed), form(seed));
    Generator::new(random, workload, shape, form, count, Numbers::Wide).take(count)
}

/// The form of the memory at the first call of a seed's list. Document 02, Item 7: "Demand 3's lists may also
/// start from what form 1's making left". A stream's is always the newest, which gatebook makes.
pub fn form(seed: u64) -> Form {
    let mut random = Random::new(seed ^ 0x666F_726D_0000_0000);
    if random.percent(FIRST_FORM) {
        Form::First
    } else {
        Form::Newest
    }
}

/// Lists that start in form 1, in percent.
const FIRST_FORM: u32 = 35;

/// A shape within the limits, mostly small, or mostly within the bounds of a workload that asks for
/// them.
pub fn shape(seed: u64) -> Shape {
    let mut random = Random::new(seed ^ 0x7368_6170_6500_0000);
    let mut measure = |(least, usual), greatest| match random.below(20) {
        0 => greatest,
        1 => random.between(least, greatest),
        _ => random.between(least, usual),
    };
    let workload = workload::of(seed);
    let bounds = |of_workload, small| if workload.bounds_all { of_workload } else { small };
    Shape {
        columns: measure(bounds(workload.columns, (1, 4)), 16),
        ranges: measure(bounds(workload.ranges, (1, 2)), 16),
        capacity: measure(bounds(workload.capacity, (1, 16)), 512),
        spares: measure(bounds(workload.spares, (0, 4)), 256),
    }
}

/// Whether the stream of a seed is one of the long ones in which a number series runs out.
pub fn is_long(seed: u64) -> bool {
    matches!(seed % 4096, 15 | 79)
}

/// A stream for gatebook: a shape and commands. Some shapes are outside the limits or cut, some
/// streams end in an unknown byte or inside a command.
pub fn stream(seed: u64) -> Vec<u8> {
    match seed % 4096 {
        15 => return transactions_run_out(),
        79 => return scans_run_out(),
        _ => {}
    }
    let mut random = Random::new(seed ^ 0x7374_7265_616D_0000);
    let workload = workload::of(seed);
    let shape = Shape {
        columns: random.between(workload.columns.0, workload.columns.1),
        ranges: random.between(workload.ranges.0, workload.ranges.1),
        capacity: random.between(workload.capacity.0, workload.capacity.1),
        spares: random.between(workload.spares.0, workload.spares.1),
    };
    let more = workload.more + shape.rows() * workload.early_rows / 50;
    let count = (40 + random.below(160) + more) as usize;
    let mut generator =
        Generator::new(random, workload, shape, Form::Newest, count, Numbers::Commands);
    let calls = generator.take(count);
    let byte = generator.command();
    let last = generator.candidate(byte);
    let random = &mut generator.random;

    let mut bytes = shape_bytes(&shape);
    for call in &calls {
        let fits = command::write(&mut bytes, call, shape.columns as usize);
        assert!(fits, "a call of a stream fits the command bytes: {call:?}");
    }
    match random.below(40) {
        // An unknown command byte, with bytes behind it.
        0 | 1 => {
            let known = *command::COMMANDS.end();
            let unknown = random.between(known.into(), 0xFF) as u8;
            bytes.push(if unknown == known { 0 } else { unknown });
            for _ in 0..random.below(6) {
                bytes.push(random.word() as u8);
            }
        }
        // A cut command.
        2..=4 => {
            let whole = bytes.len();
            command::write(&mut bytes, &last, shape.columns as usize);
            let width = bytes.len() - whole;
            if width > 1 {
                bytes.truncate(whole + random.between(1, width as u32 - 1) as usize);
            }
        }
        // A cut shape.
        5 => bytes.truncate(random.below(6) as usize),
        // A shape with one measure outside its limits, or above what gatebook lends.
        6 => {
            let (place, measure): (usize, u16) = random.pick(&[
                (0, 0),
                (0, 5),
                (0, 17),
                (0, 255),
                (1, 0),
                (1, 5),
                (1, 17),
                (2, 0),
                (2, 65),
                (2, 513),
                (4, 17),
                (4, 257),
                (4, 65_535),
            ]);
            let width = if place < 2 { 1 } else { 2 };
            bytes[place..place + width].copy_from_slice(&measure.to_le_bytes()[..width]);
        }
        _ => {}
    }
    bytes
}

/// A stream for gatebook at the largest shape that it lends memory for: so many commands, and one
/// more that is cut.
pub fn largest(seed: u64, commands: usize) -> Vec<u8> {
    let random = Random::new(seed ^ 0x6C61_7267_6573_7400);
    let workload = workload::of(seed);
    let mut generator =
        Generator::new(random, workload, LENT, Form::Newest, commands, Numbers::Commands);
    let mut bytes = bytes_of(&LENT, &generator.take(commands));
    let update = generator.candidate(0x03);
    let whole = bytes.len();
    command::write(&mut bytes, &update, LENT.columns as usize);
    let width = (bytes.len() - whole) as u32;
    bytes.truncate(whole + generator.random.between(1, width - 1) as usize);
    bytes
}

fn shape_bytes(shape: &Shape) -> Vec<u8> {
    let mut bytes = Vec::new();
    command::put(&mut bytes, 1, i64::from(shape.columns));
    command::put(&mut bytes, 1, i64::from(shape.ranges));
    command::put(&mut bytes, 2, i64::from(shape.capacity));
    command::put(&mut bytes, 2, i64::from(shape.spares));
    bytes
}

const SMALLEST: Shape = Shape { columns: 1, ranges: 1, capacity: 1, spares: 0 };

/// Every transaction number given, the last eight left open; then begins that are refused.
fn transactions_run_out() -> Vec<u8> {
    let mut calls = Vec::new();
    for transaction in 1..=NUMBERS as u32 {
        calls.push(Call::Begin);
        if transaction as usize + OPEN_TRANSACTIONS <= NUMBERS {
            calls.push(Call::Abort { transaction });
        }
    }
    let transaction = NUMBERS as u32;
    calls.push(Call::Begin);
    calls.push(Call::BeginAs { keeper: 1 });
    calls.push(Call::Commit { transaction, stamp: 1 });
    calls.push(Call::Begin);
    calls.push(Call::BeginAs { keeper: 1 });
    calls.push(Call::Abort { transaction });
    calls.push(Call::OpenScan { stamp: 1 });
    bytes_of(&SMALLEST, &calls)
}

/// Every scan number given, the last five left open; then openings that are refused.
fn scans_run_out() -> Vec<u8> {
    let mut calls = Vec::new();
    for scan in 1..=NUMBERS as u32 {
        calls.push(Call::OpenScan { stamp: 0 });
        if scan as usize + OPEN_SCANS <= NUMBERS {
            calls.push(Call::Close { scan });
        }
    }
    let scan = NUMBERS as u32;
    calls.push(Call::OpenScan { stamp: 1 });
    calls.push(Call::OpenScan { stamp: 0 });
    calls.push(Call::Close { scan });
    calls.push(Call::OpenScan { stamp: 0 });
    calls.push(Call::Sum { scan, column: 0 });
    calls.push(Call::Begin);
    bytes_of(&SMALLEST, &calls)
}

fn bytes_of(shape: &Shape, calls: &[Call]) -> Vec<u8> {
    let mut bytes = shape_bytes(shape);
    for call in calls {
        command::write(&mut bytes, call, shape.columns as usize);
    }
    bytes
}
