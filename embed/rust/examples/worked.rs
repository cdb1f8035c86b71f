//! The worked example: one gate with two columns, an update, and its merge into the
//! page. Prints a line for each call as the program gatebook does.

use deskrook::{Mask, Refusal, ScanEntry, Shape, Stamp, Store, Version, SCANS};

/// Prints a call's line and hands its answer on.
fn show<T>(
    name: &str,
    answer: Result<T, Refusal>,
    field: impl Fn(&T) -> String,
) -> Result<T, Refusal> {
    match &answer {
        Ok(answer) => println!("{}", format!("{name} ok {}", field(answer)).trim_end()),
        Err(refusal) => println!("{name} no {}", refusal.number()),
    }
    answer
}

fn done(_: &()) -> String {
    String::new()
}

fn version(version: &Option<Version>) -> String {
    version.map_or("none".to_string(), |version| format!("{} {}", version.value, version.stamp.0))
}

fn main() -> Result<(), Refusal> {
    let shape = Shape { columns: 2, ranges: 1, capacity: 4, spares: 1 };
    let mut memory = vec![0; shape.bytes_needed()?];
    let mut scans = [ScanEntry::FREE; SCANS];
    let mut store = Store::make(&mut memory, &mut scans, shape)?;
    println!("shape ok");

    let first = show("01", store.begin(), |number| number.0.to_string())?;
    let gate = show("02", store.insert(first, &[1200, -30]), |row| row.0.to_string())?;
    show("05", store.commit(first, Stamp(10)), done)?;

    let second = show("01", store.begin(), |number| number.0.to_string())?;
    let updated = store.update(second, gate, Mask::of(&[0]), &[1250]);
    let record = show("03", updated, |tail| tail.0.to_string())?;
    // Not committed yet, so the latest is the inserted value, set by the commit at 10.
    show("07", store.latest(gate, 0), version)?;
    show("05", store.commit(second, Stamp(20)), done)?;

    show("0E", store.merge(0, 0, record), done)?;
    // The value before the update, though the page holds the new one.
    show("08", store.read_at(Stamp(10), gate, 0), version)?;
    show("10", store.page_cell(0, gate), |value| value.to_string())?;
    // The page holds this record already.
    match show("0E", store.merge(0, 0, record), done) {
        Err(Refusal::Reach) => Ok(()),
        other => other,
    }
}
