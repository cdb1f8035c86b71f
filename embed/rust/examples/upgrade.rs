//! A fitted panel's upgrade to the newest stored form, and its return. The panel's memory and scan list
//! are the files of the example in C: form 1, one column, four scans open, and transaction 4 open with a
//! setting of gate 2. One panel is upgraded and goes on with keepers, after which there is no way back.
//! Another keeps to keeper 0, goes back, and has the bytes of a panel that was never moved. Prints a line
//! for each call: its name, "ok" and the answer's fields, or "no" and the refusal's number.

use deskrook::{
    Form, Keeper, Mask, Refusal, Row, ScanEntry, ScanNumber, Shape, Stamp, Store, Sum, Transaction,
    Unmoved, Version, SCANS,
};

/// The shape that these panels were made with.
const SHAPE: Shape = Shape { columns: 1, ranges: 2, capacity: 8, spares: 4 };

/// A panel's memory and list as they were fitted.
fn fitted() -> (Vec<u8>, [ScanEntry; SCANS]) {
    let memory = include_bytes!("../../c/panel.memory");
    let list = include_bytes!("../../c/panel.scans");
    let mut words = list.chunks(4).map(|word| u32::from_le_bytes(word.try_into().expect("a word")));
    let mut next = || words.next().expect("four words for each entry");
    let entries = [ScanEntry::FREE; SCANS].map(|_| ScanEntry {
        number: next(),
        stamp: next(),
        merges: next(),
        commits: next(),
    });
    (memory.to_vec(), entries)
}

/// Prints a call's line and hands its answer on.
fn show<T>(
    name: &str,
    answer: Result<T, Refusal>,
    field: impl Fn(&T) -> String,
) -> Result<T, Refusal> {
    match &answer {
        Ok(answer) => println!("{}", format!("{name} ok {}", field(answer)).trim_end()),
        Err(refusal) => println!("{name} no {}", refusal.number()),
    }
    answer
}

fn done<T>(_: &T) -> String {
    String::new()
}

fn form(form: &Form) -> String {
    form.number().to_string()
}

fn version(version: &Option<Version>) -> String {
    version.map_or("none".to_string(), |version| format!("{} {}", version.value, version.stamp.0))
}

fn sum(sum: &Sum) -> String {
    format!("{} {}", sum.rows, sum.sum)
}

fn keeper(keeper: &Option<Keeper>) -> String {
    keeper.map_or("none".to_string(), |keeper| keeper.0.to_string())
}

/// Sets a gate's level at a minute by a transaction with keeper 0, which works on either form.
fn set(store: &mut Store, gate: Row, level: i32, minute: Stamp) -> Result<(), Refusal> {
    let transaction = show("begin", store.begin(), |number| number.0.to_string())?;
    let updated = store.update(transaction, gate, Mask(1), &[level]);
    show("update", updated, |tail| tail.0.to_string())?;
    show("commit", store.commit(transaction, minute), done)
}

/// Upgrades a panel, which goes on with keepers.
fn upgraded() -> Result<(), Refusal> {
    println!("a fitted panel");
    let (mut memory, mut scans) = fitted();
    let fitted_length = memory.len();
    let store = Store::lent(&mut memory, &mut scans);
    show("check", store.check(), form)?;
    show("latest", store.latest(Row(0), 0), version)?;
    show("sum", store.sum(ScanNumber(3), 0), sum)?;
    // Form 1 has no keepers, and this call does not work on it.
    let refused = show("keeper-at", store.keeper_at(Stamp(12), Row(0), 0), keeper);
    assert_eq!(refused, Err(Refusal::Memory));

    println!("upgraded");
    let mut second = vec![0; SHAPE.bytes_needed()?];
    // From here on the second memory is the store, and the first is none.
    let mut store = store.upgrade(&mut second)?;
    println!("upgrade ok");
    show("check", store.check(), form)?;
    // By the scan that was open before, and of the transaction that was.
    show("sum", store.sum(ScanNumber(3), 0), sum)?;
    show("commit", store.commit(Transaction(4), Stamp(20)), done)?;
    let begun = show("begin-as", store.begin_as(Keeper(3)), |number| number.0.to_string())?;
    let updated = store.update(begun, Row(0), Mask(1), &[130]);
    show("update", updated, |tail| tail.0.to_string())?;
    show("commit", store.commit(begun, Stamp(25)), done)?;
    show("keeper-at", store.keeper_at(Stamp(25), Row(0), 0), keeper)?;
    // Set by the transaction that was begun before the upgrade.
    show("keeper-at", store.keeper_at(Stamp(25), Row(2), 0), keeper)?;

    // Form 1 has no place for keeper 3. The store is handed back, in the newest form as it was.
    let mut third = vec![0; fitted_length];
    let Err(Unmoved { store, refusal }) = store.downgrade(&mut third) else {
        panic!("a keeper was lost");
    };
    println!("downgrade no {}", refusal.number());
    show("check", store.check(), form).map(drop)
}

/// Upgrades another panel, which keeps to keeper 0 and goes back.
fn returned() -> Result<(), Refusal> {
    println!("another panel, upgraded, and back without keepers");
    let (mut memory, mut scans) = fitted();
    let (mut second, mut third) = (vec![0; SHAPE.bytes_needed()?], vec![0; memory.len()]);
    let mut store = Store::lent(&mut memory, &mut scans).upgrade(&mut second)?;
    println!("upgrade ok");
    set(&mut store, Row(1), 220, Stamp(20))?;
    let store = store.downgrade(&mut third)?;
    println!("downgrade ok");
    show("check", store.check(), form)?;
    show("latest", store.latest(Row(1), 0), version)?;

    println!("a panel that is never moved, and does the same");
    let (mut unmoved, mut list) = fitted();
    set(&mut Store::lent(&mut unmoved, &mut list), Row(1), 220, Stamp(20))?;
    let same = third == unmoved && scans == list;
    println!("the bytes of the two {}", if same { "are the same" } else { "differ" });
    Ok(())
}

fn main() -> Result<(), Refusal> {
    upgraded()?;
    returned()
}
