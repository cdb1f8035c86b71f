//! The refusals by the papers' words: document 01's table "What a refused call returns" and its
//! paragraph "Tests run in this order", with Item 2 of document 02 for 14, Item 3 for 13, Items 4 and 6 for
//! their calls and Item 7 for the moves and for which call works on which form, read of the words of a usable
//! memory, whoever wrote them; and the crossings that Item 4's call lists and the keepers that Item 6's
//! answers. Written from these alone, to judge a store's
//! refusals, lists and keepers, so it is plain rather than quick.
//!
//! Two words are settled: open is a number in the list of open numbers, whatever state words say; and
//! what is not open is committed where its state word says so, and aborted otherwise. A value is
//! committed where its state word says so, as reads have it. A row's newest record is the one that its
//! link names, and the one before a record the one that the record's link names, as reads have it too.

use std::iter;

use reference::{trace, Answer, Call, Form};

use crate::facts::Stored;
use crate::memory::{header, keeper as keeper_in, kind, state, Region};
use crate::memory::{NUMBERS, OPENS, ROWS, SCANS};

/// The numbers of a call. What a call does not have is 0, and no test of it looks there.
#[derive(Clone, Copy, Default)]
pub struct Numbers {
    pub transaction: u32,
    pub scan: u32,
    pub row: u32,
    pub column: u32,
    pub range: u32,
    pub mask: u16,
    pub stamp: u32,
    pub through: u32,
    pub mark: i32,
    pub from: u32,
    pub to: u32,
    pub places: u32,
}

/// A call's tests after 2, in their order, and its numbers.
pub fn tests(call: &Call) -> (&'static [u8], Numbers) {
    let none = Numbers::default();
    match *call {
        Call::Begin | Call::BeginAs { .. } => (&[15, 14], none),
        Call::Insert { transaction, .. } => (&[3, 11], Numbers { transaction, ..none }),
        Call::Update { transaction, row, mask, .. } => {
            (&[3, 5, 8, 9, 10, 12], Numbers { transaction, row, mask, ..none })
        }
        Call::Delete { transaction, row } => {
            (&[3, 5, 9, 10, 12], Numbers { transaction, row, ..none })
        }
        Call::Commit { transaction, stamp } => (&[3, 13], Numbers { transaction, stamp, ..none }),
        Call::Abort { transaction } => (&[3], Numbers { transaction, ..none }),
        Call::Latest { row, column } => (&[5, 6], Numbers { row, column, ..none }),
        // Item 6: "refused as 08 is"
        Call::ReadAt { stamp, row, column } | Call::KeeperAt { stamp, row, column } => {
            (&[13, 5, 6], Numbers { stamp, row, column, ..none })
        }
        Call::OwnRead { transaction, row, column } => {
            (&[3, 5, 6], Numbers { transaction, row, column, ..none })
        }
        Call::OpenScan { stamp } => (&[13, 15, 14], Numbers { stamp, ..none }),
        Call::ScanRead { scan, row, column } => (&[4, 5, 6], Numbers { scan, row, column, ..none }),
        Call::Sum { scan, column } => (&[4, 6], Numbers { scan, column, ..none }),
        Call::Close { scan } => (&[4], Numbers { scan, ..none }),
        Call::Merge { range, column, through } => {
            (&[7, 6, 16, 17, 18], Numbers { range, column, through, ..none })
        }
        Call::Release => (&[], none),
        Call::PageCell { column, row } => (&[6, 5], Numbers { column, row, ..none }),
        Call::Lineage { range, column } => (&[7, 6], Numbers { range, column, ..none }),
        Call::Crossings { row, column, mark, from, to, places } => {
            (&[5, 6, 13, 21], Numbers { row, column, mark, from, to, places, ..none })
        }
        // Item 7: "Checks: 2 for either memory [..]; then, on moving back, 22 Keeper"
        Call::Upgrade => (&[], none),
        Call::Downgrade => (&[22], none),
    }
}

/// The number that the call is refused with: 2 where it does not work on the memory's form, and else the
/// first whose condition applies. A move's second memory is long enough.
pub fn refusal(stored: &Stored, call: &Call) -> Option<u8> {
    refusal_with(stored, call, usize::MAX)
}

/// The same with so many bytes of a second memory. Item 7: "2 for either memory (the second by its length
/// alone)".
pub fn refusal_with(stored: &Stored, call: &Call, second: usize) -> Option<u8> {
    let short = call.moves_to().is_some_and(|form| second < stored.layout.moved_to(form).need());
    if !works_on(stored, call) || short {
        return Some(2);
    }
    let (tests, numbers) = tests(call);
    tests.iter().copied().find(|number| applies(stored, *number, call, &numbers))
}

/// Item 6: "a memory not in a form that the call works on fails a stored fact"; Item 7: "The first move works
/// on form 1, calls 01 to 12 on form 1 and the newest, which making gives, all others on the newest alone."
pub fn works_on(stored: &Stored, call: &Call) -> bool {
    let command = reference::command::parts(call).map(|(byte, _)| byte);
    match (call, command) {
        (Call::Upgrade, _) => stored.layout.form == Form::First,
        (_, Some(0x01..=0x12)) => true,
        _ => stored.layout.form == Form::Newest,
    }
}

/// What an accepted call lists, which is what it writes to the lent stamps; nothing for any other call.
pub fn listed(stored: &Stored, call: &Call) -> Vec<u32> {
    match call {
        Call::Crossings { .. } if refusal(stored, call).is_none() => {
            crossings(stored, &tests(call).1)
        }
        _ => Vec::new(),
    }
}

/// Whether an answer is refused with the number that is due, or accepted where none is.
pub fn judge(due: Option<u8>, answer: &Answer) -> Result<(), String> {
    let refused = match answer {
        Answer::Refused(number) => Some(*number),
        _ => None,
    };
    if refused == due {
        return Ok(());
    }
    let (answer, due) = (trace::answer_words(answer), due.map(Answer::Refused));
    let due = due.map_or("an accepted call".to_string(), |due| trace::answer_words(&due));
    Err(format!("answer {answer}, by the papers' words {due} is due"))
}

/// What an accepted call for crossings answers, which is how many it lists, and one for a keeper; nothing
/// for any other call.
pub fn answer(stored: &Stored, call: &Call) -> Option<Answer> {
    if refusal(stored, call).is_some() {
        return None;
    }
    match call {
        Call::Crossings { .. } => Some(Answer::Number(listed(stored, call).len() as u32)),
        Call::KeeperAt { .. } => Some(keeper(stored, &tests(call).1)),
        _ => None,
    }
}

/// Whether an answer is the one that is due, if one is.
pub fn judge_answer(due: Option<&Answer>, answer: &Answer) -> Result<(), String> {
    match due.filter(|due| *due != answer).map(trace::answer_words) {
        None => Ok(()),
        Some(due) => {
            let answer = trace::answer_words(answer);
            Err(format!("answer {answer}, by the papers' words {due} is due"))
        }
    }
}

/// Whether a number's condition applies to a call of which the tests before it have passed.
pub fn applies(s: &Stored, number: u8, call: &Call, n: &Numbers) -> bool {
    match number {
        // "the number is not open"
        3 => !s.open().contains(&n.transaction),
        4 => !s.scans.iter().any(|scan| scan.number == n.scan),
        // "row number not yet given"
        5 => n.row >= s.header(header::ROWS_GIVEN),
        // "not below the column count", "not below the range count"
        6 => n.column >= s.layout.columns as u32,
        7 => n.range >= s.header(header::RANGES),
        // "no bit, or a bit at or above the column count"
        8 => {
            let bits: Vec<u32> = (0..16).filter(|bit| n.mask >> bit & 1 == 1).collect();
            bits.is_empty() || bits.iter().any(|bit| *bit >= s.layout.columns as u32)
        }
        9 => held(s, n),
        10 => !held(s, n) && (deleted(s, n) || insert_aborted(s, n)),
        // "all rows given"
        11 => s.header(header::ROWS_GIVEN) as usize >= s.layout.rows,
        // "the range lacks the one or two records wanted"
        12 => s.used(range_of(n)) + wanted(s, call, n) > s.header(header::CAPACITY),
        // "a commit not later than the last (0 in a new store), or a read or scan later than the
        // last"; Item 3: "A commit may now carry the last commit's stamp again, 0 in a new store; only
        // an earlier one is answered 13"; Item 4: "13 if from exceeds to or to is later than the last
        // commit"
        13 => match call {
            Call::Commit { .. } => n.stamp < s.header(header::LAST_STAMP),
            Call::Crossings { .. } => n.from > n.to || n.to > s.header(header::LAST_STAMP),
            _ => n.stamp > s.header(header::LAST_STAMP),
        },
        // "8 transactions, or 16 scans, open"; Item 2: "Make five the limit in place of sixteen"
        14 => match call {
            Call::Begin | Call::BeginAs { .. } => s.open().len() >= OPENS,
            _ => s.scans.len() >= SCANS,
        },
        // "65,535 numbers given"
        15 => match call {
            Call::Begin | Call::BeginAs { .. } => s.header(header::TRANSACTIONS_GIVEN) >= NUMBERS,
            _ => s.header(header::SCANS_GIVEN) >= NUMBERS,
        },
        // "merge not above what the page holds, or above the records used"
        16 => n.through <= lineage(s, n) || n.through > s.used(n.range as usize),
        // "a record up to n belongs to an open transaction"
        17 => (1..=n.through).any(|record| {
            s.open().contains(&s.of_record(Region::TailTransaction, n.range as usize, record))
        }),
        // "no free page"; "Free pages are the spares less those waiting"
        18 => s.header(header::SPARES) as usize <= s.waiting_pages().count(),
        // "exactly if the crossings outnumber the slice"
        21 => crossings(s, n).len() > n.places as usize,
        // "exactly if a row, a tail record or an open transaction bears a keeper other than 0"
        22 => {
            let mut open = (0..OPENS).filter(|entry| s.get(Region::Opens, *entry) != 0);
            let bears = |region, at| keeper_in(s.get(region, at)) != 0;
            s.rows().any(|row| bears(Region::RowKeeper, row))
                || s.slots().any(|slot| bears(Region::TailKeeper, slot))
                || open.any(|entry| bears(Region::OpenKeeper, entry))
        }
        _ => unreachable!("{number} is no number of a call on a store"),
    }
}

fn range_of(n: &Numbers) -> usize {
    n.row as usize / ROWS
}

/// A word of the row.
fn row(s: &Stored, region: Region, n: &Numbers) -> u32 {
    s.get(region, n.row as usize)
}

/// The used records that name the row.
fn records<'s>(s: &'s Stored, n: &'s Numbers) -> impl Iterator<Item = u32> + 's {
    let range = range_of(n);
    (1..=s.used(range)).filter(move |record| s.row_of(range, *record) == n.row)
}

/// "another open transaction inserted, updated or deleted the row"
fn held(s: &Stored, n: &Numbers) -> bool {
    s.open().into_iter().filter(|other| *other != n.transaction).any(|other| {
        row(s, Region::RowTransaction, n) == other
            || records(s, n)
                .any(|record| s.of_record(Region::TailTransaction, range_of(n), record) == other)
    })
}

/// "the row is deleted .., in the caller's own view": by what is committed, or by the caller.
fn deleted(s: &Stored, n: &Numbers) -> bool {
    let of = |region, record| s.of_record(region, range_of(n), record);
    records(s, n).filter(|record| of(Region::TailKind, *record) >= kind::DELETE).any(|record| {
        let by = of(Region::TailTransaction, record);
        let settled = !s.open().contains(&by);
        by == n.transaction || (settled && of(Region::TailState, record) == state::COMMITTED)
    })
}

/// ".. or its insert aborted"
fn insert_aborted(s: &Stored, n: &Numbers) -> bool {
    let settled = !s.open().contains(&row(s, Region::RowTransaction, n));
    settled && row(s, Region::RowState, n) != state::COMMITTED
}

/// Two records for an update of a column "that no earlier accepted update of that row has set", which
/// the row's mask notes, else one.
pub fn wanted(s: &Stored, call: &Call, n: &Numbers) -> u32 {
    let set = row(s, Region::RowMask, n);
    let new = (0..16).any(|bit| n.mask >> bit & 1 == 1 && set >> bit & 1 == 0);
    match call {
        Call::Update { .. } if new => 2,
        _ => 1,
    }
}

/// What the current page of the range and column holds.
pub fn lineage(s: &Stored, n: &Numbers) -> u32 {
    let place = s.layout.chunk(n.range as usize, n.column as usize);
    s.get(Region::PageLineage, s.get(Region::Current, place) as usize)
}

/// A committed value of the row and column.
#[derive(Clone, Copy)]
struct Value {
    by: u32,
    value: i32,
    stamp: u32,
}

/// "the stamps between from and to, both counted, at which a committed value lies on the other side of the
/// mark from the one before it in that row and column"; "At or above is one side, below the other."
fn crossings(s: &Stored, n: &Numbers) -> Vec<u32> {
    let above = |value: &Value| value.value >= n.mark;
    let values = values(s, n);
    let pairs = values.windows(2).filter(|pair| above(&pair[0]) != above(&pair[1]));
    pairs.map(|pair| pair[1].stamp).filter(|stamp| n.from <= *stamp).collect()
}

/// The values of the row and column that are committed at `to` or before, in the order of the records.
/// The inserted one stands in the record of original values; "each column it set gets its last value", so
/// that of neighbours by one transaction the last counts.
///
/// In a store that calls have written there is one original at most, before all settings, and the stamps
/// rise along a row's records. In any other memory an original is a value wherever it stands, of the row's
/// inserter and with the insert's stamp, and what is later than `to` stands between no two values.
fn values(s: &Stored, n: &Numbers) -> Vec<Value> {
    let mut values: Vec<Value> = Vec::new();
    for record in records(s, n) {
        let of = |region| s.of_record(region, range_of(n), record);
        if of(Region::TailMask) >> n.column & 1 == 0 {
            continue;
        }
        let [by, state, stamp] = match of(Region::TailKind) {
            kind::ORIGINAL => [Region::RowTransaction, Region::RowState, Region::RowStamp]
                .map(|region| row(s, region, n)),
            kind::SETTING => {
                [Region::TailTransaction, Region::TailState, Region::TailStamp].map(of)
            }
            _ => continue,
        };
        if state != state::COMMITTED || stamp > n.to {
            continue;
        }
        if values.last().is_some_and(|last| last.by == by) {
            values.pop();
        }
        let slot = s.layout.slot(range_of(n), record as usize);
        let at = slot * s.layout.columns + n.column as usize;
        values.push(Value { by, value: s.get(Region::TailValues, at) as i32, stamp });
    }
    values
}

/// The row's records from its newest one on, by its links: for a row that calls have written all of them.
fn newest_first<'s>(s: &'s Stored, n: &Numbers) -> impl Iterator<Item = u32> + 's {
    let range = range_of(n);
    let named = |link: u32| (link != 0).then_some(link);
    iter::successors(named(row(s, Region::RowLink, n)), move |record| {
        named(s.of_record(Region::TailLink, range, *record))
    })
}

/// Whether a read at the stamp sees what has this state and stamp: committed, and not later.
fn is_seen(n: &Numbers, state: u32, stamp: u32) -> bool {
    state == state::COMMITTED && stamp <= n.stamp
}

fn record_is_seen(s: &Stored, n: &Numbers, record: u32) -> bool {
    let of = |region| s.of_record(region, range_of(n), record);
    is_seen(n, of(Region::TailState), of(Region::TailStamp))
}

/// "the keeper of the value that 08 would show, or none". 08 shows the last setting of the column that it
/// sees, and else the inserted value, which an original has once an update has set the column: then the
/// row's mask has it. "original values carry the inserter", so that each record has the keeper itself.
fn keeper(s: &Stored, n: &Numbers) -> Answer {
    let of = |region, record| s.of_record(region, range_of(n), record);
    let inserted = is_seen(n, row(s, Region::RowState, n), row(s, Region::RowStamp, n));
    // "A deleted row ends": nothing comes after its delete.
    let newest = newest_first(s, n).next();
    let ended = newest.is_some_and(|newest| {
        of(Region::TailKind, newest) >= kind::DELETE && record_is_seen(s, n, newest)
    });
    if !inserted || ended {
        return Answer::None;
    }
    let has_column = |mask: u32| mask >> n.column & 1 == 1;
    let shown = |record: &u32| match of(Region::TailKind, *record) {
        _ if !has_column(of(Region::TailMask, *record)) => false,
        kind::ORIGINAL => true,
        kind::SETTING => record_is_seen(s, n, *record),
        _ => false,
    };
    let set = has_column(row(s, Region::RowMask, n));
    let record = newest_first(s, n).find(shown).filter(|_| set);
    let word = match record {
        Some(record) => of(Region::TailKeeper, record),
        None => row(s, Region::RowKeeper, n),
    };
    Answer::Number(keeper_in(word))
}
