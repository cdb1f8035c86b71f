//! What a user would pick instead: SQLite, in memory, with the same versions in one table. Its reads
//! are compared with the store's before they are timed. It tests no stored facts and keeps no pages;
//! it parses nothing either, since every statement is prepared once.

use std::ffi::{c_char, c_int, c_void, CStr, CString};
use std::hint::black_box;
use std::ptr::null_mut;
use std::time::Instant;

use reference::{Answer, Call, Form};

use crate::filled::{keeper, Filled, Version, SET};
use crate::plot::Beside;
use crate::report::{ns, Report};
use crate::{named, time, Named, LARGEST, PLACES, PROGRAM};

extern "C" {
    fn sqlite3_libversion() -> *const c_char;
    fn sqlite3_open(name: *const c_char, database: *mut *mut c_void) -> c_int;
    fn sqlite3_close(database: *mut c_void) -> c_int;
    fn sqlite3_prepare_v2(
        database: *mut c_void,
        text: *const c_char,
        length: c_int,
        statement: *mut *mut c_void,
        rest: *mut *const c_char,
    ) -> c_int;
    fn sqlite3_bind_int64(statement: *mut c_void, place: c_int, value: i64) -> c_int;
    fn sqlite3_step(statement: *mut c_void) -> c_int;
    fn sqlite3_column_int64(statement: *mut c_void, place: c_int) -> i64;
    fn sqlite3_reset(statement: *mut c_void) -> c_int;
    fn sqlite3_finalize(statement: *mut c_void) -> c_int;
}

const OK: c_int = 0;
const ROW: c_int = 100;
const DONE: c_int = 101;

/// The key begins with the column, so that a sum goes over one column's versions alone. It ends with
/// the commit's ordinal, which tells the commits of one minute apart: a scan sees those made before it.
const TABLE: &str = "CREATE TABLE versions (col INTEGER, row INTEGER, stamp INTEGER,
    ordinal INTEGER, value INTEGER, keeper INTEGER, PRIMARY KEY (col, row, stamp, ordinal))
    WITHOUT ROWID";
const INSERT: &str = "INSERT OR REPLACE INTO versions VALUES (?, ?, ?, ?, ?, ?)";
const DELETE: &str = "DELETE FROM versions WHERE col = ? AND row = ? AND stamp = ? AND ordinal = ?";
const LATEST: &str = "SELECT value, stamp FROM versions WHERE col = ? AND row = ?
    ORDER BY stamp DESC, ordinal DESC LIMIT 1";
const READ_AT: &str = "SELECT value, stamp FROM versions WHERE col = ? AND row = ? AND stamp <= ?
    ORDER BY stamp DESC, ordinal DESC LIMIT 1";
const KEEPER_AT: &str = "SELECT keeper FROM versions WHERE col = ? AND row = ? AND stamp <= ?
    ORDER BY stamp DESC, ordinal DESC LIMIT 1";
/// With max() SQLite takes the other columns from the row that has the greatest; a later ordinal has no
/// earlier stamp.
const SUM: &str = "SELECT count(*), sum(value) FROM (SELECT value, max(ordinal) FROM versions
    WHERE col = ? AND stamp <= ? AND ordinal <= ? GROUP BY row)";

/// The versions that crossings are found by, in their order: up to `to` (?4), from the minute of the last
/// one before `from` (?3) on.
const VERSIONS: &str = "SELECT stamp, value FROM versions WHERE col = ?1 AND row = ?2 AND stamp <= ?4
    AND stamp >= ifnull((SELECT max(stamp) FROM versions WHERE col = ?1 AND row = ?2 AND stamp < ?3), 0)
    ORDER BY stamp, ordinal";
/// The crossings of a mark (?5) themselves. The first version has none before it, so that the comparison
/// is null.
const CROSSINGS: &str = "SELECT stamp FROM (SELECT stamp,
    (value >= ?5) <> lag(value >= ?5) OVER (ORDER BY stamp, ordinal) AS crossed
    FROM versions WHERE col = ?1 AND row = ?2 AND stamp <= ?4
    AND stamp >= ifnull((SELECT max(stamp) FROM versions WHERE col = ?1 AND row = ?2 AND stamp < ?3), 0))
    WHERE crossed AND stamp >= ?3 ORDER BY stamp";

/// What a move is in SQLite: the versions as they were before there were keepers, a table of those with
/// keepers in a second database, into which each version is copied with keeper 0, and a table to copy them
/// back into after a look for another keeper. The quicker way, ALTER TABLE .. ADD COLUMN, copies nothing,
/// so that there is no second table and the first is gone; it is not compared.
const MOVED: [&str; 4] = [
    "ATTACH ':memory:' AS second",
    "CREATE TABLE fitted (col INTEGER, row INTEGER, stamp INTEGER, ordinal INTEGER, value INTEGER,
        PRIMARY KEY (col, row, stamp, ordinal)) WITHOUT ROWID",
    "CREATE TABLE second.moved (col INTEGER, row INTEGER, stamp INTEGER, ordinal INTEGER,
        value INTEGER, keeper INTEGER, PRIMARY KEY (col, row, stamp, ordinal)) WITHOUT ROWID",
    "CREATE TABLE returned (col INTEGER, row INTEGER, stamp INTEGER, ordinal INTEGER, value INTEGER,
        PRIMARY KEY (col, row, stamp, ordinal)) WITHOUT ROWID",
];
const FIT: &str = "INSERT INTO fitted SELECT col, row, stamp, ordinal, value FROM versions";
const UPGRADE: &str =
    "INSERT INTO second.moved SELECT col, row, stamp, ordinal, value, 0 FROM fitted";
const ANY_KEEPER: &str = "SELECT 1 FROM second.moved WHERE keeper <> 0 LIMIT 1";
const DOWNGRADE: &str =
    "INSERT INTO returned SELECT col, row, stamp, ordinal, value FROM second.moved";
/// How many versions of one table are not in the other, or not alike.
const UNLIKE: &str = "SELECT (SELECT count(*) FROM fitted) - (SELECT count(*) FROM returned)
    + (SELECT count(*) FROM (SELECT * FROM fitted EXCEPT SELECT * FROM returned))";
const MOVED_LATEST: &str = "SELECT value, stamp FROM second.moved WHERE col = ? AND row = ?
    ORDER BY stamp DESC, ordinal DESC LIMIT 1";

struct Database(*mut c_void);

struct Statement(*mut c_void);

impl Database {
    fn open() -> Database {
        let name = c":memory:";
        let mut database = null_mut();
        // SAFETY: the name ends with 0 and the pointer is to a pointer of this frame.
        let result = unsafe { sqlite3_open(name.as_ptr(), &mut database) };
        assert_eq!(result, OK, "SQLite opens no database in memory");
        Database(database)
    }

    fn prepare(&self, text: &str) -> Statement {
        let text = CString::new(text).expect("no 0 in a statement");
        let mut statement = null_mut();
        // SAFETY: the database is open, the text ends with 0, the pointer is of this frame.
        let result =
            unsafe { sqlite3_prepare_v2(self.0, text.as_ptr(), -1, &mut statement, null_mut()) };
        assert_eq!(result, OK, "SQLite does not take {text:?}");
        Statement(statement)
    }

    /// The table with these versions.
    fn with(versions: &[Version]) -> Database {
        let database = Database::open();
        database.prepare(TABLE).run(&[]);
        let insert = database.prepare(INSERT);
        database.prepare("BEGIN").run(&[]);
        for version in versions {
            let Version { row, column, stamp, ordinal, value } = version;
            let [column, row, stamp, ordinal] =
                [column, row, stamp, ordinal].map(|n| i64::from(*n));
            let (value, keeper) = (i64::from(*value), i64::from(version.keeper()));
            insert.run(&[column, row, stamp, ordinal, value, keeper]);
        }
        database.prepare("COMMIT").run(&[]);
        database
    }
}

impl Drop for Database {
    fn drop(&mut self) {
        // SAFETY: its statements are dropped before it, and it is closed once.
        unsafe { sqlite3_close(self.0) };
    }
}

impl Statement {
    /// Runs it with these values; the first row's first two columns, if there is a row.
    fn run(&self, values: &[i64]) -> Option<(i64, i64)> {
        self.bind(values);
        let row = self.step();
        self.reset();
        row
    }

    /// Runs it with these values and hands the first two columns of each row on.
    fn each(&self, values: &[i64], mut take: impl FnMut((i64, i64))) {
        self.bind(values);
        while let Some(row) = self.step() {
            take(row);
        }
        self.reset();
    }

    fn bind(&self, values: &[i64]) {
        for (place, value) in (1..).zip(values) {
            // SAFETY: the statement is prepared and its database open.
            assert_eq!(unsafe { sqlite3_bind_int64(self.0, place, *value) }, OK);
        }
    }

    /// The next row's first two columns, if there is a row.
    fn step(&self) -> Option<(i64, i64)> {
        // SAFETY: the statement is prepared and its database open; a column that is not there is 0.
        unsafe {
            match sqlite3_step(self.0) {
                ROW => Some((sqlite3_column_int64(self.0, 0), sqlite3_column_int64(self.0, 1))),
                DONE => None,
                error => panic!("SQLite answers {error}"),
            }
        }
    }

    fn reset(&self) {
        // SAFETY: the statement is prepared and its database open.
        unsafe { sqlite3_reset(self.0) };
    }
}

impl Drop for Statement {
    fn drop(&mut self) {
        // SAFETY: it was prepared, and is finalized once.
        unsafe { sqlite3_finalize(self.0) };
    }
}

/// Crossings: by the versions in their order, each compared with the one before it here, which is
/// quicker, or by lag() in the statement. What is asked are the statements' numbers: column, row, from,
/// to, mark.
struct Crossings {
    versions: Statement,
    by_lag: Statement,
}

impl Crossings {
    fn of(database: &Database) -> Crossings {
        Crossings { versions: database.prepare(VERSIONS), by_lag: database.prepare(CROSSINGS) }
    }

    fn compared(&self, asked: &[i64; 5], stamps: &mut Vec<u32>) {
        let [column, row, from, to, mark] = *asked;
        stamps.clear();
        let mut before = None;
        self.versions.each(&[column, row, from, to], |(stamp, value)| {
            let above = value >= mark;
            if before.is_some_and(|before| before != above) && stamp >= from {
                stamps.push(stamp as u32);
            }
            before = Some(above);
        });
    }

    fn by_lag(&self, asked: &[i64; 5], stamps: &mut Vec<u32>) {
        stamps.clear();
        self.by_lag.each(asked, |(stamp, _)| stamps.push(stamp as u32));
    }

    /// Both ways list what the store does.
    fn compare(&self, filled: &mut Filled, call: &Call) {
        let (mut one, mut other) = (Vec::new(), Vec::new());
        self.compared(&asked(call), &mut one);
        self.by_lag(&asked(call), &mut other);
        assert_eq!(one, other, "SQLite's two ways, of {call:?}");
        assert_eq!(filled.listed(call), one);
    }

    /// The time of one of them.
    fn time(&self, call: &Call, list: impl Fn(&Crossings, &[i64; 5], &mut Vec<u32>)) -> f64 {
        let (asked, mut stamps) = (asked(call), Vec::new());
        batched(|| list(self, black_box(&asked), &mut stamps))
    }
}

fn asked(call: &Call) -> [i64; 5] {
    match *call {
        Call::Crossings { row, column, mark, from, to, .. } => {
            [column.into(), row.into(), from.into(), to.into(), mark.into()]
        }
        _ => panic!("{call:?} asks for no crossings"),
    }
}

/// How the first two columns of a row that SQLite gives become an answer.
type Answered = fn(Option<(i64, i64)>) -> Answer;

/// The time of a latest read, of a read at, of a keeper at or of crossings, of these by lag() too, in
/// SQLite with a filling's versions.
pub fn times(filled: &Filled, call: &Call) -> Vec<f64> {
    let database = Database::with(&filled.versions);
    let (statement, answered, numbers): (_, Answered, Vec<i64>) = match *call {
        Call::Latest { row, column } => (LATEST, version, vec![column.into(), row.into()]),
        Call::ReadAt { stamp, row, column } => {
            (READ_AT, version, vec![column.into(), row.into(), stamp.into()])
        }
        Call::KeeperAt { stamp, row, column } => {
            (KEEPER_AT, kept_by, vec![column.into(), row.into(), stamp.into()])
        }
        _ => {
            let crossings = Crossings::of(&database);
            crossings.compare(&mut filled.clone(), call);
            return vec![
                crossings.time(call, Crossings::compared),
                crossings.time(call, Crossings::by_lag),
            ];
        }
    };
    let read = database.prepare(statement);
    assert_eq!(filled.clone().call(call), answered(read.run(&numbers)));
    vec![batched(|| read.run(black_box(&numbers)))]
}

/// The answer that a version stands for.
fn version(found: Option<(i64, i64)>) -> Answer {
    let (value, stamp) = found.expect("a version");
    Answer::Version { value: value as i32, stamp: stamp as u32 }
}

/// The answer that a version's keeper stands for.
fn kept_by(found: Option<(i64, i64)>) -> Answer {
    let (keeper, _) = found.expect("a version");
    Answer::Number(keeper as u32)
}

pub fn measure(stores: &[Named], report: &mut Report) -> Vec<Beside> {
    // SAFETY: the text that SQLite gives ends with 0 and stays.
    let version = unsafe { CStr::from_ptr(sqlite3_libversion()) }.to_string_lossy();
    let note = format!("SQLite {version}, in memory, the same versions in one table with the key (column, row, stamp, ordinal), statements prepared: nanoseconds, and how many times the store's they are. Update and commit is begin, update, commit; update by a keeper is begin as, update, commit; SQLite's is BEGIN, INSERT, COMMIT, with the keeper in the version, unknown or known. Crossings are those of one row in all minutes; SQLite gives its versions in their order, and they are compared here. Upgrade and downgrade are the moves into a second memory; SQLite copies the versions from a table without keepers to one with keeper 0 in a second database, and back after a look for another keeper.");
    report.heading("Beside SQLite", &note);
    let mut heads = vec!["full".to_string(), "SQLite".to_string()];
    for (name, _) in stores {
        heads.extend([name.to_string(), "ratio".to_string()]);
    }
    let (mut rows, mut beside) = (Vec::new(), Vec::new());
    for shape in [PROGRAM, LARGEST] {
        let filled = Filled::new(shape, 100);
        let kinds = kinds(&filled).into_iter().map(|kind| (kind, None));
        let moves = moves(&filled).into_iter().map(|(kind, moved)| (kind, Some(moved)));
        for ((name, sqlite, calls), own) in kinds.chain(moves) {
            let calls: Vec<&Call> = calls.iter().collect();
            let filled = own.as_ref().unwrap_or(&filled);
            let times = time::rounds(stores, |store| time::calls(store, filled, &calls));
            let name = format!("{name}, {}", named(&shape));
            let mut row = vec![name.clone(), ns(sqlite)];
            let mut of_each = vec![("SQLite", sqlite)];
            for ((store, _), time) in stores.iter().zip(times) {
                row.extend([ns(time), format!("{:.2}", sqlite / time)]);
                of_each.push((*store, time));
            }
            rows.push(row);
            beside.push(Beside { name, times: of_each });
        }
    }
    report.table(&heads, &rows);
    beside
}

/// What is compared: a name, SQLite's time, and the store's calls.
type Kind = (&'static str, f64, Vec<Call>);

/// The moves, each with the store that it is made on.
fn moves(filled: &Filled) -> Vec<(Kind, Filled)> {
    let database = Database::with(&filled.versions);
    for text in MOVED {
        database.prepare(text).run(&[]);
    }
    database.prepare(FIT).run(&[]);
    let (upgrade, downgrade) = (database.prepare(UPGRADE), database.prepare(DOWNGRADE));
    let any_keeper = database.prepare(ANY_KEEPER);
    let (forget, forget_back) =
        (database.prepare("DELETE FROM second.moved"), database.prepare("DELETE FROM returned"));

    let there = time::least(|| {
        forget.run(&[]);
        let start = Instant::now();
        upgrade.run(&[]);
        start.elapsed().as_nanos() as f64
    });
    let back = time::least(|| {
        forget_back.run(&[]);
        let start = Instant::now();
        assert_eq!(any_keeper.run(&[]), None);
        downgrade.run(&[]);
        start.elapsed().as_nanos() as f64
    });
    // What was moved reads as the moved store does, and what was moved back is what was there.
    let (row, column) = (filled.rows / 2, 0);
    let (first, call) = filled.clone().before_move(Form::Newest);
    let mut newest = first.clone().moved(&call);
    let latest = database.prepare(MOVED_LATEST).run(&[i64::from(column), row.into()]);
    assert_eq!(newest.call(&Call::Latest { row, column }), version(latest));
    assert_eq!(database.prepare(UNLIKE).run(&[]), Some((0, 0)));
    vec![
        (("upgrade", there, vec![call]), first),
        (("downgrade", back, vec![Call::Downgrade]), newest),
    ]
}

/// The calls.
fn kinds(filled: &Filled) -> Vec<Kind> {
    let database = Database::with(&filled.versions);
    let (begin, commit) = (database.prepare("BEGIN"), database.prepare("COMMIT"));
    let (insert, delete) = (database.prepare(INSERT), database.prepare(DELETE));
    let (latest, read_at) = (database.prepare(LATEST), database.prepare(READ_AT));
    let (keeper_at, sum) = (database.prepare(KEEPER_AT), database.prepare(SUM));
    let crossings = Crossings::of(&database);

    let (row, column, half) = (filled.rows / 2, 0, filled.last / 2);
    let calls = [
        Call::Latest { row, column },
        Call::ReadAt { stamp: half, row, column },
        Call::KeeperAt { stamp: half, row, column },
        Call::Sum { scan: filled.scan, column },
    ];
    let answers = calls.each_ref().map(|call| filled.clone().call(call));
    let [r, s, last, commits] = [row, half, filled.last, filled.commits].map(i64::from);
    assert_eq!(answers[0], version(latest.run(&[0, r])));
    assert_eq!(answers[1], version(read_at.run(&[0, r, s])));
    assert_eq!(answers[2], kept_by(keeper_at.run(&[0, r, s])));
    let summed = || {
        let (count, sum) = sum.run(&[0, last, commits]).expect("a sum");
        Answer::Sum { count: count as u32, sum }
    };
    assert_eq!(answers[3], summed());
    // After one more commit in the last minute, which sets row 0: the latest is new and its keeper's, the
    // scan's sum old, and the minute has a crossing more.
    let (mut later, row_0) = (filled.clone(), Call::Latest { row: 0, column });
    later.call(&Call::Commit { transaction: filled.open, stamp: filled.last });
    let next_keeper = keeper(filled.commits + 1);
    insert.run(&[0, 0, last, commits + 1, SET.into(), next_keeper.into()]);
    assert_eq!(later.call(&row_0), version(latest.run(&[0, 0])));
    assert_ne!(later.call(&row_0), filled.clone().call(&row_0));
    let kept = Call::KeeperAt { stamp: filled.last, row: 0, column };
    assert_eq!(later.call(&kept), Answer::Number(next_keeper.into()));
    assert_eq!(later.call(&kept), kept_by(keeper_at.run(&[0, 0, last])));
    let (to, places) = (filled.last, PLACES);
    let crossed = Call::Crossings { row: 0, column, mark: SET, from: to, to, places };
    crossings.compare(&mut later, &crossed);
    assert_ne!(later.listed(&crossed), filled.clone().listed(&crossed));
    assert_eq!(later.call(&calls[3]), summed());
    assert_eq!(answers[3], summed());
    delete.run(&[0, 0, last, commits + 1]);

    let crossings_call = filled.crossings(row, column, PLACES);
    crossings.compare(&mut filled.clone(), &crossings_call);
    let compared = crossings.time(&crossings_call, Crossings::compared);

    let [latest_call, read_at_call, keeper_at_call, sum_call] = calls;
    let transaction = filled.open + 1;
    // Row 0 is held by the open transaction.
    let update_by = |begin| {
        let values = vec![1; filled.shape.columns as usize];
        let update = Call::Update { transaction, row: 1, mask: 1, values };
        vec![begin, update, Call::Commit { transaction, stamp: filled.last + 1 }]
    };
    let next = last + 1;
    let updated_by = |keeper: u16| {
        time::least(|| {
            let start = Instant::now();
            begin.run(&[]);
            insert.run(black_box(&[0, 1, next, commits + 1, 1, keeper.into()]));
            commit.run(&[]);
            let time = start.elapsed().as_nanos() as f64;
            delete.run(&[0, 1, next, commits + 1]);
            time
        })
    };
    let begin_as = Call::BeginAs { keeper: next_keeper };
    vec![
        ("latest", batched(|| latest.run(&[0, r])), vec![latest_call]),
        ("read at", batched(|| read_at.run(&[0, r, s])), vec![read_at_call]),
        ("keeper at", batched(|| keeper_at.run(&[0, r, s])), vec![keeper_at_call]),
        ("sum", batched(|| sum.run(&[0, last, commits])), vec![sum_call]),
        ("crossings", compared, vec![crossings_call]),
        ("update and commit", updated_by(0), update_by(Call::Begin)),
        ("update by a keeper", updated_by(next_keeper), update_by(begin_as)),
    ]
}

fn batched<T>(mut run: impl FnMut() -> T) -> f64 {
    time::least(|| {
        let start = Instant::now();
        for _ in 0..time::BATCH {
            black_box(run());
        }
        start.elapsed().as_nanos() as f64 / f64::from(time::BATCH)
    })
}
