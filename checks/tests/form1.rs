//! The memories in stored form 1 of the folder form1/: that they are what their texts say; that the calls which
//! work on form 1 answer there as the plain history of the texts, and the others 2; that they are moved to the
//! newest form, worked on there and moved back, byte for byte what the same calls leave on form 1; and that a
//! keeper closes the way back. In longer memory too, since bytes past the need are no reason to take it for a
//! newer form.

use std::fs;
use std::path::{Path, PathBuf};

use checks::memory::{columns_word, header, put_word, word, words};
use checks::memory::{Layout, ScanEntry, SCANS, SCAN_WORDS};
use checks::operands::call_for;
use checks::store::told;
use checks::{facts, first, moves, right_stores, Store};
use reference::random::Random;
use reference::{command, program, text, Answer, Call, Form, History, Shape};

/// One of the memories with its list, and the text that tells the calls.
struct Kept {
    name: String,
    memory: Vec<u8>,
    list: Vec<ScanEntry>,
    text: String,
}

/// All of them, by their names.
fn kept() -> Vec<Kept> {
    let folder = Path::new(env!("CARGO_MANIFEST_DIR")).join("form1");
    let files = fs::read_dir(folder).expect("the folder");
    let paths = files.map(|file| file.expect("a file").path());
    let mut texts: Vec<PathBuf> =
        paths.filter(|path| path.extension().is_some_and(|ending| ending == "txt")).collect();
    texts.sort();
    texts.iter().map(|path| read(path)).collect()
}

fn read(path: &Path) -> Kept {
    let bytes = |ending| fs::read(path.with_extension(ending)).expect("a file for each text");
    let numbers: Vec<u32> = words(&bytes("scans")).collect();
    let entry = |entry: &[u32]| match *entry {
        [number, stamp, merges, commits] => ScanEntry { number, stamp, merges, commits },
        _ => panic!("an entry has four words"),
    };
    Kept {
        name: path.file_stem().expect("a name").to_string_lossy().into_owned(),
        memory: bytes("memory"),
        list: numbers.chunks(SCAN_WORDS).map(entry).collect(),
        text: fs::read_to_string(path).expect("a text"),
    }
}

/// The stores that must be right, with both ways to the compiled library where it is linked.
fn stores() -> Vec<Box<dyn Store>> {
    #[allow(unused_mut)]
    let mut stores = right_stores();
    #[cfg(feature = "library")]
    stores.push(Box::new(checks::library::Wrapper));
    stores
}

impl Kept {
    /// The shape and the calls of the text.
    fn told(&self) -> (Shape, Vec<Call>) {
        let bytes = text::encode(&self.text).expect("lines that are read");
        let (shape, mut rest) = bytes.split_first_chunk().expect("a shape");
        let shape = program::shape(shape);
        let mut calls = Vec::new();
        while let Some((call, after)) = command::first(rest, shape.columns as usize) {
            calls.push(call);
            rest = after;
        }
        assert!(rest.is_empty(), "{} ends inside a command", self.name);
        (shape, calls)
    }

    /// The words that were put in the unused ones of the header after making.
    fn unused(&self) -> Vec<u32> {
        let start = "# After making, words 10 to 15 of the header are ";
        let line = self.text.lines().find_map(|line| line.strip_prefix(start));
        let numbers = line.map_or("0 0 0 0 0 0", |line| line.trim_end_matches('.'));
        numbers.split(' ').map(|number| number.parse().expect("a number")).collect()
    }
}

/// A memory with its list in which a store stands, and the plain history of all that was called on it.
#[derive(Clone)]
struct Site {
    memory: Vec<u8>,
    list: Vec<ScanEntry>,
    history: History,
}

/// What stands past the need of a memory that is lent.
const PAST: u8 = 0xC3;
/// What a second memory holds before a move.
const HELD: u8 = 0x5A;

impl Site {
    /// A kept memory, lent with so many bytes more.
    fn of(kept: &Kept, more: usize) -> Site {
        let (shape, calls) = kept.told();
        let mut history = History::new(shape);
        for call in &calls {
            let answer = history.call(call);
            assert!(!answer.is_refused(), "{}, {call:?}: {answer:?}", kept.name);
        }
        let memory = [&kept.memory[..], &vec![PAST; more]].concat();
        Site { memory, list: kept.list.clone(), history }
    }

    /// Makes a call: it answers as the plain history, and so is what it lists.
    fn call(&mut self, store: &dyn Store, call: &Call) -> Answer {
        let places = match call {
            Call::Crossings { places, .. } => *places as usize,
            _ => 0,
        };
        let (due, listed) = told(self.history.call(call));
        let mut stamps = vec![7; places];
        let answer = store.call_with(&mut self.memory, &mut self.list, &mut stamps, call);
        assert_eq!(answer, due, "{call:?}");
        let mut left = listed.clone();
        left.resize(places, 7);
        assert_eq!(stamps, left, "{call:?}");
        answer
    }

    /// Moves the store into a second memory that is longer than it needs by so much: what is left there is
    /// judged by the words, and what is moved from stays. The store is then in the second memory.
    fn moved(&self, store: &dyn Store, call: &Call, more: usize) -> Site {
        let mut after = self.clone();
        assert_eq!(after.history.call(call), Answer::Done);
        let need = moves::need(&self.memory, call).expect("a move of a good memory");
        let mut second = vec![HELD; need + more];
        let answer = store.move_with(&mut after.memory, &mut after.list, &mut second, call);
        assert_eq!(answer, Answer::Done, "{call:?}");
        assert!(after.memory == self.memory, "the memory moved from keeps its bytes");
        assert_eq!(after.list, self.list);
        let form = call.moves_to().expect("a move");
        moves::judge(&self.memory, &vec![HELD; need + more], &second, form).expect("as it is due");
        assert!(second[need..].iter().all(|byte| *byte == HELD), "bytes beyond the need");
        assert_eq!(facts::failing(&second, &self.list), None);
        after.memory = second;
        after
    }

    /// A move, or another call, is refused with this number and changes nothing.
    fn refused(&self, store: &dyn Store, call: &Call, length: usize, number: u8) {
        let (mut memory, mut list) = (self.memory.clone(), self.list.clone());
        let (mut second, mut stamps) = (vec![HELD; length], [7; 4]);
        let answer = match call.moves_to() {
            Some(_) => store.move_with(&mut memory, &mut list, &mut second, call),
            None => store.call_with(&mut memory, &mut list, &mut stamps, call),
        };
        assert_eq!(answer, Answer::Refused(number), "{call:?}");
        assert!(memory == self.memory && list == self.list, "{call:?} changed something");
        assert!(second.iter().all(|byte| *byte == HELD), "{call:?} changed the second memory");
        assert_eq!(stamps, [7; 4], "{call:?}");
    }

    fn need(&self) -> usize {
        Layout::stored(&self.memory).expect("measures").need()
    }

    /// The bytes that a move needs in the second memory.
    fn second_need(&self, call: &Call) -> usize {
        moves::need(&self.memory, call).expect("measures")
    }
}

/// The commands that work on form 1.
const ON_FORM_1: std::ops::RangeInclusive<u8> = 0x01..=0x12;

/// Shows each store each memory, in its bytes and in longer ones.
fn each(look: impl Fn(&dyn Store, &Site)) {
    for kept in kept() {
        for store in stores() {
            for more in [0, 6000] {
                look(store.as_ref(), &Site::of(&kept, more));
            }
        }
    }
}

#[test]
fn each_has_the_bytes_that_form_1_needs() {
    let all = kept();
    let names: Vec<&str> = all.iter().map(|kept| kept.name.as_str()).collect();
    assert_eq!(names, ["freed", "full", "made", "minutes", "open", "ranges", "waiting"]);
    for kept in &all {
        let (shape, _) = kept.told();
        assert_eq!(word(&kept.memory, header::COLUMNS), columns_word(shape.columns, 1));
        let layout = Layout::in_form(&shape, Form::First);
        assert_eq!(kept.memory.len(), layout.need(), "{}", kept.name);
        assert!(kept.memory.len() < Layout::of(&shape).need(), "{}", kept.name);
        assert_eq!(kept.list.len(), SCANS, "{}", kept.name);
    }
}

/// From what form 1's making left, and with the words that were put in the unused ones, the calls of the text
/// leave the memory again, on form 1 itself and on a store made now, but for the form and for the words that
/// form 1 lacks.
#[test]
fn each_is_what_its_calls_left() {
    for kept in kept() {
        let (shape, calls) = kept.told();
        for (store, form) in stores().iter().flat_map(|store| Form::ALL.map(|form| (store, form))) {
            let mut memory = vec![0xFF; Layout::in_form(&shape, form).need()];
            let mut list = [ScanEntry { number: 9, stamp: 9, merges: 9, commits: 9 }; SCANS];
            match form {
                Form::First => first::make(&mut memory, &mut list, &shape),
                Form::Newest => {
                    assert_eq!(store.make(&mut memory, &mut list, &shape), Answer::Done);
                }
            }
            let unused = kept.unused();
            assert_eq!(unused.len(), header::WORDS - 10, "{}", kept.name);
            for (at, number) in (10..).zip(unused) {
                put_word(&mut memory, at, number);
            }
            for call in &calls {
                let answer = store.call(&mut memory, &mut list, call);
                assert!(!answer.is_refused(), "{}, {call:?}: {answer:?}", kept.name);
            }
            put_word(&mut memory, header::COLUMNS, columns_word(shape.columns, 1));
            assert!(memory[..kept.memory.len()] == kept.memory, "{}, {form:?}", kept.name);
            assert_eq!(list[..], kept.list, "{}, {form:?}", kept.name);
        }
    }
}

/// Form 1's making as the library made it, byte for byte.
#[test]
fn the_making_of_form_1_is_the_kept_one() {
    let made = kept().into_iter().find(|kept| kept.name == "made").expect("the memory just made");
    let mut memory = vec![0xFF; made.memory.len() + 5];
    let mut list = [ScanEntry { number: 9, stamp: 9, merges: 9, commits: 9 }; SCANS];
    first::make(&mut memory, &mut list, &made.told().0);
    assert!(memory == [&made.memory[..], &[0xFF; 5]].concat());
    assert_eq!(list[..], made.list);
}

/// Each call that works on form 1, with numbers that fit the memory and some with any others: each on the memory
/// itself, and many one after the other. They are answered on form 1, which stays the form.
#[test]
fn the_calls_of_form_1_answer_as_the_plain_history() {
    each(|store, site| {
        let mut random = Random::new(1);
        let mut accepted = 0;
        for command in ON_FORM_1.flat_map(|command| [command; 6]) {
            let call = call_for(command, &site.memory, &site.list, &mut random);
            accepted += u32::from(!site.clone().call(store, &call).is_refused());
        }
        assert!(accepted > 20, "{accepted}");
        let mut worked = site.clone();
        for command in ON_FORM_1.flat_map(|command| [command; 12]) {
            let call = call_for(command, &worked.memory, &worked.list, &mut random);
            worked.call(store, &call);
        }
        assert_eq!(store.check(&worked.memory, &worked.list), Answer::Number(1));
        assert_eq!(facts::failing(&worked.memory, &worked.list), None);
        assert!(worked.memory[site.need()..] == site.memory[site.need()..], "past the need");
    });
}

#[test]
fn the_calls_of_the_newest_form_answer_2_and_change_nothing() {
    each(|store, site| {
        let mut random = Random::new(2);
        assert_eq!(store.check(&site.memory, &site.list), Answer::Number(1));
        for command in [0x13, 0x14].into_iter().flat_map(|command| [command; 8]) {
            let call = call_for(command, &site.memory, &site.list, &mut random);
            site.refused(store, &call, 0, 2);
        }
        let back = Call::Downgrade;
        for length in [0, site.need() - 1, site.need(), site.need() + 9000] {
            site.refused(store, &back, length, 2);
        }
    });
}

#[test]
fn each_is_moved_there_and_back_with_the_same_bytes() {
    each(|store, site| {
        let moved = site.moved(store, &Call::Upgrade, 37);
        assert_eq!(store.check(&moved.memory, &moved.list), Answer::Number(2));
        let back = moved.moved(store, &Call::Downgrade, 41);
        assert_eq!(store.check(&back.memory, &back.list), Answer::Number(1));
        assert!(back.memory[..site.need()] == site.memory[..site.need()], "the needed bytes");
        assert_eq!(back.list, site.list);
        // And the other way round: the newest memory there and back again.
        let again = back.moved(store, &Call::Upgrade, 0);
        assert!(moved.memory[..again.memory.len()] == again.memory);
    });
}

/// In the second memory one byte less than it needs is too little, and just as many are enough.
#[test]
fn too_short_a_second_memory_answers_2() {
    each(|store, site| {
        for (site, call) in
            [(site.clone(), Call::Upgrade), (site.moved(store, &Call::Upgrade, 0), Call::Downgrade)]
        {
            let need = site.second_need(&call);
            for length in [0, 15, need / 2, need - 4, need - 1] {
                site.refused(store, &call, length, 2);
            }
            site.moved(store, &call, 0);
        }
    });
}

/// A move works on its own form alone.
#[test]
fn a_moved_memory_is_not_moved_up_again() {
    each(|store, site| {
        let moved = site.moved(store, &Call::Upgrade, 0);
        moved.refused(store, &Call::Upgrade, moved.memory.len() + 100, 2);
    });
}

/// The same calls on form 1 and on the memory moved to the newest form: they answer the same, as the plain
/// history has it, and the way back leads to the bytes that form 1 has. Ways back and up between the calls
/// change nothing of that.
#[test]
fn each_is_moved_worked_on_and_moved_back() {
    each(|store, site| {
        for seed in 0..4 {
            let mut random = Random::new(seed);
            let mut stayed = site.clone();
            let mut moved = site.moved(store, &Call::Upgrade, 0);
            let (mut accepted, mut changed) = (0, 0);
            for _ in 0..120 {
                let command =
                    random.between((*ON_FORM_1.start()).into(), (*ON_FORM_1.end()).into());
                let call = call_for(command as u8, &stayed.memory, &stayed.list, &mut random);
                let before = stayed.memory.clone();
                accepted += u32::from(!stayed.call(store, &call).is_refused());
                changed += u32::from(stayed.memory != before);
                moved.call(store, &call);
                if random.percent(5) {
                    moved = moved.moved(store, &Call::Downgrade, random.below(9) as usize);
                    moved.moved(store, &Call::Upgrade, 0);
                    moved = moved.moved(store, &Call::Upgrade, random.below(9) as usize);
                }
            }
            assert!(accepted > 30 && changed > 10, "{accepted}, {changed}");
            let back = moved.moved(store, &Call::Downgrade, 23);
            let need = stayed.need();
            assert!(back.memory[..need] == stayed.memory[..need], "seed {seed}");
            assert_eq!(back.list, stayed.list, "seed {seed}");
            assert_eq!(back.history, stayed.history, "seed {seed}");
        }
    });
}

/// What was there before has keeper 0, and a begin with keeper 0 is as one without: the way back stays open.
/// While a transaction with keeper 5 is open it is closed, and open again after its end if it has changed
/// nothing; by a row of its own it is closed for good.
#[test]
fn a_keeper_closes_the_way_back() {
    each(|store, site| {
        let mut moved = site.moved(store, &Call::Upgrade, 0);
        let stamp = moved.history.last_stamp();
        for row in 0..moved.history.rows_given() {
            let keeper = moved.call(store, &Call::KeeperAt { stamp, row, column: 0 });
            assert!(matches!(keeper, Answer::Number(0) | Answer::None), "row {row}: {keeper:?}");
        }
        // A place for the new transaction.
        if let [oldest, .., _] = *moved.history.open_transactions() {
            assert_eq!(moved.call(store, &Call::Abort { transaction: oldest }), Answer::Done);
        }
        let begun = |moved: &mut Site, keeper| match moved.call(store, &Call::BeginAs { keeper }) {
            Answer::Number(transaction) => transaction,
            answer => panic!("{answer:?}"),
        };
        let transaction = begun(&mut moved, 0);
        let row = moved.call(store, &Call::Insert { transaction, values: vec![-3, 4, 5] });
        assert!(matches!(row, Answer::Number(_)), "{row:?}");
        moved.call(store, &Call::Commit { transaction, stamp });
        moved.moved(store, &Call::Downgrade, 3);

        let length = moved.second_need(&Call::Downgrade);
        let transaction = begun(&mut moved, 5);
        assert_eq!(moved.history.call(&Call::Downgrade), Answer::Refused(22));
        moved.refused(store, &Call::Downgrade, length, 22);
        moved.refused(store, &Call::Downgrade, length + 77, 22);
        moved.refused(store, &Call::Downgrade, length - 1, 2);
        moved.call(store, &Call::Abort { transaction });
        moved.moved(store, &Call::Downgrade, 0);

        let transaction = begun(&mut moved, 5);
        let row = match moved.call(store, &Call::Insert { transaction, values: vec![6, 7, 8] }) {
            Answer::Number(row) => row,
            answer => panic!("{answer:?}"),
        };
        moved.refused(store, &Call::Downgrade, length, 22);
        moved.call(store, &Call::Commit { transaction, stamp });
        let keeper = moved.call(store, &Call::KeeperAt { stamp, row, column: 0 });
        assert_eq!(keeper, Answer::Number(5));
        assert_eq!(moved.history.call(&Call::Downgrade), Answer::Refused(22));
        moved.refused(store, &Call::Downgrade, length, 22);
    });
}
