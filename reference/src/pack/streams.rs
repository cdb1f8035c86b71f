//! Which streams a pack has.

use super::{Kind, Record, NO_PLACE};
use crate::call::Call;
use crate::command;
use crate::generate;
use crate::history::{NUMBERS, OPEN_SCANS, OPEN_TRANSACTIONS};
use crate::program::SHAPE_BYTES;
use crate::text;

/// The streams of crate replay.
pub fn all() -> Vec<Record> {
    let mut pack = Pack { records: short() };
    pack.series();
    pack.records
}

/// All but the number series, for code that runs slowly.
pub fn short() -> Vec<Record> {
    let mut pack = Pack { records: Vec::new() };
    pack.by_hand();
    pack.shapes();
    pack.cuts();
    pack.unknown_bytes();
    pack.random(10, 2);
    pack.records
}

/// The smallest shape.
const SMALLEST: [u8; SHAPE_BYTES] = [1, 1, 1, 0, 0, 0];

struct Pack {
    records: Vec<Record>,
}

impl Pack {
    /// Begins a stream: its title and its shape, or less than one.
    fn stream(&mut self, title: &str, shape: &[u8]) {
        self.records.push(Record::once(Kind::Title, title.as_bytes()));
        self.records.push(Record::once(Kind::Shape, shape));
    }

    /// Adds commands to the stream.
    fn commands(&mut self, kind: Kind, bytes: &[u8]) {
        if !bytes.is_empty() {
            self.records.push(Record::once(kind, bytes));
        }
    }

    /// Adds calls to a stream of one column.
    fn calls(&mut self, calls: &[Call]) {
        self.commands(Kind::Commands, &bytes_of(calls));
    }

    /// A stream from its bytes.
    fn whole(&mut self, title: &str, kind: Kind, bytes: &[u8]) {
        let (shape, commands) = bytes.split_at(bytes.len().min(SHAPE_BYTES));
        self.stream(title, shape);
        self.commands(kind, commands);
    }

    /// The worked example and the streams of examples/streams.txt.
    fn by_hand(&mut self) {
        let worked = text::encode(include_str!("../../examples/worked.txt"));
        self.whole("worked example", Kind::Commands, &worked.expect("the lines are right"));
        let file = include_str!("../../examples/streams.txt");
        for stream in file.split("\nstream ").skip(1) {
            let (title, lines) = stream.split_once('\n').expect("a title is a line");
            let bytes = text::encode(&repeated(lines)).expect("the lines are right");
            self.whole(title, Kind::Commands, &bytes);
        }
    }

    /// Every measure at both ends of what is lent, and outside; the shape cut at every place.
    fn shapes(&mut self) {
        for cut in 0..SHAPE_BYTES {
            self.stream(&format!("shape cut after {cut}"), &SMALLEST[..cut]);
        }
        let shapes = [
            [1u16, 1, 1, 0],
            [4, 1, 1, 0],
            [1, 4, 1, 0],
            [1, 1, 64, 0],
            [1, 1, 1, 16],
            [4, 4, 64, 16],
            [0, 1, 1, 0],
            [5, 1, 1, 0],
            [17, 1, 1, 0],
            [255, 1, 1, 0],
            [1, 0, 1, 0],
            [1, 5, 1, 0],
            [1, 17, 1, 0],
            [1, 255, 1, 0],
            [1, 1, 0, 0],
            [1, 1, 65, 0],
            [1, 1, 513, 0],
            [1, 1, 65_535, 0],
            [1, 1, 1, 17],
            [1, 1, 1, 257],
            [1, 1, 1, 65_535],
            [0, 0, 0, 0],
            [255, 255, 65_535, 65_535],
        ];
        for [columns, ranges, capacity, spares] in shapes {
            let line = format!("shape {columns} {ranges} {capacity} {spares}");
            let bytes =
                text::encode(&format!("{line}\nbegin\nrelease")).expect("the line is right");
            self.whole(&line, Kind::Commands, &bytes);
        }
    }

    /// Every command cut at every place, for every count of columns.
    fn cuts(&mut self) {
        for columns in 1..=4 {
            let mut shape = SMALLEST;
            shape[0] = columns;
            for byte in command::COMMANDS {
                let fields = command::operands(byte, columns.into()).expect("the byte is known");
                let whole = vec![byte; 1 + command::width(&fields)];
                for cut in 1..whole.len() {
                    let title = format!("{byte:02X} of {columns} columns cut after {cut}");
                    self.stream(&title, &shape);
                    self.commands(Kind::Commands, &whole[..cut]);
                }
            }
        }
    }

    /// Every byte that is no command, each after a begin and with bytes behind it.
    fn unknown_bytes(&mut self) {
        for byte in (0x00..=0xFF).filter(|byte| !command::COMMANDS.contains(byte)) {
            self.stream(&format!("byte {byte:02X}"), &SMALLEST);
            self.commands(Kind::Commands, &[0x01, byte, 0x01, 0x0F]);
        }
    }

    /// The number series run out. Each turn of a series is two commands, and the second names the
    /// number that the first gave.
    fn series(&mut self) {
        let greatest = NUMBERS as u32;
        let begin = [0x01];
        let abort = [0x06, 1, 0];
        let commit = [0x05, 1, 0, 1, 0, 0, 0];
        let open = [0x0A, 0, 0, 0, 0];
        let close = [0x0D, 1, 0];
        let after = |number: u32| {
            let (begin_as, first) =
                (Call::BeginAs { keeper: 7 }, Call::Abort { transaction: number });
            let open = Call::OpenScan { stamp: 0 };
            [Call::Begin, begin_as.clone(), first, begin_as.clone(), begin_as, Call::Begin, open]
        };
        self.number_series("begins, each aborted", NUMBERS, &begin, &abort, &[1]);
        self.calls(&after(greatest));
        self.number_series("begins, each committed", NUMBERS, &begin, &commit, &[1, 3]);
        self.calls(&after(greatest));
        // With all places taken 15 is tested before 14; with one number left 14 is met first.
        for left in [0, 1] {
            let turns = NUMBERS - OPEN_TRANSACTIONS - left;
            self.number_series("begins, each aborted", turns, &begin, &abort, &[1]);
            self.calls(&vec![Call::Begin; OPEN_TRANSACTIONS + 1]);
            self.calls(&after(turns as u32 + 1));
        }
        let after = |number: u32| {
            let (open, first) = (Call::OpenScan { stamp: 0 }, Call::Close { scan: number });
            let sum = Call::Sum { scan: greatest, column: 0 };
            [open.clone(), first, open.clone(), open, sum, Call::Begin]
        };
        self.number_series("scans, each closed", NUMBERS, &open, &close, &[1]);
        self.calls(&after(greatest));
        for left in [0, 1] {
            let turns = NUMBERS - OPEN_SCANS - left;
            self.number_series("scans, each closed", turns, &open, &close, &[1]);
            self.calls(&vec![Call::OpenScan { stamp: 0 }; OPEN_SCANS + 1]);
            self.calls(&after(turns as u32 + 1));
        }
        self.one_minute();
    }

    /// As many commits as there can be, all in one minute; one scan leaves out the last of them.
    fn one_minute(&mut self) {
        let [first, next, last] = [1, NUMBERS as u32 - 1, NUMBERS as u32];
        let stamp = 0;
        let setting = |transaction: u32, value: i32| {
            let update = Call::Update { transaction, row: 0, mask: 1, values: vec![value] };
            [Call::Begin, update, Call::Commit { transaction, stamp }, Call::OpenScan { stamp }]
        };
        self.stream(&format!("{NUMBERS} commits in one minute"), &[1, 1, 4, 0, 0, 0]);
        self.calls(&[
            Call::Begin,
            Call::Insert { transaction: first, values: vec![5] },
            Call::Commit { transaction: first, stamp },
        ]);
        let turn = bytes_of(&[Call::Begin, Call::Commit { transaction: first + 1, stamp }]);
        self.records.push(Record {
            kind: Kind::Folded,
            times: (next - first - 1) as u16,
            places: [2, NO_PLACE],
            bytes: turn,
        });
        self.calls(&setting(next, 6));
        self.calls(&setting(last, 7));
        for scan in [1, 2] {
            self.calls(&[
                Call::ScanRead { scan, row: 0, column: 0 },
                Call::Sum { scan, column: 0 },
            ]);
        }
        self.calls(&[Call::Latest { row: 0, column: 0 }, Call::Begin]);
    }

    /// A stream that gives so many numbers; `places` are those of the numbers in `second`.
    fn number_series(
        &mut self,
        what: &str,
        turns: usize,
        first: &[u8],
        second: &[u8],
        places: &[usize],
    ) {
        self.stream(&format!("{turns} {what}"), &SMALLEST);
        let place = |n: usize| places.get(n).map_or(NO_PLACE, |place| (first.len() + place) as u16);
        let times = u16::try_from(turns).expect("the numbers have two bytes");
        let bytes = [first, second].concat();
        self.records.push(Record {
            kind: Kind::Folded,
            times,
            places: [place(0), place(1)],
            bytes,
        });
    }

    /// So many random streams of each workload, the first of them with their lines.
    fn random(&mut self, count: usize, with_lines: usize) {
        for workload in 0..generate::WORKLOADS {
            let seeds = (workload..).step_by(generate::WORKLOADS as usize);
            let seeds = seeds.filter(|seed| !generate::is_long(*seed));
            for (place, seed) in seeds.take(count).enumerate() {
                let kind = if place < with_lines { Kind::Commands } else { Kind::Folded };
                self.whole(&format!("random {seed}"), kind, &generate::stream(seed));
            }
        }
    }
}

/// Readable lines with `times N LINE` written out.
fn repeated(lines: &str) -> String {
    let mut all = String::new();
    for line in lines.lines() {
        let (times, line) = match line.strip_prefix("times ").and_then(|rest| rest.split_once(' '))
        {
            Some((times, line)) => (times.parse().expect("times has a number"), line),
            None => (1, line),
        };
        for _ in 0..times {
            all += line;
            all.push('\n');
        }
    }
    all
}

/// The command bytes of calls on a store of one column.
fn bytes_of(calls: &[Call]) -> Vec<u8> {
    let mut bytes = Vec::new();
    for call in calls {
        assert!(command::write(&mut bytes, call, 1), "a call fits the command bytes: {call:?}");
    }
    bytes
}
