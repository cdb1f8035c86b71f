//! Counts what the generated streams meet: how often each answer came, for each command, how often
//! each situation of a single-cell read in which a wrong stamp shows, how many scans were open at the
//! calls that scans bear on, which stamps the commits had, and how often each situation in which the
//! commits of one minute show, or in which a wrong list of crossings or a wrong keeper does.

use std::collections::{BTreeMap, BTreeSet};
use std::fmt;

use crate::call::Call;
use crate::command;
use crate::generate;
use crate::history::{History, InCrossings, InKeepers, InMinute, Situation, OPEN_SCANS};
use crate::program;
use crate::text::NAMES;

/// The counts of many streams, from the lines that the program wrote for them, and from the lists
/// before each read.
#[derive(Default)]
pub struct Survey {
    pub streams: u64,
    /// The long streams in which a number series runs out, and the calls in them.
    pub long_streams: u64,
    pub long_calls: u64,
    /// Lines by the command's word and the kind of answer, without those of the long streams.
    counts: BTreeMap<(String, String), u64>,
    /// Refusals by number, those of the long streams included.
    refusals: BTreeMap<u8, u64>,
    /// Single-cell reads by their situation and command byte, and the streams that have one.
    situations: BTreeMap<(Situation, u8), u64>,
    situation_streams: BTreeMap<Situation, u64>,
    /// Calls by the scans open before them, the command byte and the refusal, and the streams that
    /// have a call with so many scans open; without the long streams.
    by_scans: BTreeMap<(usize, u8, Option<u8>), u64>,
    by_scans_streams: BTreeMap<usize, u64>,
    /// Commits by their stamp, and the streams that have one; without the long streams.
    commits: BTreeMap<CommitStamp, u64>,
    commit_streams: BTreeMap<CommitStamp, u64>,
    /// Single-cell reads and sums by their situation in a minute and command byte, and the streams
    /// that have one.
    in_minute: BTreeMap<(InMinute, u8), u64>,
    in_minute_streams: BTreeMap<InMinute, u64>,
    /// Calls for crossings by their situation, and the streams that have one.
    in_crossings: BTreeMap<InCrossings, u64>,
    in_crossings_streams: BTreeMap<InCrossings, u64>,
    /// Calls for a keeper by their situation, and the streams that have one.
    in_keepers: BTreeMap<InKeepers, u64>,
    in_keepers_streams: BTreeMap<InKeepers, u64>,
}

/// The stamp of a commit by an open transaction.
#[derive(Clone, Copy, Debug, PartialEq, Eq, PartialOrd, Ord)]
pub enum CommitStamp {
    /// Later than the last commit's.
    Later,
    /// The last commit's again.
    Again,
    /// 0 in a new store.
    NewStore,
    /// Earlier than the last commit's: refused.
    Earlier,
}

impl CommitStamp {
    const ALL: [CommitStamp; 4] =
        [CommitStamp::Later, CommitStamp::Again, CommitStamp::NewStore, CommitStamp::Earlier];

    fn of(history: &History, call: &Call) -> Option<CommitStamp> {
        let Call::Commit { stamp, .. } = *call else { return None };
        match history.refusal(call) {
            Some(13) => Some(CommitStamp::Earlier),
            Some(_) => None,
            None if stamp > history.last_stamp() => Some(CommitStamp::Later),
            None if history.commits_made() == 0 => Some(CommitStamp::NewStore),
            None => Some(CommitStamp::Again),
        }
    }

    fn name(self) -> &'static str {
        match self {
            CommitStamp::Later => "later than the last",
            CommitStamp::Again => "the last one's again",
            CommitStamp::NewStore => "0 in a new store",
            CommitStamp::Earlier => "no 13",
        }
    }
}

/// The command bytes of the single-cell reads.
const READS: [u8; 4] = [0x07, 0x08, 0x09, 0x0B];

/// The command bytes of the calls with situations in a minute.
const IN_MINUTE: [u8; 5] = [0x07, 0x08, 0x09, 0x0B, 0x0C];

/// The calls of the table by open scans: an opening that is accepted or finds no place, and the
/// accepted calls that read by a scan, or whose old page a scan can keep.
const BY_SCANS: [(&str, u8, Option<u8>); 6] = [
    ("0A", 0x0A, None),
    ("0A no 14", 0x0A, Some(14)),
    ("0B", 0x0B, None),
    ("0C", 0x0C, None),
    ("0E", 0x0E, None),
    ("0F", 0x0F, None),
];

impl Survey {
    /// Runs the streams of so many seeds.
    pub fn of(first: u64, count: u64) -> Survey {
        let mut survey = Survey::default();
        for seed in first..first.saturating_add(count) {
            survey.run(&generate::stream(seed), generate::is_long(seed));
        }
        survey
    }

    /// Runs one stream.
    pub fn run(&mut self, stream: &[u8], long: bool) {
        let mut output = Vec::new();
        let mut rest = stream;
        let mut met = BTreeSet::new();
        let mut met_scans = BTreeSet::new();
        let mut met_commits = BTreeSet::new();
        let mut met_in_minute = BTreeSet::new();
        let mut met_in_crossings = BTreeSet::new();
        let mut met_in_keepers = BTreeSet::new();
        let taken = "memory takes every line";
        if let Some(mut history) = program::start(&mut rest, &mut output).expect(taken) {
            let columns = history.shape().columns as usize;
            loop {
                if let Some((call, _)) = command::first(rest, columns) {
                    for situation in history.situations(&call) {
                        *self.situations.entry((situation, rest[0])).or_default() += 1;
                        met.insert(situation);
                    }
                    for situation in history.in_minute(&call) {
                        *self.in_minute.entry((situation, rest[0])).or_default() += 1;
                        met_in_minute.insert(situation);
                    }
                    for situation in history.in_crossings(&call) {
                        *self.in_crossings.entry(situation).or_default() += 1;
                        met_in_crossings.insert(situation);
                    }
                    for situation in history.in_keepers(&call) {
                        *self.in_keepers.entry(situation).or_default() += 1;
                        met_in_keepers.insert(situation);
                    }
                    if !long {
                        if let Some(stamp) = CommitStamp::of(&history, &call) {
                            *self.commits.entry(stamp).or_default() += 1;
                            met_commits.insert(stamp);
                        }
                        let open = history.open_scans().len();
                        let kind = (open, rest[0], history.refusal(&call));
                        *self.by_scans.entry(kind).or_default() += 1;
                        met_scans.insert(open);
                    }
                }
                if !program::turn(&mut history, &mut rest, &mut output).expect(taken) {
                    break;
                }
            }
        }
        for situation in met {
            *self.situation_streams.entry(situation).or_default() += 1;
        }
        for open in met_scans {
            *self.by_scans_streams.entry(open).or_default() += 1;
        }
        for stamp in met_commits {
            *self.commit_streams.entry(stamp).or_default() += 1;
        }
        for situation in met_in_minute {
            *self.in_minute_streams.entry(situation).or_default() += 1;
        }
        for situation in met_in_crossings {
            *self.in_crossings_streams.entry(situation).or_default() += 1;
        }
        for situation in met_in_keepers {
            *self.in_keepers_streams.entry(situation).or_default() += 1;
        }
        self.add(&String::from_utf8(output).expect("the lines are ASCII"), long);
    }

    fn add(&mut self, output: &str, long: bool) {
        self.streams += 1;
        self.long_streams += u64::from(long);
        for line in output.lines() {
            let words: Vec<&str> = line.split(' ').collect();
            let kind = match words[1..] {
                ["no", number] => {
                    let number = number.parse().expect("a refusal has a number");
                    *self.refusals.entry(number).or_default() += 1;
                    format!("no {number:2}")
                }
                ["ok", "none"] => "none".to_string(),
                _ => "ok".to_string(),
            };
            // Unknown command bytes are counted together.
            let word = if kind == "no 19" { "unknown" } else { words[0] };
            if long {
                self.long_calls += 1;
            } else {
                *self.counts.entry((word.to_string(), kind)).or_default() += 1;
            }
        }
    }

    /// How often a refusal number came.
    pub fn refused(&self, number: u8) -> u64 {
        self.refusals.get(&number).copied().unwrap_or(0)
    }

    /// How many reads of a command byte were in a situation.
    pub fn met(&self, situation: Situation, byte: u8) -> u64 {
        self.situations.get(&(situation, byte)).copied().unwrap_or(0)
    }

    /// How many calls of a command byte had this refusal, or none, with so many scans open.
    pub fn with_scans(&self, open: usize, byte: u8, refusal: Option<u8>) -> u64 {
        self.by_scans.get(&(open, byte, refusal)).copied().unwrap_or(0)
    }

    /// How many streams have a call with so many scans open; long streams left out.
    pub fn streams_with_scans(&self, open: usize) -> u64 {
        self.by_scans_streams.get(&open).copied().unwrap_or(0)
    }

    /// How many commits had such a stamp, and how many streams have one; long streams left out.
    pub fn commits(&self, stamp: CommitStamp) -> (u64, u64) {
        let of = |counts: &BTreeMap<CommitStamp, u64>| counts.get(&stamp).copied().unwrap_or(0);
        (of(&self.commits), of(&self.commit_streams))
    }

    /// How many calls of a command byte were in a situation in a minute.
    pub fn met_in_minute(&self, situation: InMinute, byte: u8) -> u64 {
        self.in_minute.get(&(situation, byte)).copied().unwrap_or(0)
    }

    /// How many calls for crossings were in a situation, and how many streams have one.
    pub fn met_in_crossings(&self, situation: InCrossings) -> (u64, u64) {
        let of = |counts: &BTreeMap<InCrossings, u64>| counts.get(&situation).copied().unwrap_or(0);
        (of(&self.in_crossings), of(&self.in_crossings_streams))
    }

    /// How many calls for a keeper were in a situation, and how many streams have one.
    pub fn met_in_keepers(&self, situation: InKeepers) -> (u64, u64) {
        let of = |counts: &BTreeMap<InKeepers, u64>| counts.get(&situation).copied().unwrap_or(0);
        (of(&self.in_keepers), of(&self.in_keepers_streams))
    }

    /// Calls, shape lines left out, and how many of them were accepted; long streams left out.
    pub fn calls(&self) -> (u64, u64) {
        let mut calls = 0;
        let mut accepted = 0;
        for ((word, kind), count) in &self.counts {
            if word != "shape" {
                calls += count;
                accepted += if kind.starts_with("no ") { 0 } else { *count };
            }
        }
        (calls, accepted)
    }
}

impl fmt::Display for Survey {
    fn fmt(&self, out: &mut fmt::Formatter) -> fmt::Result {
        let (calls, accepted) = self.calls();
        let share = 100.0 * accepted as f64 / calls.max(1) as f64;
        writeln!(out, "streams {}", self.streams)?;
        writeln!(out, "calls {calls}, accepted {accepted} ({share:.1} %)")?;
        writeln!(
            out,
            "of these streams long {}, with {} further lines",
            self.long_streams, self.long_calls
        )?;
        let mut last = "";
        for ((word, kind), count) in &self.counts {
            if word != last {
                let place = usize::from_str_radix(word, 16).unwrap_or(0);
                let name = NAMES.get(place.wrapping_sub(1)).unwrap_or(&"");
                writeln!(out, "{word} {name}")?;
                last = word;
            }
            writeln!(out, "    {kind:6}{count:10}")?;
        }
        writeln!(out, "refusals, those of long streams included")?;
        for (number, count) in &self.refusals {
            writeln!(out, "    no {number:2} {count:10}")?;
        }
        write!(out, "situations of single-cell reads")?;
        for byte in READS {
            write!(out, "      {byte:02X}")?;
        }
        writeln!(out, "  streams")?;
        for situation in Situation::ALL {
            write!(out, "    {:27}", situation.name())?;
            for byte in READS {
                write!(out, "{:8}", self.met(situation, byte))?;
            }
            let streams = self.situation_streams.get(&situation).copied().unwrap_or(0);
            writeln!(out, "{streams:9}")?;
        }
        write!(out, "calls by open scans")?;
        for (name, _, _) in BY_SCANS {
            write!(out, "{name:>10}")?;
        }
        writeln!(out, "   streams")?;
        for open in 0..=OPEN_SCANS {
            write!(out, "    {open:<15}")?;
            for (_, byte, refusal) in BY_SCANS {
                write!(out, "{:10}", self.with_scans(open, byte, refusal))?;
            }
            writeln!(out, "{:10}", self.streams_with_scans(open))?;
        }
        writeln!(out, "commits by stamp              calls  streams")?;
        for stamp in CommitStamp::ALL {
            let (calls, streams) = self.commits(stamp);
            writeln!(out, "    {:23}{calls:8}{streams:9}", stamp.name())?;
        }
        write!(out, "reads by what their minute has ")?;
        for byte in IN_MINUTE {
            write!(out, "      {byte:02X}")?;
        }
        writeln!(out, "  streams")?;
        for situation in InMinute::ALL {
            write!(out, "    {:27}", situation.name())?;
            for byte in IN_MINUTE {
                write!(out, "{:8}", self.met_in_minute(situation, byte))?;
            }
            let streams = self.in_minute_streams.get(&situation).copied().unwrap_or(0);
            writeln!(out, "{streams:9}")?;
        }
        writeln!(out, "calls for crossings                 calls  streams")?;
        for situation in InCrossings::ALL {
            let (calls, streams) = self.met_in_crossings(situation);
            writeln!(out, "    {:29}{calls:8}{streams:9}", situation.name())?;
        }
        writeln!(out, "calls for a keeper                  calls  streams")?;
        for situation in InKeepers::ALL {
            let (calls, streams) = self.met_in_keepers(situation);
            writeln!(out, "    {:29}{calls:8}{streams:9}", situation.name())?;
        }
        Ok(())
    }
}
