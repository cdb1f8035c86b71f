//! The packed streams of crate replay: what they meet, that they stand for whole streams, and that
//! the crate's files are those that the second program writes.

mod common;
use std::collections::BTreeSet;
use std::fs;
use std::path::Path;
use std::sync::OnceLock;

use common::{output, IN_MINUTE, SITUATIONS};
use reference::history::{InCrossings, InKeepers};
use reference::pack::{self, Digest, Kind, Record};
use reference::survey::Survey;
use reference::{command, generate};

/// The records of the pack, and what they give.
fn all() -> &'static [Record] {
    static ALL: OnceLock<Vec<Record>> = OnceLock::new();
    ALL.get_or_init(pack::all)
}

fn lines() -> &'static [String] {
    static LINES: OnceLock<Vec<String>> = OnceLock::new();
    LINES.get_or_init(|| replayed(all()))
}

/// A stream of a pack: its title, and its records from the shape on.
fn streams(records: &[Record]) -> Vec<(String, &[Record])> {
    let title = |record: &Record| record.kind == Kind::Title;
    let starts: Vec<usize> = (0..records.len()).filter(|n| title(&records[*n])).collect();
    let ends = starts[1..].iter().copied().chain([records.len()]);
    let text = |n: usize| String::from_utf8(records[n].bytes.clone()).unwrap();
    starts.iter().zip(ends).map(|(from, to)| (text(*from), &records[from + 1..to])).collect()
}

fn replayed(records: &[Record]) -> Vec<String> {
    let mut lines = Vec::new();
    pack::replay(records, &mut lines).unwrap();
    String::from_utf8(lines).unwrap().lines().map(String::from).collect()
}

#[test]
fn a_pack_gives_what_its_streams_give_one_by_one() {
    for (title, records) in streams(all()) {
        let bytes: Vec<u8> = records.iter().flat_map(Record::expanded).collect();
        let whole = output(&bytes);
        let mut plain = whole.iter();
        for line in replayed(records) {
            let Some((count, hash)) = line.split_once(" lines ") else {
                assert_eq!(Some(&line), plain.next(), "{title}");
                continue;
            };
            let folded: Vec<String> = plain
                .by_ref()
                .take(count.parse().unwrap())
                .map(|line| line.clone() + "\n")
                .collect();
            let digest = Digest::of(folded.concat().as_bytes());
            assert_eq!(format!("{} {hash}", digest.lines), format!("{count} {:08x}", digest.hash));
        }
        assert_eq!(plain.next(), None, "{title}");
    }
}

/// The refusals of document 01 ("Tests run in this order") that a stream can reach: all but 2; and of
/// document 02's Items 4 and 6.
const REFUSALS: [(u8, &[u8]); 20] = [
    (0x01, &[14, 15]),
    (0x02, &[3, 11]),
    (0x03, &[3, 5, 8, 9, 10, 12]),
    (0x04, &[3, 5, 9, 10, 12]),
    (0x05, &[3, 13]),
    (0x06, &[3]),
    (0x07, &[5, 6]),
    (0x08, &[5, 6, 13]),
    (0x09, &[3, 5, 6]),
    (0x0A, &[13, 14, 15]),
    (0x0B, &[4, 5, 6]),
    (0x0C, &[4, 6]),
    (0x0D, &[4]),
    (0x0E, &[6, 7, 16, 17, 18]),
    (0x0F, &[]),
    (0x10, &[5, 6]),
    (0x11, &[6, 7]),
    (0x12, &[5, 6, 13, 21]),
    (0x13, &[14, 15]),
    (0x14, &[5, 6, 13]),
];

#[test]
fn every_refusal_of_every_command_is_met_and_no_other() {
    let mut expected: BTreeSet<String> =
        ["shape no 1", "shape no 20"].map(String::from).into_iter().collect();
    for byte in 0..=255u8 {
        match REFUSALS.iter().find(|(known, _)| *known == byte) {
            None => drop(expected.insert(format!("{byte:02X} no 19"))),
            Some((_, numbers)) => {
                expected.extend(numbers.iter().map(|number| format!("{byte:02X} no {number}")));
                if command::width(&command::operands(byte, 1).unwrap()) > 0 {
                    expected.insert(format!("{byte:02X} no 20"));
                }
            }
        }
    }
    let met = lines().iter().filter(|line| line.contains(" no ") && is_answer(line));
    let met: BTreeSet<String> = met.cloned().collect();
    assert_eq!(met, expected);
}

/// Whether a line is an answer and no title.
fn is_answer(line: &str) -> bool {
    let word = line.split(' ').next().unwrap();
    word == "shape" || (word.len() == 2 && word.chars().all(|c| c.is_ascii_hexdigit()))
}

#[test]
fn every_command_is_cut_at_every_place() {
    let titles: BTreeSet<String> = streams(all()).into_iter().map(|(title, _)| title).collect();
    for columns in 1..=4usize {
        for byte in command::COMMANDS {
            let width = command::width(&command::operands(byte, columns).unwrap());
            for cut in 1..=width {
                let title = format!("{byte:02X} of {columns} columns cut after {cut}");
                assert!(titles.contains(&title), "{title}");
            }
        }
    }
    for cut in 0..6 {
        assert!(titles.contains(&format!("shape cut after {cut}")));
    }
}

#[test]
fn both_number_series_run_out() {
    let last = ["01 ok 65535", "13 ok 65535", "0A ok 65535"];
    let refused = ["01 no 15", "13 no 15", "0A no 15", "01 no 14", "13 no 14", "0A no 14"];
    for given in [&last[..], &refused].concat() {
        assert!(lines().iter().any(|line| line == given), "{given}");
    }
}

#[test]
fn there_are_random_streams_of_every_workload() {
    let streams = streams(all());
    assert!(streams.len() >= 200);
    let seeds: Vec<u64> = streams
        .iter()
        .filter_map(|(title, _)| title.strip_prefix("random ")?.parse().ok())
        .collect();
    for workload in 0..generate::WORKLOADS {
        assert!(seeds.iter().filter(|seed| **seed % generate::WORKLOADS == workload).count() >= 8);
    }
    let titles: BTreeSet<&String> = streams.iter().map(|(title, _)| title).collect();
    assert_eq!(titles.len(), streams.len(), "a title names one stream");
}

#[test]
fn streams_by_hand_meet_every_situation_by_every_command_that_can() {
    let mut survey = Survey::default();
    for (title, records) in streams(&pack::short()) {
        if !title.starts_with("random ") {
            let bytes: Vec<u8> = records.iter().flat_map(Record::expanded).collect();
            survey.run(&bytes, false);
        }
    }
    for (situation, commands) in SITUATIONS {
        for byte in commands {
            assert!(survey.met(situation, *byte) > 0, "{situation:?} by {byte:02X}");
        }
    }
    for (situation, commands) in IN_MINUTE {
        for byte in commands {
            assert!(survey.met_in_minute(situation, *byte) > 0, "{situation:?} by {byte:02X}");
        }
    }
    for situation in InCrossings::ALL {
        assert!(survey.met_in_crossings(situation).0 > 0, "{situation:?}");
    }
    for situation in InKeepers::ALL {
        assert!(survey.met_in_keepers(situation).0 > 0, "{situation:?}");
    }
}

/// The longest line of all: as many stamps as are lent places, each of ten digits.
#[test]
fn a_slice_full_of_the_longest_stamps_is_printed() {
    let full = |line: &&String| line.starts_with("12 ok 16 ");
    let longest = lines().iter().filter(full).map(|line| line.len()).max();
    assert_eq!(longest, Some("12 ok 16".len() + 16 * " 4294967295".len()));
}

#[test]
fn every_transaction_can_commit_in_one_minute_and_a_scan_leaves_out_the_last() {
    let title = "65535 commits in one minute";
    let lines = lines().iter().skip_while(|line| *line != title);
    let lines: Vec<&str> = lines.map(String::as_str).collect();
    let numbers = ["01 ok 65534", "03 ok 2", "05 ok", "0A ok 1"];
    let last = ["01 ok 65535", "03 ok 3", "05 ok", "0A ok 2"];
    let reads = ["0B ok 6 0", "0C ok 1 6", "0B ok 7 0", "0C ok 1 7", "07 ok 7 0", "01 no 15"];
    assert_eq!(lines[1..5], ["shape ok", "01 ok 1", "02 ok 0", "05 ok"]);
    assert!(lines[5].starts_with("131064 lines "), "{}", lines[5]);
    assert_eq!(lines[6..20], [&numbers[..], &last, &reads].concat());
}

#[test]
fn the_hash_is_fnv_1a_of_32_bits() {
    for (text, hash) in [("", 0x811C_9DC5), ("a", 0xE40C_292C), ("foobar", 0xBF9C_F968)] {
        assert_eq!(Digest::of(text.as_bytes()).hash, hash);
    }
    assert_eq!(Digest::of(b"01 ok 1\n06 ok\n").lines, 2);
}

#[test]
fn a_record_rises_at_its_places() {
    let bytes = vec![0xFF, 0xFF, 0xFE, 0x00];
    let record = Record { kind: Kind::Commands, times: 3, places: [0, 2], bytes };
    assert_eq!(record.expanded(), [255, 255, 254, 0, 0, 0, 255, 0, 1, 0, 0, 1]);
    // A place from which no two bytes are left stands for none.
    let record = Record { places: [3, pack::NO_PLACE], times: 2, ..record };
    assert_eq!(record.expanded(), [255, 255, 254, 0, 255, 255, 254, 0]);
}

#[test]
fn a_pack_is_read_as_it_was_written() {
    let records = pack::short();
    let bytes = pack::write(&records);
    assert_eq!(pack::read(&bytes), Ok(records));
    assert!(pack::read(&bytes[..bytes.len() - 1]).is_err());
    assert!(pack::read(&bytes[..pack::HEAD_BYTES - 1]).is_err());
    assert!(pack::read(&[9, 0, 0, 1, 0, 0, 0, 0, 0]).is_err());
}

/// The crate reads at most 262,144 bytes.
#[test]
fn the_crate_has_these_streams_and_lines() {
    let folder = Path::new(env!("CARGO_MANIFEST_DIR")).join("../crates/replay");
    let bytes = pack::write(all());
    assert!(bytes.len() <= 262_144);
    let advice = "write it anew: reference pack > stdin, reference replay < stdin > stdout";
    assert!(fs::read(folder.join("stdin")).unwrap() == bytes, "{advice}");
    let lines: String = lines().iter().map(|line| line.clone() + "\n").collect();
    assert!(fs::read_to_string(folder.join("stdout")).unwrap() == lines, "{advice}");
}
