//! Runs a script: readable lines, each with "=> no 13" or the like where the answer matters. A
//! line without it must be accepted. The lines "upgrade" and "downgrade" are the moves. Scripts run on the
//! history itself and, where gatebook lends enough, through the command bytes as well, then without the
//! moves, which have none and alter nothing.

#![allow(dead_code)]

use reference::history::InMinute::{self, *};
use reference::history::Situation::{self, *};
use reference::{command, program, text, Call, History};

/// The situations of single-cell reads, with the commands that can be in them.
pub const SITUATIONS: [(Situation, &[u8]); 10] = [
    (Absent, &[0x07, 0x08, 0x09, 0x0B]),
    (OtherColumnLater, &[0x07, 0x08, 0x09, 0x0B]),
    (MergedBesideLater, &[0x07, 0x08, 0x09, 0x0B]),
    (MergedPast, &[0x08, 0x0B]),
    (MergedSinceOpening, &[0x0B]),
    (PendingSetting, &[0x09]),
    (PendingInsert, &[0x09]),
    (BesidePending, &[0x09]),
    (BelowAborted, &[0x07, 0x08, 0x09, 0x0B]),
    (BeforeFirstUpdate, &[0x08, 0x0B]),
];

/// The situations of reads and sums in a minute, with the commands that can be in them.
pub const IN_MINUTE: [(InMinute, &[u8]); 7] = [
    (Newest, &[0x07, 0x08, 0x09, 0x0B, 0x0C]),
    (LaterCommit, &[0x0B, 0x0C]),
    (LaterSetting, &[0x0B, 0x0C]),
    (LaterSettingMerged, &[0x0B, 0x0C]),
    (LaterInsert, &[0x0B, 0x0C]),
    (LaterEnd, &[0x0B, 0x0C]),
    (TwoScans, &[0x0B, 0x0C]),
];

/// The lines that the program writes for bytes.
pub fn output(bytes: &[u8]) -> Vec<String> {
    let mut lines = Vec::new();
    program::run(&mut &bytes[..], &mut lines).unwrap();
    let text = String::from_utf8(lines).unwrap();
    assert!(text.ends_with('\n') || text.is_empty());
    text.lines().map(String::from).collect()
}

/// The whole commands of a stream of bytes, as calls.
pub fn calls(bytes: &[u8]) -> Vec<Call> {
    let (shape, mut rest) = bytes.split_at(program::SHAPE_BYTES);
    let mut calls = Vec::new();
    while let Some((call, after)) = command::first(rest, shape[0].into()) {
        calls.push(call);
        rest = after;
    }
    calls
}

pub fn script(script: &str) {
    let lines: Vec<(&str, &str)> = script
        .lines()
        .map(|line| line.split_once("=>").unwrap_or((line, "")))
        .map(|(line, answer)| (line.trim(), answer.trim()))
        .filter(|(line, _)| !line.is_empty())
        .collect();
    let plain: Vec<&str> = lines.iter().map(|(line, _)| *line).collect();
    let commands: Vec<&str> =
        plain.iter().copied().filter(|line| move_of(line).is_none()).collect();
    let bytes = text::encode(&commands.join("\n")).unwrap();
    let shape = program::shape(bytes[..6].try_into().unwrap());
    let mut history = History::new(shape);
    let mut answers = vec!["ok".to_string()];
    let mut encoded = calls(&bytes).into_iter();
    for line in &plain[1..] {
        let before = history.clone();
        let moved = move_of(line);
        let alters = moved.is_none();
        let call = moved.unwrap_or_else(|| encoded.next().expect("a call for each line"));
        let answer = history.call(&call);
        if answer.is_refused() || !alters {
            assert_eq!(history, before, "a refused call or a move alters no list: {call:?}");
        }
        answers.push(program::fields_of(&answer));
    }
    assert_eq!(encoded.next(), None);
    for ((line, expected), answer) in lines.iter().zip(&answers) {
        if expected.is_empty() {
            assert!(answer.starts_with("ok"), "{line} => {answer}");
        } else {
            assert_eq!(expected, answer, "{line}");
        }
    }
    let written = output(&bytes);
    if written != ["shape no 1"] {
        let words = written.iter().map(|line| line.split_once(' ').unwrap().1);
        let of_commands = plain.iter().zip(&answers).filter(|(line, _)| move_of(line).is_none());
        let of_commands = of_commands.map(|(_, answer)| answer.as_str());
        assert!(words.eq(of_commands), "the program answers as the history does");
    }
}

/// The move that a line names.
fn move_of(line: &str) -> Option<Call> {
    match line {
        "upgrade" => Some(Call::Upgrade),
        "downgrade" => Some(Call::Downgrade),
        _ => None,
    }
}
