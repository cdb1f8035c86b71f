//! The stream on which the gate runs gatebook, and its lines: what crate gatebook has is what the
//! second program writes, and has what a test of the program's loop needs.

mod common;
use std::fs;
use std::path::Path;

use common::{calls, output};
use reference::generate;

const SEED: u64 = 0;
const COMMANDS: usize = 10_000;

/// More than any buffer of gatebook holds.
const BUFFERS: usize = 65_536;

fn file(name: &str) -> Vec<u8> {
    let folder = Path::new(env!("CARGO_MANIFEST_DIR")).join("../crates/gatebook");
    fs::read(folder.join(name)).unwrap()
}

#[test]
fn the_crate_has_this_stream_and_its_lines() {
    let advice =
        "write it anew: reference generate 0 10000 > stdin, reference run < stdin > stdout";
    assert!(file("stdin") == generate::largest(SEED, COMMANDS), "{advice}");
    let lines: String = output(&file("stdin")).iter().map(|line| line.clone() + "\n").collect();
    assert!(file("stdout") == lines.as_bytes(), "{advice}");
}

#[test]
fn neither_input_nor_output_fits_a_buffer() {
    assert!(file("stdin").len() > BUFFERS);
    assert!(file("stdout").len() > BUFFERS);
}

#[test]
fn it_has_four_columns_and_ends_inside_a_command() {
    let stdin = file("stdin");
    assert_eq!(stdin[0], 4);
    let lines = output(&stdin);
    // The shape's line, and that of the cut command.
    assert_eq!(lines.len(), calls(&stdin).len() + 2);
    assert!(lines[0] == "shape ok" && lines[lines.len() - 1].ends_with(" no 20"));
}

#[test]
fn a_stream_at_the_largest_shape_is_the_same_every_time_and_cut() {
    for seed in 0..24 {
        let stream = generate::largest(seed, 300);
        assert_eq!(stream, generate::largest(seed, 300));
        assert_eq!(stream[..6], [4, 4, 64, 0, 16, 0]);
        assert_eq!(calls(&stream).len(), 300);
        assert_eq!(output(&stream).last().unwrap(), "03 no 20", "seed {seed}");
    }
}
