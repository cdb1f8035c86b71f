//! The input and output of the program: shapes, cut commands, unknown bytes, number series.
//! Letters are those of the readings of document 01.

mod common;
use common::output;
use reference::{command, generate, text};

fn lines(script: &str) -> Vec<String> {
    output(&text::encode(script).unwrap())
}

#[test]
fn a_cut_shape_is_20_whatever_its_measures() {
    // A1; "empty input prints "shape no 20"".
    assert_eq!(output(&[]), ["shape no 20"]);
    for cut in 0..6 {
        assert_eq!(output(&[9, 1, 1, 0, 0, 0][..cut]), ["shape no 20"]);
    }
}

#[test]
fn any_measure_above_what_is_lent_or_outside_the_limits_is_1() {
    // A2, A3: nothing follows, though bytes do.
    for shape in [
        "0 1 1 0",
        "5 1 1 0",
        "17 1 1 0",
        "1 0 1 0",
        "1 5 1 0",
        "1 17 1 0",
        "1 1 0 0",
        "1 1 65 0",
        "1 1 513 0",
        "1 1 1 17",
        "1 1 1 257",
        "255 255 65535 65535",
    ] {
        assert_eq!(lines(&format!("shape {shape}\nbegin")), ["shape no 1"], "{shape}");
    }
    for shape in ["1 1 1 0", "4 4 64 16"] {
        assert_eq!(lines(&format!("shape {shape}\nbegin")), ["shape ok", "01 ok 1"]);
    }
}

#[test]
fn an_unknown_byte_is_printed_in_capitals_and_ends_the_run() {
    // A3, A5.
    for byte in (0..=255u8).filter(|byte| !command::COMMANDS.contains(byte)) {
        let input = [1, 1, 1, 0, 0, 0, byte, 1, 1];
        assert_eq!(output(&input), ["shape ok".to_string(), format!("{byte:02X} no 19")]);
    }
}

#[test]
fn every_command_cut_at_every_place_is_20_and_does_nothing() {
    // A4, A7: the widths follow this shape's columns, and cut comes before every other refusal.
    for columns in 1..=4u8 {
        for byte in command::COMMANDS {
            let width = command::width(&command::operands(byte, columns.into()).unwrap());
            let mut input = vec![columns, 1, 4, 0, 1, 0, byte];
            for cut in 0..width {
                assert_eq!(output(&input)[1], format!("{byte:02X} no 20"), "cut after {cut}");
                input.push(0xFF);
            }
            let whole = output(&input);
            assert_eq!(whole.len(), 2);
            assert!(!whole[1].ends_with(" 20"), "{whole:?}");
            // A whole command, and then the next one.
            input.push(0x0F);
            assert_eq!(output(&input).last().unwrap(), "0F ok 0");
        }
    }
}

#[test]
fn operand_widths_are_those_of_the_documents() {
    let width = |byte| command::width(&command::operands(byte, 2).unwrap());
    let widths: Vec<usize> = command::COMMANDS.map(width).collect();
    // Document 02, Item 4: "row, column (1 byte), mark (4, signed), from and to (stamps)"; Item 6: "a
    // keeper (2 bytes)", and "stamp, row, column", as 08 has them.
    assert_eq!(widths, [0, 10, 14, 4, 6, 2, 3, 7, 5, 4, 5, 3, 2, 4, 0, 3, 2, 15, 2, 7]);
    assert_eq!(command::COMMANDS, 0x01..=0x14);
}

#[test]
fn a_keeper_is_two_bytes_little_endian_and_printed_alone() {
    // Item 6: 14 shows no stamp; keeper 0, which 01 begins with, is printed as a number.
    let mut input = vec![1, 1, 4, 0, 0, 0];
    input.extend([0x13, 0x02, 0x01, 0x02, 1, 0, 5, 0, 0, 0, 0x05, 1, 0, 3, 0, 0, 0]);
    input.extend([0x01, 0x02, 2, 0, 6, 0, 0, 0, 0x05, 2, 0, 4, 0, 0, 0]);
    input.extend([0x14, 4, 0, 0, 0, 0, 0, 0, 0x14, 4, 0, 0, 0, 1, 0, 0]);
    input.extend([0x14, 3, 0, 0, 0, 1, 0, 0, 0x14, 5, 0, 0, 0, 0, 0, 0, 0x14, 4]);
    let shape_and_writes =
        ["shape ok", "13 ok 1", "02 ok 0", "05 ok", "01 ok 2", "02 ok 1", "05 ok"];
    let keepers = ["14 ok 258", "14 ok 0", "14 ok none", "14 no 13", "14 no 20"];
    assert_eq!(output(&input), [&shape_and_writes[..], &keepers].concat());
}

#[test]
fn the_program_goes_on_after_every_refusal_of_the_commands_with_keepers() {
    let script = format!("shape 1 1 1 0\n{}", "begin-as 5\n".repeat(9));
    let after = lines(&(script + "keeper-at 1 0 0\nkeeper-at 0 0 0\ncommit 1 0\nrelease"));
    assert_eq!(after[8..], ["13 ok 8", "13 no 14", "14 no 13", "14 no 5", "05 ok", "0F ok 0"]);
}

#[test]
fn streams_end_inside_the_commands_with_keepers() {
    let last = |seed: u64| output(&generate::stream(seed)).pop().unwrap();
    let lines: Vec<String> = (0..960).filter(|seed| !generate::is_long(*seed)).map(last).collect();
    for cut in ["13 no 20", "14 no 20"] {
        let count = lines.iter().filter(|line| *line == cut).count();
        assert!(count >= 2, "{cut}: {count}");
    }
}

#[test]
fn the_program_goes_on_after_21() {
    // Document 02, Item 4: it "lends 16, prints count and stamps and goes on after 21".
    let mut script = "shape 1 1 20 0\nbegin\ninsert 1 0\ncommit 1 0\n".to_string();
    for swing in 0..17 {
        let (transaction, value) = (swing + 2, if swing % 2 == 0 { 1 } else { 0 });
        script +=
            &format!("begin\nupdate {transaction} 0 mask 1 {value}\ncommit {transaction} 7\n");
    }
    let lines = lines(&(script + "crossings 0 0 1 0 7\ncrossings 0 0 2 0 7\nrelease"));
    assert_eq!(lines[lines.len() - 3..], ["12 no 21", "12 ok 0", "0F ok 0"]);
}

#[test]
fn input_that_ends_between_commands_adds_no_line() {
    assert_eq!(lines("shape 1 1 1 0"), ["shape ok"]);
    assert_eq!(lines("shape 1 1 1 0\nbyte 06 63 00"), ["shape ok", "06 no 3"]);
    assert_eq!(lines("shape 1 1 1 0\nbyte 06 63"), ["shape ok", "06 no 20"]);
}

#[test]
fn the_transaction_numbers_run_out() {
    // B1: 15 before 14; a refused begin uses no number.
    let lines = output(&generate::stream(15));
    let end = &lines[lines.len() - 8..];
    let refused = ["01 ok 65535", "01 no 15", "13 no 15"];
    let after = ["05 ok", "01 no 15", "13 no 15", "06 no 3", "0A ok 1"];
    assert_eq!(end, [&refused[..], &after].concat());
}

#[test]
fn the_scan_numbers_run_out() {
    // B1: 13, 15, 14; B2: a series of its own.
    let lines = output(&generate::stream(79));
    let end = &lines[lines.len() - 7..];
    let expected =
        ["0A ok 65535", "0A no 13", "0A no 15", "0D ok", "0A no 15", "0C no 4", "01 ok 1"];
    assert_eq!(end, expected);
}

/// Gives one byte at a time and now and then an interruption.
struct Slow<'a>(&'a [u8], bool);

impl std::io::Read for Slow<'_> {
    fn read(&mut self, buffer: &mut [u8]) -> std::io::Result<usize> {
        self.1 = !self.1;
        if self.1 {
            return Err(std::io::ErrorKind::Interrupted.into());
        }
        let count = buffer.len().min(self.0.len()).min(1);
        buffer[..count].copy_from_slice(&self.0[..count]);
        self.0 = &self.0[count..];
        Ok(count)
    }
}

#[test]
fn input_in_small_pieces_is_read_the_same() {
    for seed in 0..12 {
        let bytes = generate::stream(seed);
        let mut lines = Vec::new();
        reference::program::run(&mut Slow(&bytes, false), &mut lines).unwrap();
        let lines = String::from_utf8(lines).unwrap();
        assert!(lines.lines().eq(output(&bytes)));
    }
}
