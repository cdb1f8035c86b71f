//! The input and output of gatebook on top of the plain history ("Commands" in document 01, with the
//! commands of document 02's Items 4 and 6).

use std::io::{self, ErrorKind, Read, Write};

use crate::call::{Answer, Shape};
use crate::command;
use crate::history::History;

/// "`gatebook` lends memory for 4 columns, 4 ranges, 64 tail records, 16 spares and answers 1
/// above that."
pub const LENT: Shape = Shape { columns: 4, ranges: 4, capacity: 64, spares: 16 };

/// Item 4: "`gatebook` lends 16": the places of the slice of stamps.
pub const LENT_STAMPS: u32 = 16;

/// The bytes of a shape: columns (1), ranges (1), capacity (2), spares (2).
pub const SHAPE_BYTES: usize = 6;

/// Reads a shape and commands, and writes a line for each.
pub fn run(input: &mut impl Read, output: &mut impl Write) -> io::Result<()> {
    if let Some(mut history) = start(input, output)? {
        while turn(&mut history, input, output)? {}
    }
    Ok(())
}

/// Reads the shape and writes its line; the new store's history where it is accepted.
pub fn start(input: &mut impl Read, output: &mut impl Write) -> io::Result<Option<History>> {
    let mut bytes = [0; SHAPE_BYTES];
    if fill(input, &mut bytes)? < SHAPE_BYTES {
        writeln!(output, "shape no 20")?;
        return Ok(None);
    }
    let shape = shape(&bytes);
    if !shape.within_limits() || !within_lent(&shape) {
        writeln!(output, "shape no 1")?;
        return Ok(None);
    }
    writeln!(output, "shape ok")?;
    Ok(Some(History::new(shape)))
}

/// Reads one command and writes its line; whether the program goes on. "It goes on after 2 to 18
/// and ends after the others"; Item 4: it "goes on after 21", so after every answer of a call.
pub fn turn(
    history: &mut History,
    input: &mut impl Read,
    output: &mut impl Write,
) -> io::Result<bool> {
    let mut byte = [0];
    // "Input that ends between commands adds no line."
    if fill(input, &mut byte)? == 0 {
        return Ok(false);
    }
    let [byte] = byte;
    let Some(fields) = command::operands(byte, history.shape().columns as usize) else {
        writeln!(output, "{byte:02X} no 19")?;
        return Ok(false);
    };
    let mut bytes = vec![0; command::width(&fields)];
    if fill(input, &mut bytes)? < bytes.len() {
        // "A cut command still prints its byte"
        writeln!(output, "{byte:02X} no 20")?;
        return Ok(false);
    }
    let call = command::call(byte, &command::numbers(&fields, &bytes));
    writeln!(output, "{byte:02X} {}", fields_of(&history.call(&call)))?;
    Ok(true)
}

/// The shape written in its six bytes.
pub fn shape(bytes: &[u8; SHAPE_BYTES]) -> Shape {
    let two = |place: usize| u32::from(u16::from_le_bytes([bytes[place], bytes[place + 1]]));
    Shape {
        columns: u32::from(bytes[0]),
        ranges: u32::from(bytes[1]),
        capacity: two(2),
        spares: two(4),
    }
}

/// Whether no measure is above what gatebook lends memory for.
fn within_lent(shape: &Shape) -> bool {
    shape.columns <= LENT.columns
        && shape.ranges <= LENT.ranges
        && shape.capacity <= LENT.capacity
        && shape.spares <= LENT.spares
}

/// "ok" and the answer's fields in decimal ("none" for none), or "no" and the number. Document 02,
/// Item 1: "The printed lines gain this number after the value"; Item 4: it "prints count and stamps".
pub fn fields_of(answer: &Answer) -> String {
    match answer {
        Answer::Refused(number) => format!("no {number}"),
        Answer::Done => "ok".to_string(),
        Answer::Number(number) => format!("ok {number}"),
        Answer::Version { value, stamp } => format!("ok {value} {stamp}"),
        Answer::None => "ok none".to_string(),
        Answer::Value(value) => format!("ok {value}"),
        Answer::Sum { count, sum } => format!("ok {count} {sum}"),
        Answer::Lineage { through, used } => format!("ok {through} {used}"),
        Answer::Crossings(stamps) => format!("ok {}", count_and_stamps(stamps)),
    }
}

/// The count of some stamps, and the stamps, with blanks between.
pub fn count_and_stamps(stamps: &[u32]) -> String {
    let mut words = stamps.len().to_string();
    for stamp in stamps {
        words += &format!(" {stamp}");
    }
    words
}

/// Reads until the buffer is full or the input ends; answers the bytes read.
fn fill(input: &mut impl Read, buffer: &mut [u8]) -> io::Result<usize> {
    let mut filled = 0;
    while filled < buffer.len() {
        match input.read(&mut buffer[filled..]) {
            Ok(0) => break,
            Ok(read) => filled += read,
            Err(error) if error.kind() == ErrorKind::Interrupted => {}
            Err(error) => return Err(error),
        }
    }
    Ok(filled)
}
