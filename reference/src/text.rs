//! Readable lines to command bytes and back. `HELP` below gives the line forms.
//!
//! Decoding gives one line for the shape and one for each whole command. From the first unknown
//! command byte or cut command on, and for a cut shape, the bytes come out as `byte` lines.
//! Encoding what was decoded gives the same bytes for every byte string. Commands are read and
//! written with the column count of the first byte, also where gatebook refuses the shape.

use crate::command::{self, Field};
use crate::program::{self, SHAPE_BYTES};

/// The line forms.
pub const HELP: &str = "\
shape COLUMNS RANGES TAIL SPARES     the first line
begin
insert T VALUE..                     a value for every column
update T ROW mask MASK VALUE..       a value for every column, unmasked ones ignored
delete T ROW
commit T STAMP
abort T
latest ROW COLUMN
read-at STAMP ROW COLUMN
own-read T ROW COLUMN
open-scan STAMP
scan-read SCAN ROW COLUMN
sum SCAN COLUMN
close SCAN
merge RANGE COLUMN THROUGH
release
page-cell COLUMN ROW
lineage RANGE COLUMN
crossings ROW COLUMN MARK FROM TO
begin-as KEEPER
keeper-at STAMP ROW COLUMN
byte HH..                            raw bytes, two hexadecimal digits each

T is a transaction number. Numbers are decimal; MASK may also be written 0b0101 or 0x5, and the
word mask may be left out. # starts a comment; blank lines are ignored.
";

/// The names of the commands 01 to 14 (hexadecimal), in order.
pub const NAMES: [&str; 20] = [
    "begin",
    "insert",
    "update",
    "delete",
    "commit",
    "abort",
    "latest",
    "read-at",
    "own-read",
    "open-scan",
    "scan-read",
    "sum",
    "close",
    "merge",
    "release",
    "page-cell",
    "lineage",
    "crossings",
    "begin-as",
    "keeper-at",
];

/// Raw bytes on one decoded line.
const BYTES_A_LINE: usize = 16;

/// The measures of a shape line with their widths in bytes.
const MEASURES: [(&str, usize); 4] =
    [("columns", 1), ("ranges", 1), ("capacity", 2), ("spares", 2)];

/// The readable lines of a byte string.
pub fn decode(bytes: &[u8]) -> String {
    let mut lines = String::new();
    let Some((first, mut rest)) = bytes.split_first_chunk::<SHAPE_BYTES>() else {
        raw(&mut lines, bytes);
        return lines;
    };
    let shape = program::shape(first);
    lines +=
        &format!("shape {} {} {} {}\n", shape.columns, shape.ranges, shape.capacity, shape.spares);
    while let Some((byte, operands)) = rest.split_first() {
        let Some(fields) = command::operands(*byte, shape.columns as usize) else {
            break;
        };
        let width = command::width(&fields);
        if operands.len() < width {
            break;
        }
        lines += NAMES[usize::from(*byte) - 1];
        for (field, number) in fields.iter().zip(command::numbers(&fields, operands)) {
            let word = if *field == Field::Mask { " mask" } else { "" };
            lines += &format!("{word} {number}");
        }
        lines.push('\n');
        rest = &operands[width..];
    }
    raw(&mut lines, rest);
    lines
}

fn raw(lines: &mut String, bytes: &[u8]) {
    for part in bytes.chunks(BYTES_A_LINE) {
        *lines += "byte";
        for byte in part {
            *lines += &format!(" {byte:02X}");
        }
        lines.push('\n');
    }
}

/// The bytes of readable lines, or an error that names the line.
pub fn encode(text: &str) -> Result<Vec<u8>, String> {
    let mut bytes = Vec::new();
    for (place, line) in text.lines().enumerate() {
        encode_line(&mut bytes, line)
            .map_err(|message| format!("line {}: {message}", place + 1))?;
    }
    Ok(bytes)
}

/// Adds the bytes of one line.
fn encode_line(bytes: &mut Vec<u8>, line: &str) -> Result<(), String> {
    let plain = line.split('#').next().unwrap_or("");
    let mut words = plain.split_whitespace().peekable();
    let Some(name) = words.next() else {
        return Ok(());
    };
    match name {
        "byte" => {
            for word in words {
                bytes.push(raw_byte(word)?);
            }
            return Ok(());
        }
        "shape" => {
            if !bytes.is_empty() {
                return Err("the shape comes first and once".to_string());
            }
            for (measure, width) in MEASURES {
                let number = number(words.next(), measure)?;
                if !(0..1 << (8 * width)).contains(&number) {
                    return Err(too_wide(measure, number, width));
                }
                command::put(bytes, width, number);
            }
        }
        _ => {
            let Some(place) = NAMES.iter().position(|known| *known == name) else {
                return Err(format!("unknown command '{name}'"));
            };
            if bytes.len() < SHAPE_BYTES {
                return Err("the shape comes first".to_string());
            }
            let byte = place as u8 + 1;
            let columns = usize::from(bytes[0]);
            let fields = command::operands(byte, columns).expect("a named command is known");
            bytes.push(byte);
            for field in fields {
                if field == Field::Mask {
                    words.next_if_eq(&"mask");
                }
                let number = number(words.next(), field.name())?;
                if !field.fits(number) {
                    return Err(too_wide(field.name(), number, field.width()));
                }
                command::put(bytes, field.width(), number);
            }
        }
    }
    match words.next() {
        Some(word) => Err(format!("'{word}' is one word too many")),
        None => Ok(()),
    }
}

fn too_wide(name: &str, number: i64, width: usize) -> String {
    format!("{name} {number} does not fit in {width} bytes")
}

fn raw_byte(word: &str) -> Result<u8, String> {
    let digits = word.len() == 2 && word.chars().all(|digit| digit.is_ascii_hexdigit());
    match u8::from_str_radix(word, 16) {
        Ok(byte) if digits => Ok(byte),
        _ => Err(format!("'{word}' is not a byte of two hexadecimal digits")),
    }
}

/// A decimal number; a mask may have the prefix 0b or 0x.
fn number(word: Option<&str>, name: &str) -> Result<i64, String> {
    let word = word.ok_or_else(|| format!("{name} is missing"))?;
    let parsed = match (name, word.get(..2)) {
        ("mask", Some("0b")) => i64::from_str_radix(&word[2..], 2),
        ("mask", Some("0x")) => i64::from_str_radix(&word[2..], 16),
        _ => word.parse(),
    };
    parsed.map_err(|_| format!("{name} '{word}' is not a number"))
}
