//! Random runs in a fixed form for other programs to read. The grammar, with LF at each line's end
//! and single spaces between words:
//!
//! ```text
//! run    = "shape" columns ranges capacity spares "form" form LF { call "=>" answer LF }
//! form   = "first" | "newest"
//! call   = "begin" | "insert" T value* | "update" T row mask value* | "delete" T row
//!        | "commit" T stamp | "abort" T | "latest" row column | "read-at" stamp row column
//!        | "own-read" T row column | "open-scan" stamp | "scan-read" scan row column
//!        | "sum" scan column | "close" scan | "merge" range column through | "release"
//!        | "page-cell" column row | "lineage" range column
//!        | "crossings" row column mark from to places | "begin-as" keeper
//!        | "keeper-at" stamp row column | "upgrade" | "downgrade"
//! answer = "refused" number | "done" | "number" number | "version" value stamp | "none"
//!        | "value" value | "sum" count sum | "lineage" through used | "crossings" count stamp*
//! ```
//!
//! "version" and "none" answer the four single-cell reads, "number" and "none" a call for a keeper,
//! "value" a page cell. `form` is the form of the memory at the first call; "upgrade" moves it to the
//! newest form and "downgrade" to the first, unless it is refused. No call is lent a form that it does not
//! work on.
//! All numbers are decimal; values, sums and marks may have a minus sign. `value*` is one value for each
//! column, `stamp*` as many stamps as the count says. `places` is the length of the lent slice that these
//! go to. Every other number fits the width that the command bytes give it.

use std::io::{self, Write};

use crate::call::{Answer, Call, Form, Shape};
use crate::command;
use crate::generate;
use crate::history::History;
use crate::program::count_and_stamps;
use crate::text::NAMES;

/// Writes the run of a seed with so many calls.
pub fn write(seed: u64, calls: usize, output: &mut impl Write) -> io::Result<()> {
    let shape = generate::shape(seed);
    let mut history = History::new(shape);
    let form = match generate::form(seed) {
        Form::First => "first",
        Form::Newest => "newest",
    };
    let Shape { columns, ranges, capacity, spares } = shape;
    writeln!(output, "shape {columns} {ranges} {capacity} {spares} form {form}")?;
    for call in generate::calls(seed, shape, calls) {
        let answer = history.call(&call);
        writeln!(output, "{} => {}", call_words(&call), answer_words(&answer))?;
    }
    Ok(())
}

pub fn call_words(call: &Call) -> String {
    let Some((byte, numbers)) = command::parts(call) else {
        return move_word(call).to_string();
    };
    let mut words = NAMES[usize::from(byte) - 1].to_string();
    for number in numbers {
        words += &format!(" {number}");
    }
    if let Call::Crossings { places, .. } = call {
        words += &format!(" {places}");
    }
    words
}

/// The name of a call without a command byte.
fn move_word(call: &Call) -> &'static str {
    match call.moves_to() {
        Some(Form::Newest) => "upgrade",
        Some(Form::First) => "downgrade",
        None => unreachable!("{call:?} has a command byte"),
    }
}

pub fn answer_words(answer: &Answer) -> String {
    match answer {
        Answer::Refused(number) => format!("refused {number}"),
        Answer::Done => "done".to_string(),
        Answer::Number(number) => format!("number {number}"),
        Answer::Version { value, stamp } => format!("version {value} {stamp}"),
        Answer::None => "none".to_string(),
        Answer::Value(value) => format!("value {value}"),
        Answer::Sum { count, sum } => format!("sum {count} {sum}"),
        Answer::Lineage { through, used } => format!("lineage {through} {used}"),
        Answer::Crossings(stamps) => format!("crossings {}", count_and_stamps(stamps)),
    }
}
