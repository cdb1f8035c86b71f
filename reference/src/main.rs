//! The command line: runs, translates and generates streams of commands.

#![forbid(unsafe_code)]

use std::io::{self, BufReader, BufWriter, ErrorKind, Read, Write};
use std::process::ExitCode;

use reference::{generate, pack, program, survey::Survey, text, trace};

const USAGE: &str = "\
reference run                  command bytes on standard input, answer lines on standard output
reference encode               readable lines to command bytes
reference decode               command bytes to readable lines
reference generate SEED        a random stream of command bytes
reference generate SEED N      the same at the largest shape: N commands, and one that is cut
reference trace SEED CALLS     a random run, each call with its answer
reference pack [short]         the packed streams of crate replay; short: no number series
reference replay               a pack on standard input, the lines of its streams on standard output
reference survey FIRST COUNT   what the streams of COUNT seeds from FIRST on meet
reference help                 this text
";

/// The most calls of a run that is generated.
const MOST_CALLS: u64 = 1_000_000;

/// Why the program ends without having done its work.
enum Failure {
    /// The words of the command line are wrong.
    Usage(String),
    /// The readable lines given to encode, or the pack given to replay, are wrong.
    Lines(String),
    Channel(io::Error),
}

impl From<io::Error> for Failure {
    fn from(error: io::Error) -> Failure {
        Failure::Channel(error)
    }
}

fn main() -> ExitCode {
    let words: Vec<String> =
        std::env::args_os().skip(1).map(|word| word.to_string_lossy().into_owned()).collect();
    let mut output = BufWriter::new(io::stdout().lock());
    let result = perform(&words, &mut output).and_then(|()| Ok(output.flush()?));
    // What could not be written is not tried again when the writer is dropped.
    let _ = output.into_parts();
    match result {
        Ok(()) => ExitCode::SUCCESS,
        Err(Failure::Channel(error)) if error.kind() == ErrorKind::BrokenPipe => ExitCode::SUCCESS,
        Err(Failure::Channel(error)) => fail(1, &error.to_string()),
        Err(Failure::Lines(message)) => fail(1, &message),
        Err(Failure::Usage(message)) => fail(2, &format!("{message}\n\n{USAGE}")),
    }
}

fn fail(code: u8, message: &str) -> ExitCode {
    let _ = writeln!(io::stderr(), "reference: {}", message.trim_end());
    ExitCode::from(code)
}

fn perform(words: &[String], output: &mut impl Write) -> Result<(), Failure> {
    let words: Vec<&str> = words.iter().map(String::as_str).collect();
    match words[..] {
        ["run"] => program::run(&mut BufReader::new(io::stdin().lock()), output)?,
        ["encode"] => {
            let mut lines = String::new();
            io::stdin().lock().read_to_string(&mut lines)?;
            output.write_all(&text::encode(&lines).map_err(Failure::Lines)?)?;
        }
        ["decode"] => {
            let mut bytes = Vec::new();
            io::stdin().lock().read_to_end(&mut bytes)?;
            output.write_all(text::decode(&bytes).as_bytes())?;
        }
        ["generate", seed] => output.write_all(&generate::stream(number(seed)?))?,
        ["generate", seed, count] => {
            output.write_all(&generate::largest(number(seed)?, calls(count)?))?;
        }
        ["trace", seed, count] => trace::write(number(seed)?, calls(count)?, output)?,
        ["pack"] => output.write_all(&pack::write(&pack::all()))?,
        ["pack", "short"] => output.write_all(&pack::write(&pack::short()))?,
        ["replay"] => {
            let mut bytes = Vec::new();
            io::stdin().lock().read_to_end(&mut bytes)?;
            pack::replay(&pack::read(&bytes).map_err(Failure::Lines)?, output)?;
        }
        ["survey", first, count] => {
            write!(output, "{}", Survey::of(number(first)?, number(count)?))?;
        }
        ["help" | "--help" | "-h"] => write!(output, "{USAGE}\nLine forms:\n\n{}", text::HELP)?,
        [] => return Err(Failure::Usage("a subcommand is missing".to_string())),
        [name, ..] => {
            let message = format!("unknown subcommand or wrong number of words: '{name}'");
            return Err(Failure::Usage(message));
        }
    }
    Ok(())
}

/// A number of calls.
fn calls(word: &str) -> Result<usize, Failure> {
    match number(word)? {
        count if count > MOST_CALLS => {
            Err(Failure::Usage(format!("a number of calls is at most {MOST_CALLS}")))
        }
        count => Ok(count as usize),
    }
}

fn number(word: &str) -> Result<u64, Failure> {
    word.parse().map_err(|_| Failure::Usage(format!("'{word}' is not a number")))
}
