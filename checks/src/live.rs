//! Two programs on the same random streams of commands, each in a process of its own for each
//! stream: what they write is compared.

use std::fmt;
use std::io::{self, ErrorKind, Read, Write};
use std::process::{Command, Stdio};
use std::thread;
use std::time::{Duration, Instant};

use reference::generate;
use reference::random::Random;

/// A program that reads a stream from standard input and writes lines: its path and words.
pub type Program = [String];

/// Which streams are compared.
#[derive(Clone, Copy, Debug)]
pub enum Streams {
    /// Random ones, mostly of a hundred or two of commands.
    Random,
    /// Of over 100,000 bytes each.
    Long,
    /// Shorter ones at the same shape, the largest that gatebook lends memory for.
    Largest,
}

impl Streams {
    pub fn of(word: &str) -> Option<Streams> {
        match word {
            "random" => Some(Streams::Random),
            "long" => Some(Streams::Long),
            "largest" => Some(Streams::Largest),
            _ => None,
        }
    }

    /// The whole commands of a seed's stream at the largest shape.
    fn commands(self, seed: u64) -> Option<usize> {
        match self {
            Streams::Random => None,
            Streams::Long => Some(18_000 + (seed % 4_000) as usize),
            Streams::Largest => Some(100 + (seed % 900) as usize),
        }
    }

    pub fn stream(self, seed: u64) -> Vec<u8> {
        match self.commands(seed) {
            Some(commands) => generate::largest(seed, commands),
            None => generate::stream(seed),
        }
    }

    /// The words by which the second program writes a seed's stream.
    fn words(self, seed: u64) -> String {
        match self.commands(seed) {
            Some(commands) => format!("generate {seed} {commands}"),
            None => format!("generate {seed}"),
        }
    }
}

/// What was compared.
#[derive(Clone, Copy, Debug, Default)]
pub struct Tally {
    pub streams: u64,
    pub commands: u64,
    pub bytes_read: u64,
    pub bytes_written: u64,
    /// How long the processes of each program ran.
    pub times: [Duration; 2],
}

impl fmt::Display for Tally {
    fn fmt(&self, out: &mut fmt::Formatter) -> fmt::Result {
        write!(
            out,
            "{} streams, {} commands, {} bytes of input, {} bytes of output",
            self.streams, self.commands, self.bytes_read, self.bytes_written
        )
    }
}

impl Tally {
    /// The commands that a program answered in a second, its starts included.
    pub fn rate(&self, program: usize) -> f64 {
        self.commands as f64 / self.times[program].as_secs_f64().max(f64::MIN_POSITIVE)
    }
}

/// Why a comparison ended early.
#[derive(Debug)]
pub enum Failure {
    Difference(String),
    /// A program could not be run.
    Channel(io::Error),
}

/// Runs both programs on the streams of the seeds from `first` on, for so long and at most so many
/// streams. What was compared up to then stands in the tally, also where a difference ends it.
pub fn compare(
    programs: [&Program; 2],
    streams: Streams,
    first: u64,
    time: Duration,
    most: u64,
    tally: &mut Tally,
) -> Result<(), Failure> {
    let began = Instant::now();
    for place in 0..most {
        if began.elapsed() >= time {
            break;
        }
        let seed = first.wrapping_add(place);
        let stream = streams.stream(seed);
        let mut outputs = [Vec::new(), Vec::new()];
        for ((program, output), time) in programs.iter().zip(&mut outputs).zip(&mut tally.times) {
            let started = Instant::now();
            *output = run(program, &stream, seed).map_err(Failure::Channel)?;
            *time += started.elapsed();
        }
        let [left, right] = &outputs;
        tally.streams += 1;
        tally.bytes_read += stream.len() as u64;
        tally.bytes_written += left.len() as u64;
        // The first line is that of the shape.
        tally.commands += left.iter().filter(|byte| **byte == b'\n').count().max(1) as u64 - 1;
        if left != right {
            return Err(Failure::Difference(difference(&streams.words(seed), left, right)));
        }
    }
    Ok(())
}

/// One process on a stream.
fn run(program: &Program, stream: &[u8], seed: u64) -> io::Result<Vec<u8>> {
    let mut child = Command::new(&program[0])
        .args(&program[1..])
        .stdin(Stdio::piped())
        .stdout(Stdio::piped())
        .spawn()?;
    let input = child.stdin.take().expect("standard input is a pipe");
    let mut output = child.stdout.take().expect("standard output is a pipe");
    let mut lines = Vec::new();
    thread::scope(|scope| {
        let writer = scope.spawn(move || feed(input, stream, seed));
        output.read_to_end(&mut lines)?;
        writer.join().expect("the writer does not panic")
    })?;
    let status = child.wait()?;
    if !status.success() {
        lines.extend_from_slice(format!("({status})\n").as_bytes());
    }
    Ok(lines)
}

/// Writes a stream, every fourth seed's in pieces of a few bytes.
fn feed(mut input: impl Write, stream: &[u8], seed: u64) -> io::Result<()> {
    let mut random = Random::new(seed ^ 0x7069_6563_6573_0000);
    let mut rest = stream;
    while !rest.is_empty() {
        let most = if seed % 4 == 3 { random.between(1, 40) as usize } else { rest.len() };
        let (piece, behind) = rest.split_at(most.min(rest.len()));
        match input.write_all(piece) {
            // The program has ended, as after an unknown command.
            Err(error) if error.kind() == ErrorKind::BrokenPipe => return Ok(()),
            result => result?,
        }
        rest = behind;
    }
    Ok(())
}

/// Says where two outputs part.
fn difference(stream: &str, left: &[u8], right: &[u8]) -> String {
    let text = |bytes: &[u8]| -> Vec<String> {
        String::from_utf8_lossy(bytes).split_inclusive('\n').map(String::from).collect()
    };
    let (left, right) = (text(left), text(right));
    let place = left.iter().zip(&right).take_while(|(left, right)| left == right).count();
    let line = |lines: &[String]| match lines.get(place) {
        Some(line) => format!("{line:?}"),
        None => "nothing".to_string(),
    };
    format!("{stream}, line {}: {} beside {}", place + 1, line(&left), line(&right))
}
