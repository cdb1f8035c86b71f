//! gatebook against the second program on fresh random streams, for a given time:
//! `live SECONDS GATEBOOK REFERENCE [KIND] [FIRST [STREAMS]]`. The two programs are named by their
//! paths. KIND is `random`, if left out, `long` or `largest`; FIRST the first seed, from the clock
//! if left out; STREAMS the most streams.

use std::env;
use std::process::ExitCode;
use std::time::{Duration, SystemTime, UNIX_EPOCH};

use checks::live::{compare, Failure, Streams, Tally};

fn main() -> ExitCode {
    let mut words: Vec<String> = env::args().skip(1).collect();
    let kind = words.get(3).and_then(|word| Streams::of(word));
    if kind.is_some() {
        words.remove(3);
    }
    let number = |place: usize| words.get(place).map(|word| word.parse::<u64>());
    let (Some(Ok(seconds)), Some(gatebook), Some(reference), first, most, true) =
        (number(0), words.get(1), words.get(2), number(3), number(4), words.len() <= 5)
    else {
        eprintln!("live SECONDS GATEBOOK REFERENCE [random|long|largest] [FIRST [STREAMS]]");
        return ExitCode::from(2);
    };
    let clock = || SystemTime::now().duration_since(UNIX_EPOCH).map_or(0, |time| time.as_micros());
    let (Ok(first), Ok(most)) = (first.unwrap_or(Ok(clock() as u64)), most.unwrap_or(Ok(u64::MAX)))
    else {
        eprintln!("live: FIRST and STREAMS are numbers");
        return ExitCode::from(2);
    };
    let programs = [vec![gatebook.clone()], vec![reference.clone(), "run".to_string()]];
    let mut tally = Tally::default();
    let time = Duration::from_secs(seconds);
    let kind = kind.unwrap_or(Streams::Random);
    let result = compare([&programs[0], &programs[1]], kind, first, time, most, &mut tally);
    println!("compared from seed {first}: {tally}");
    println!(
        "commands a second, with a process for each stream: gatebook {:.0}, the second program {:.0}",
        tally.rate(0),
        tally.rate(1)
    );
    match result {
        Ok(()) => {
            println!("no difference");
            ExitCode::SUCCESS
        }
        Err(Failure::Difference(difference)) => {
            println!("difference: {difference}");
            println!("the stream: reference generate ..; its commands: | reference decode");
            ExitCode::FAILURE
        }
        Err(Failure::Channel(error)) => {
            eprintln!("live: {error}");
            ExitCode::from(2)
        }
    }
}
