//! The comparison of two programs, tried on programs that every system has.

use std::time::Duration;

use checks::live::{compare, Failure, Streams, Tally};

fn compared(left: &[&str], right: &[&str], time: Duration) -> (Result<(), Failure>, Tally) {
    let words = |program: &[&str]| program.iter().map(|word| word.to_string()).collect::<Vec<_>>();
    let mut tally = Tally::default();
    let programs = [&words(left)[..], &words(right)[..]];
    let result = compare(programs, Streams::Random, 0, time, 24, &mut tally);
    (result, tally)
}

const LONG: Duration = Duration::from_secs(600);

#[test]
fn equal_programs_do_not_differ() {
    // Seed 15 is a long stream, of more bytes than a pipe holds.
    let (result, tally) = compared(&["cat"], &["cat"], LONG);
    assert!(result.is_ok(), "{result:?}");
    assert_eq!(tally.streams, 24);
    assert!(tally.bytes_written > 200_000 && tally.bytes_read == tally.bytes_written);
}

#[test]
fn a_difference_is_said_with_its_seed_and_line() {
    let (result, tally) = compared(&["cat"], &["true"], LONG);
    let Err(Failure::Difference(difference)) = result else { panic!("{result:?}") };
    assert!(difference.starts_with("generate 0, line 1: "), "{difference}");
    assert!(difference.ends_with(" beside nothing"), "{difference}");
    assert_eq!(tally.streams, 1);
}

#[test]
fn streams_are_long_or_at_the_largest_shape() {
    for seed in 0..24 {
        assert!(Streams::Long.stream(seed).len() > 100_000);
        assert_eq!(Streams::Largest.stream(seed)[..6], [4, 4, 64, 0, 16, 0]);
    }
}

#[test]
fn a_failing_program_is_a_difference() {
    let (result, _) = compared(&["true"], &["false"], LONG);
    assert!(matches!(result, Err(Failure::Difference(_))), "{result:?}");
}

#[test]
fn a_missing_program_is_no_difference() {
    let (result, _) = compared(&["cat"], &["/nowhere/program"], LONG);
    assert!(matches!(result, Err(Failure::Channel(_))), "{result:?}");
}

#[test]
fn the_time_ends_a_comparison() {
    let (result, tally) = compared(&["cat"], &["cat"], Duration::ZERO);
    assert!(result.is_ok() && tally.streams == 0);
}
