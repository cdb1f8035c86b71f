//! The compiled library against the plain history, the stored facts, the papers' words and the plain
//! page store.
//! Longer runs: the binaries with the stores `library` and `wrapper`.
#![cfg(feature = "library")]

use checks::library::{Library, Wrapper};
use checks::plain::Plain;
use checks::{agree, damage, same};

#[test]
fn answers_are_those_of_the_plain_history() {
    agree::run(&Library, 0, 600).expect("no difference");
}

#[test]
fn refusals_are_those_of_the_facts_and_of_the_words() {
    // The store that the first seed damages is in form 1, that of the second in the newest.
    damage::run(&Library, 0, 2).expect("no difference");
}

#[test]
fn answers_and_bytes_are_those_of_the_plain_page_store() {
    same::run(&Plain::<0>, &Library, 0, 300).expect("no difference");
}

#[test]
fn the_rust_crate_answers_as_the_c_interface() {
    same::run(&Library, &Wrapper, 0, 300).expect("no difference");
}
