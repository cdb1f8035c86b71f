//! The refusals here beside those of the C header. That the functions, the structs and the limit on
//! open scans are the same shows in checks/, which compares both with the exports (tests/declared.rs).

use deskrook::{c, Refusal};

const HEADER: &str = include_str!("../../c/deskrook.h");

/// The header's result numbers, each with its name in lower case and without underscores.
fn results() -> Vec<(String, u32)> {
    let lines = HEADER.lines().filter_map(|line| line.trim().strip_prefix("DESKROOK_"));
    lines
        .filter_map(|line| {
            let (name, rest) = line.split_once(" = ")?;
            let digits: String = rest.chars().take_while(char::is_ascii_digit).collect();
            Some((name.replace('_', "").to_lowercase(), digits.parse().ok()?))
        })
        .collect()
}

#[test]
fn the_refusals_have_the_headers_names_and_numbers() {
    let mut expected = vec![("ok".to_string(), c::OK)];
    for refusal in Refusal::ALL {
        expected.push((format!("{refusal:?}").to_lowercase(), refusal.number()));
    }
    expected.push(("none".to_string(), c::NONE));
    assert_eq!(results(), expected);
}
