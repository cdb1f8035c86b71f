//! The words after the name of a binary: `FIRST COUNT [STORE]`, seeds and which store is looked at.

use std::env;
use std::process::ExitCode;

use crate::defined::Defined;
use crate::plain::Plain;
use crate::store::Store;

/// The store of a name: the plain page store, the definitions, or the compiled library where it is
/// linked, through its C interface or through the Rust crate.
pub fn store(name: &str) -> Option<Box<dyn Store>> {
    match name {
        "plain" => Some(Box::new(Plain::<0>)),
        "defined" => Some(Box::new(Defined)),
        #[cfg(feature = "library")]
        "library" => Some(Box::new(crate::library::Library)),
        #[cfg(feature = "library")]
        "wrapper" => Some(Box::new(crate::library::Wrapper)),
        _ => None,
    }
}

/// Runs a check and prints what it came to. Status 1 for a difference, 2 for wrong words.
pub fn run<T: std::fmt::Debug>(
    name: &str,
    check: impl Fn(&dyn Store, u64, u64) -> Result<T, String>,
) -> ExitCode {
    let words: Vec<String> = env::args().skip(1).collect();
    let number = |place: usize| words.get(place).and_then(|word| word.parse::<u64>().ok());
    let store = store(words.get(2).map_or("plain", |word| word.as_str()));
    let (Some(first), Some(count), Some(store), true) =
        (number(0), number(1), store, words.len() <= 3)
    else {
        eprintln!("{name} FIRST COUNT [plain|defined|library|wrapper]");
        eprintln!("library and wrapper with the feature `library`");
        return ExitCode::from(2);
    };
    match check(store.as_ref(), first, count) {
        Ok(tally) => {
            println!("{name}: {tally:?}");
            ExitCode::SUCCESS
        }
        Err(difference) => {
            println!("{name}: {difference}");
            ExitCode::FAILURE
        }
    }
}
