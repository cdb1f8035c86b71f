//! The benchmark. Each call and each move at four shapes and three fillings, the bound tests of the stored
//! facts beside a plain read, how the cost grows with what is used, crossings of a row with as many
//! records as can be, and SQLite holding the same versions.
//! The plain page store is the measure; with the feature `library` the compiled library stands beside
//! it, with the ratio. Everything is measured in one run and printed; `write FOLDER` also writes the
//! tables and a plot.

mod bounds;
mod calls;
mod crossings;
mod filled;
mod growth;
#[cfg(feature = "library")]
mod interfaces;
mod plot;
mod report;
#[cfg(feature = "sqlite")]
mod sqlite;
mod time;

use std::path::Path;
use std::{env, fs, process};

use checks::plain::Plain;
use checks::Store;
use reference::Shape;

/// The worked example's shape, the program's, a middle one and the largest.
const SHAPES: [Shape; 4] = [
    Shape { columns: 2, ranges: 1, capacity: 4, spares: 1 },
    Shape { columns: 4, ranges: 4, capacity: 64, spares: 16 },
    Shape { columns: 8, ranges: 8, capacity: 256, spares: 64 },
    Shape { columns: 16, ranges: 16, capacity: 512, spares: 256 },
];
#[cfg(feature = "sqlite")]
const PROGRAM: Shape = SHAPES[1];
const LARGEST: Shape = SHAPES[3];

/// The stamps lent for crossings, as many as gatebook lends.
const PLACES: u32 = 16;

/// A store with its name.
type Named = (&'static str, Box<dyn Store>);

/// The stores that are timed. The first one is the measure.
fn stores() -> Vec<Named> {
    vec![
        ("plain", Box::new(Plain::<0>)),
        #[cfg(feature = "library")]
        ("library", Box::new(checks::library::Library)),
    ]
}

fn main() {
    let words: Vec<String> = env::args().skip(1).collect();
    let folder = match words.iter().map(String::as_str).collect::<Vec<_>>()[..] {
        [] => None,
        ["write", folder] => Some(folder),
        _ => {
            eprintln!("usage: bench [write FOLDER]");
            process::exit(2);
        }
    };
    let stores = stores();
    let mut report = report::start();
    let mut ratios = Vec::new();
    for shape in SHAPES {
        ratios.push(calls::measure(&stores, shape, &mut report));
    }
    bounds::measure(&stores, &mut report);
    let curves = growth::measure(&stores, &mut report);
    crossings::measure(&stores, &mut report);
    #[cfg(feature = "library")]
    interfaces::measure(&mut report);
    #[cfg(feature = "sqlite")]
    let beside = sqlite::measure(&stores, &mut report);
    #[cfg(not(feature = "sqlite"))]
    let beside = [];
    print!("{report}");
    if let Some(folder) = folder {
        let write = |name: &str, text: &str| {
            let path = Path::new(folder).join(name);
            if let Err(error) = fs::write(&path, text) {
                eprintln!("{}: {error}", path.display());
                process::exit(1);
            }
        };
        write("BENCHMARK.md", &report.to_string());
        write("benchmark.svg", &plot::page(&ratios, &curves, &beside));
    }
}

fn named(shape: &Shape) -> String {
    let Shape { columns, ranges, capacity, spares } = shape;
    format!("{columns}, {ranges}, {capacity}, {spares}")
}
