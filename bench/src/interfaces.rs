//! What an interface costs: a latest read through the C interface and through the Rust crate over it.

use checks::library::{Library, Wrapper};
use reference::Call;

use crate::filled::Filled;
use crate::report::{ns, Report};
use crate::{named, time, Named, SHAPES};

/// A call in a memory of no bytes is refused before it looks at anything, so its time is that of
/// passing the arguments and taking the answer.
pub fn measure(report: &mut Report) {
    report.heading("A latest read through each interface", "Nanoseconds. In a memory of no bytes it is refused at once, so that the interface's own cost is left.");
    let stores: [Named; 2] = [("C", Box::new(Library)), ("Rust", Box::new(Wrapper))];
    let latest = Call::Latest { row: 0, column: 0 };
    let heads = ["store", "C", "Rust", "ratio"].map(String::from);
    let row = |name: String, filled: &Filled| {
        let times = time::rounds(&stores, |store| time::calls(store, filled, &[&latest]));
        vec![name, ns(times[0]), ns(times[1]), format!("{:.2}", times[1] / times[0])]
    };
    let refused = Filled { memory: Vec::new(), ..Filled::new(SHAPES[0], 0) };
    let mut rows = vec![row("refused at once".to_string(), &refused)];
    for shape in SHAPES {
        rows.push(row(format!("{}, full", named(&shape)), &Filled::new(shape, 100)));
    }
    report.table(&heads, &rows);
}
