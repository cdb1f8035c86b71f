//! A store against the plain page store, answers and bytes, on random lists and on memories that
//! no call made, and there against the papers' words too: `same FIRST COUNT STORE`.

use std::process::ExitCode;

use checks::plain::Plain;

fn main() -> ExitCode {
    checks::command_line::run("same", |store, first, count| {
        checks::same::run(&Plain::<0>, store, first, count)
    })
}
