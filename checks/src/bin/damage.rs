//! A store's refusals against the stored facts and the papers' words on bytes that no call made: for
//! each of COUNT seeds every byte of a good store, random memories, and stores with words changed that
//! the facts leave free. `damage FIRST COUNT [STORE]`.

use std::process::ExitCode;

fn main() -> ExitCode {
    checks::command_line::run("damage", checks::damage::run)
}
