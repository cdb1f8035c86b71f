//! A store against the plain history on the random lists of COUNT seeds: `agree FIRST COUNT [STORE]`.

use std::process::ExitCode;

fn main() -> ExitCode {
    checks::command_line::run("agree", checks::agree::run)
}
