//! The command `spoonharbor`: checks, lists and shows Solnix probes. Exit status 0 if all is well, 1 if a text is refused, 2 if
//! there is trouble.

mod command;

use std::process::ExitCode;

fn main() -> ExitCode {
    let arguments: Vec<_> = std::env::args_os().skip(1).collect();
    command::run(&arguments)
}
