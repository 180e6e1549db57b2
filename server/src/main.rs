//! `spoonharbor-lsp`: a language server for Solnix probes, on standard input and output.

mod client;
mod comments;
mod failure;
mod feature;
mod frame;
mod incoming;
mod lines;
mod names;
mod open;
mod outgoing;
mod params;
mod queue;
mod server;
mod settings;

use std::io::Write;
use std::process::ExitCode;

/// What is said where the command is called in another way than an editor does.
const USAGE: &str = "\
usage: spoonharbor-lsp [--stdio]

A language server for Solnix probes: an editor starts it and speaks to it on standard input and output.
The page EDITORS.md says how neovim, vim, emacs and VS Code are told of it.

    --stdio      what is done anyway; some editors say it
    --version    print the version
    --help       print this
";

fn main() -> ExitCode {
    let words: Vec<String> = std::env::args().skip(1).collect();
    let words: Vec<&str> = words.iter().map(String::as_str).collect();
    match words.as_slice() {
        [] | ["--stdio"] => server::run(std::io::stdin(), std::io::stdout()),
        ["--version"] => printed(concat!("spoonharbor-lsp ", env!("CARGO_PKG_VERSION"), "\n")),
        ["--help" | "-h"] => printed(USAGE),
        _ => {
            let _ = std::io::stderr().write_all(USAGE.as_bytes());
            ExitCode::from(2)
        }
    }
}

fn printed(words: &str) -> ExitCode {
    match std::io::stdout().write_all(words.as_bytes()) {
        Ok(()) => ExitCode::SUCCESS,
        Err(_) => ExitCode::from(2),
    }
}
