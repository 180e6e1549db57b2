//! The terminal: how wide it is, and a line on it that says how far the work is.

use std::env;
use std::io::{self, IsTerminal, Write};
use std::os::fd::AsFd;
use std::process::{Command, Stdio};
use std::time::{Duration, Instant};

/// How wide a text is that nobody says the width of.
const COLUMNS: usize = 80;

/// How many columns there are: as the variable `COLUMNS` says, else as the terminal of standard output does, else 80.
pub fn columns() -> usize {
    let said = env::var("COLUMNS").ok();
    let said = said.and_then(|columns| columns.parse().ok());
    said.filter(|columns| *columns > 0)
        .or_else(terminal_columns)
        .unwrap_or(COLUMNS)
}

/// How many columns the terminal of standard output has, if it is one and `stty`, which every system with terminals has, knows.
fn terminal_columns() -> Option<usize> {
    let output = io::stdout();
    if !output.is_terminal() {
        return None;
    }
    let terminal = output.as_fd().try_clone_to_owned().ok()?;
    let mut asked = Command::new("stty");
    asked.arg("size").stdin(terminal).stderr(Stdio::null());
    columns_of(&String::from_utf8(asked.output().ok()?.stdout).ok()?)
}

/// The columns of what `stty size` prints: rows and columns. A terminal that does not know has 0.
fn columns_of(size: &str) -> Option<usize> {
    let columns = size.split_whitespace().nth(1)?.parse().ok()?;
    (columns > 0).then_some(columns)
}

/// How long the work goes on before it is said how far it is, and between two such times.
const PAUSE: Duration = Duration::from_millis(200);

/// A line on the terminal of standard error that says how many files are done. Elsewhere there is none.
pub struct Progress {
    is_on: bool,
    is_shown: bool,
    done: usize,
    all: usize,
    said: Instant,
}

impl Progress {
    /// A line for so many files, if one is wanted at all.
    pub fn of(all: usize, is_wanted: bool) -> Progress {
        let is_dumb = env::var_os("TERM").is_some_and(|value| value == "dumb");
        Progress {
            is_on: is_wanted && io::stderr().is_terminal() && !is_dumb,
            is_shown: false,
            done: 0,
            all,
            said: Instant::now(),
        }
    }

    /// One more file is done.
    pub fn step(&mut self) {
        self.done += 1;
        if !self.is_on || self.said.elapsed() < PAUSE {
            return;
        }
        self.said = Instant::now();
        self.is_shown = true;
        // If standard error is closed, nothing is lost.
        let _ = write!(io::stderr(), "\r{} of {} files\x1b[K", self.done, self.all);
    }

    /// Takes the line away, before something else is said.
    pub fn clear(&mut self) {
        if self.is_shown {
            let _ = write!(io::stderr(), "\r\x1b[K");
            self.is_shown = false;
        }
    }
}

#[cfg(test)]
mod tests {
    use super::*;

    #[test]
    fn the_second_number_is_the_columns() {
        assert_eq!(columns_of("24 132\n"), Some(132));
        assert_eq!(columns_of("0 0\n"), None);
        assert_eq!(columns_of(""), None);
        assert_eq!(columns_of("24 wide"), None);
    }
}
