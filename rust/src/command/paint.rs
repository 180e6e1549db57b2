//! Colour: on a terminal, and none in a pipe.

use spoonharbor::diagnostic::Severity;
use std::env;
use std::ffi::OsStr;
use std::io::{self, IsTerminal};

/// When colour is written: where the output is a terminal and nothing speaks against it, always, or never.
#[derive(Debug, Clone, Copy, PartialEq, Eq, Default)]
pub enum Colour {
    #[default]
    Auto,
    Always,
    Never,
}

/// What is written around words that have a colour; nothing if there is none.
#[derive(Debug, Clone, Copy, PartialEq, Eq)]
pub struct Paint {
    is_on: bool,
}

impl Colour {
    /// The choice that a word names.
    pub fn named(word: &OsStr) -> Option<Colour> {
        match word.to_str()? {
            "auto" => Some(Colour::Auto),
            "always" => Some(Colour::Always),
            "never" => Some(Colour::Never),
            _ => None,
        }
    }

    /// The paint for standard output. The variable `NO_COLOR`, and a terminal that says it is dumb, speak against it.
    pub fn paint(self) -> Paint {
        self.paint_on(&io::stdout())
    }

    /// The paint for what is written to an output.
    pub fn paint_on(self, output: &impl IsTerminal) -> Paint {
        let is_said = |name: &str| env::var_os(name).is_some_and(|value| !value.is_empty());
        let is_dumb = env::var_os("TERM").is_some_and(|value| value == "dumb");
        let is_on = self.is_on(output.is_terminal(), is_said("NO_COLOR") || is_dumb);
        Paint { is_on }
    }

    fn is_on(self, is_terminal: bool, is_unwanted: bool) -> bool {
        match self {
            Colour::Auto => is_terminal && !is_unwanted,
            Colour::Always => true,
            Colour::Never => false,
        }
    }
}

impl Paint {
    fn around(self, code: &str, words: &str) -> String {
        match self.is_on && !words.is_empty() {
            true => format!("\x1b[{code}m{words}\x1b[0m"),
            false => words.to_string(),
        }
    }

    /// A heading: `error[21]`.
    pub fn heading(self, severity: Severity, words: &str) -> String {
        self.around(code(severity), words)
    }

    /// What a diagnostic says.
    pub fn message(self, words: &str) -> String {
        self.around("1", words)
    }

    /// What stands beside a source line.
    pub fn gutter(self, words: &str) -> String {
        self.around("1;34", words)
    }

    /// A word in front of something that is added.
    pub fn added(self, words: &str) -> String {
        self.around("1;36", words)
    }
}

fn code(severity: Severity) -> &'static str {
    match severity {
        Severity::Error => "1;31",
        Severity::Warning => "1;33",
    }
}

#[cfg(test)]
mod tests {
    use super::*;

    #[test]
    fn colour_is_for_terminals() {
        assert!(Colour::Auto.is_on(true, false));
        assert!(!Colour::Auto.is_on(true, true));
        assert!(!Colour::Auto.is_on(false, false));
        assert!(Colour::Always.is_on(false, true));
        assert!(!Colour::Never.is_on(true, false));
        assert_eq!(Colour::named(OsStr::new("sometimes")), None);
    }
}
