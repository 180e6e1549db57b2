//! `spoonharbor layout`: programs in the one layout, printed, held against the files, or written.

use super::check;
use super::paint::Colour;
use super::source::{Source, Trouble};
use super::unified::Diff;
use super::writing::Place;
use super::{complain, Outcome};
use spoonharbor::{Document, Reason, Refusal};
use std::ffi::{OsStr, OsString};
use std::io::{self, Write};
use std::path::Path;

/// What becomes of a layout.
#[derive(Debug, Clone, Copy, PartialEq, Eq, Default)]
enum Use {
    #[default]
    Print,
    /// Only the name of a file that is not in it.
    Check,
    Diff,
    Write,
}

/// What is done with layouts, and whether a file's comments may be lost.
#[derive(Debug, Clone, Copy, Default)]
pub struct Laying {
    used: Use,
    drops_comments: bool,
}

impl Laying {
    /// Takes an option, or says why not.
    pub fn choose(&mut self, option: &str) -> Result<(), &'static str> {
        let used = match option {
            "--check" => Use::Check,
            "--diff" => Use::Diff,
            "--write" => Use::Write,
            _ => {
                self.drops_comments = true;
                return Ok(());
            }
        };
        if self.used != Use::Print && self.used != used {
            return Err("one of --check, --diff and --write is wanted");
        }
        self.used = used;
        Ok(())
    }

    /// What is wrong with the files and options, if anything.
    pub fn lacks(self, files: &[OsString], is_forced: bool) -> Option<&'static str> {
        match self.used {
            Use::Write if files.iter().any(|file| file == "-") => {
                Some("with --write the path of a file is wanted")
            }
            Use::Write => None,
            _ if self.drops_comments => Some("--drop-comments goes with --write"),
            _ if is_forced => Some("--force goes with --write"),
            _ => None,
        }
    }
}

/// Lays out one text, which stands at a path, or says why it cannot be written.
pub fn lay_out(
    source: &Source,
    path: &OsStr,
    laying: Laying,
    is_forced: bool,
    out: &mut impl Write,
) -> io::Result<Result<Outcome, Trouble>> {
    let laid = Document::open(source.bytes.clone())
        .and_then(|document| Ok((document.layout()?, comments(&document))));
    let (layout, comments) = match laid {
        Ok(laid) => laid,
        Err(refusal) => return refused(source, &refusal, out).map(Ok),
    };
    let is_in_it = source.bytes == layout.as_bytes();
    match laying.used {
        Use::Print => out.write_all(layout.as_bytes())?,
        Use::Check if !is_in_it => {
            writeln!(out, "{}", source.name)?;
            return Ok(Ok(Outcome::Refused));
        }
        Use::Diff => Diff::of(&source.bytes, layout.as_bytes()).print(path, out)?,
        Use::Write if is_in_it => writeln!(out, "{}: in the layout already", source.name)?,
        Use::Write if comments > 0 && !laying.drops_comments => {
            return stays(source, comments, out).map(Ok);
        }
        Use::Write => {
            if let Err(error) = write(source, path, layout.as_bytes(), is_forced) {
                return Ok(Err(Trouble::new(path, error)));
            }
            writeln!(out, "{}: laid out{}", source.name, lost(comments))?;
        }
        Use::Check => {}
    }
    Ok(Ok(Outcome::Fine))
}

/// How many comments a text has.
fn comments(document: &Document) -> usize {
    document.rows().map(|row| row.comments).sum()
}

/// Tells why a text has no layout, after all that was printed so far.
fn refused(source: &Source, refusal: &Refusal, out: &mut impl Write) -> io::Result<Outcome> {
    out.flush()?;
    if refusal.reason == Reason::LayoutTooLong {
        complain(&format!("{}: {refusal}", source.name));
        return Ok(Outcome::Refused);
    }
    let mut complaints = io::stderr().lock();
    let paint = Colour::Auto.paint_on(&complaints);
    // If standard error is closed, the exit status has to do.
    let _ = check::refused(source, paint, &mut complaints);
    Ok(Outcome::Refused)
}

/// Tells that a file stays for its comments.
fn stays(source: &Source, comments: usize, out: &mut impl Write) -> io::Result<Outcome> {
    out.flush()?;
    complain(&format!(
        "{}: it has {}, which no layout has, and stays; --drop-comments writes it without",
        source.name,
        counted(comments)
    ));
    Ok(Outcome::Refused)
}

/// What is said of the comments that a written file lost.
fn lost(comments: usize) -> String {
    match comments {
        0 => String::new(),
        _ => format!(", without its {}", counted(comments)),
    }
}

fn counted(comments: usize) -> String {
    match comments {
        1 => "1 comment".to_string(),
        _ => format!("{comments} comments"),
    }
}

/// Writes a layout in the place of the text that it was made of, if that still stands there.
fn write(source: &Source, path: &OsStr, layout: &[u8], is_forced: bool) -> io::Result<()> {
    let place = Place::find(Path::new(path))?;
    match (&place, place.holds(&source.bytes)) {
        (Place::Stream(_), _) => Err(io::Error::other("it is a pipe or a device")),
        (_, true) => place.write(layout, is_forced),
        (_, false) => Err(io::Error::other("it was changed meanwhile, and stays")),
    }
}

#[cfg(test)]
mod tests {
    use super::*;
    use std::fs;

    /// A text that was changed after it was read is not written over by the layout of what it was.
    #[test]
    fn what_was_changed_meanwhile_stays() {
        let name = format!("spoonharbor-{}-laid", std::process::id());
        let path = std::env::temp_dir().join(name);
        fs::write(&path, "unit u{}").unwrap();
        let Ok(source) = Source::read(path.as_os_str(), 100) else {
            panic!("it can be read");
        };
        fs::write(&path, "unit v{}").unwrap();
        let error = write(&source, path.as_os_str(), b"unit u {\n}\n", true).unwrap_err();
        assert_eq!(error.to_string(), "it was changed meanwhile, and stays");
        assert_eq!(fs::read(&path).unwrap(), b"unit v{}");
        fs::remove_file(&path).unwrap();
        assert!(write(&source, path.as_os_str(), b"", true).is_err());
        assert!(!path.exists());
    }
}
