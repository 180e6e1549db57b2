//! What the command does with its arguments.

mod block;
mod check;
mod explain;
mod figures;
mod folder;
mod json;
mod laid;
mod mended;
mod message;
mod output;
mod paint;
mod rows;
mod source;
mod stored;
mod terminal;
mod tree;
mod unified;
mod verb;
mod writing;

use check::Checking;
use figures::Counting;
use laid::Laying;
use mended::Mending;
use output::Output;
use source::{Source, Trouble};
use spoonharbor::{columns, lent, Document, Form, Refusal, LONGEST_TEXT, VERSION};
use std::ffi::{OsStr, OsString};
use std::io::{self, Write};
use std::process::ExitCode;
use verb::{Verb, USAGE};

/// How it went; the worst of several files is that of all.
#[derive(Debug, Clone, Copy, PartialEq, Eq, PartialOrd, Ord)]
pub enum Outcome {
    Fine,
    Refused,
    Trouble,
}

impl From<Outcome> for ExitCode {
    fn from(outcome: Outcome) -> ExitCode {
        ExitCode::from(match outcome {
            Outcome::Fine => 0,
            Outcome::Refused => 1,
            Outcome::Trouble => 2,
        })
    }
}

/// What the arguments ask for.
enum Asked {
    Help(&'static str),
    Version,
    Run(Task),
    /// Nothing that there is, and what to say of it.
    Misused(String),
}

/// A verb, the files that it is done with, and its options.
struct Task {
    verb: Verb,
    files: Vec<OsString>,
    options: Options,
}

/// The file that `-o` names to be written, the text that `--text` names, the form that `--form` asks for, how `check`
/// checks, what `layout` does, what `figures` prints, whether with `--check` something is only told, and whether `--force` writes over what would
/// stay.
#[derive(Default)]
pub struct Options {
    output: Option<OsString>,
    text: Option<OsString>,
    form: Option<Form>,
    checking: Checking,
    laying: Laying,
    counting: Counting,
    only_told: bool,
    is_forced: bool,
}

/// Runs the command and gives back its exit status.
pub fn run(arguments: &[OsString]) -> ExitCode {
    let mut out = Output::new(io::stdout().lock());
    let written = answered(asked(arguments), &mut out).and_then(|outcome| {
        out.flush()?;
        Ok(outcome)
    });
    match written {
        Ok(outcome) => outcome.into(),
        Err(error) => {
            complain(&format!("standard output: {error}"));
            Outcome::Trouble.into()
        }
    }
}

/// Reads the arguments: a verb, its options, and its files.
fn asked(arguments: &[OsString]) -> Asked {
    let Some((first, rest)) = arguments.split_first() else {
        return Asked::Misused("a verb is missing".to_string());
    };
    match (first.to_str(), Verb::named(first)) {
        (_, Some(verb)) => asked_of(verb, &parted(rest)),
        (Some("help" | "--help" | "-h"), _) => {
            let verb = rest.first().and_then(|verb| Verb::named(verb));
            Asked::Help(verb.map_or(USAGE, Verb::usage))
        }
        (Some("version" | "--version" | "-V"), _) => Asked::Version,
        _ if is_option(first) => Asked::Misused(unknown_option(first)),
        _ => Asked::Misused(format!("unknown verb {}", first.to_string_lossy())),
    }
}

/// The arguments, with `--color=WHEN` and `--deny=WHAT` as two; what stands behind `--` stays as it is.
fn parted(arguments: &[OsString]) -> Vec<OsString> {
    let options = arguments.iter().take_while(|argument| *argument != "--");
    let count = options.clone().count();
    let parts = options.flat_map(|argument| {
        match argument.to_str().and_then(|word| word.split_once('=')) {
            Some((name @ ("--color" | "--deny"), choice)) => vec![name.into(), choice.into()],
            _ => vec![argument.clone()],
        }
    });
    parts.chain(arguments[count..].iter().cloned()).collect()
}

/// Reads a verb's arguments. What stands behind `--` is a file, whatever it begins with.
fn asked_of(verb: Verb, arguments: &[OsString]) -> Asked {
    let mut files = Vec::new();
    let mut options = Options::default();
    let mut rest = arguments.iter();
    while let Some(argument) = rest.next() {
        let option = argument.to_str().filter(|option| verb.takes(option));
        match option.or(argument.to_str()) {
            Some("--") => files.extend(rest.by_ref().cloned()),
            Some("--help" | "-h") => return Asked::Help(verb.usage()),
            Some("--version" | "-V") => return Asked::Version,
            Some("-o") if option.is_some() => options.output = rest.next().cloned(),
            Some("--text") if option.is_some() => options.text = rest.next().cloned(),
            Some("--style") if option.is_some() => options.checking.with_style = true,
            Some(word @ ("--each" | "--json" | "--csv" | "--bars"))
                if option.is_some() && verb == Verb::Figures =>
            {
                if let Err(lack) = options.counting.choose(word) {
                    return misused(verb, lack);
                }
            }
            Some("--json") if option.is_some() => options.checking.as_json = true,
            Some(word @ ("--deny" | "--color")) if option.is_some() => {
                if let Err(lack) = options.checking.choose(word, rest.next()) {
                    return misused(verb, lack);
                }
            }
            Some(word @ ("--check" | "--diff" | "--write" | "--drop-comments"))
                if option.is_some() && verb == Verb::Layout =>
            {
                if let Err(lack) = options.laying.choose(word) {
                    return misused(verb, lack);
                }
            }
            Some("--check") if option.is_some() => options.only_told = true,
            Some("--force") if option.is_some() => options.is_forced = true,
            Some("--form") if option.is_some() => {
                match rest.next().and_then(|form| form_of(form)) {
                    Some(form) => options.form = Some(form),
                    None => return misused(verb, "behind --form 1 or 2 is wanted"),
                }
            }
            _ if is_option(argument) => return Asked::Misused(unknown_option(argument)),
            _ => files.push(argument.clone()),
        }
    }
    match verb.lacks(&files, &options) {
        Some(lack) => misused(verb, lack),
        None => Asked::Run(Task {
            verb,
            files,
            options,
        }),
    }
}

fn misused(verb: Verb, lack: &str) -> Asked {
    Asked::Misused(format!("{}: {lack}", verb.name()))
}

/// The form that an argument names.
fn form_of(argument: &OsStr) -> Option<Form> {
    let number = argument.to_str()?.parse().ok()?;
    Form::from_number(number)
}

/// Whether an argument is an option; `-` is a file.
fn is_option(argument: &OsStr) -> bool {
    argument.len() > 1 && argument.as_encoded_bytes().starts_with(b"-")
}

fn unknown_option(option: &OsStr) -> String {
    let option = option.to_string_lossy();
    format!("unknown option {option}; a file whose name begins with - stands behind --")
}

/// Does what is asked.
fn answered(asked: Asked, out: &mut impl Write) -> io::Result<Outcome> {
    match asked {
        Asked::Help(usage) => {
            out.write_all(usage.as_bytes())?;
            Ok(Outcome::Fine)
        }
        Asked::Version => {
            writeln!(out, "spoonharbor {}", env!("CARGO_PKG_VERSION"))?;
            Ok(Outcome::Fine)
        }
        Asked::Misused(complaint) => {
            complain(&complaint);
            complain_with(USAGE);
            Ok(Outcome::Trouble)
        }
        Asked::Run(_) if lent::version() != VERSION => {
            complain("this command was built with the library of another version");
            Ok(Outcome::Trouble)
        }
        Asked::Run(task) if task.verb == Verb::Explain => explain::explain_all(&task.files, out),
        Asked::Run(task) if task.verb == Verb::Figures => {
            figures::count_all(&task.files, task.options.counting, out)
        }
        Asked::Run(task) => {
            let mut worst = Outcome::Fine;
            for file in &task.files {
                worst = worst.max(match task.verb {
                    Verb::Check | Verb::Layout => all_done(&task, file, out)?,
                    _ => done(&task, file, out)?,
                });
            }
            Ok(worst)
        }
    }
}

/// Does a task with each of the files that an argument stands for.
fn all_done(task: &Task, argument: &OsStr, out: &mut impl Write) -> io::Result<Outcome> {
    let files = match folder::probes(argument) {
        Ok(files) => files,
        Err(trouble) => return troubled(&trouble, out),
    };
    let mut worst = Outcome::Fine;
    for file in &files {
        worst = worst.max(done(task, file, out)?);
    }
    Ok(worst)
}

/// Does a task with one of its files.
fn done(task: &Task, file: &OsStr, out: &mut impl Write) -> io::Result<Outcome> {
    let Options {
        output,
        text,
        form,
        checking,
        laying,
        only_told,
        is_forced,
        counting: _,
    } = &task.options;
    let read = Source::read(file, task.verb.most_bytes()).and_then(|source| {
        let text = text.as_deref().map(|text| Source::read(text, LONGEST_TEXT));
        Ok((source, text.transpose()?))
    });
    let (source, text) = match read {
        Ok(read) => read,
        Err(trouble) => return troubled(&trouble, out),
    };
    let output = output.as_deref().unwrap_or_default();
    let written = match (task.verb, &text) {
        (Verb::Check, _) => Ok(check::check(&source, *checking, out)?),
        (Verb::Rows, _) => Ok(shown(&source, out, rows::print)?),
        (Verb::Tree, _) => Ok(shown(&source, out, tree::print)?),
        (Verb::Layout, _) => laid::lay_out(&source, file, *laying, *is_forced, out)?,
        (Verb::Load, text) => Ok(stored::load(&source, text.as_ref(), out)?),
        (Verb::Store, _) => stored::store(&source, output, *is_forced, out)?,
        (Verb::Move, Some(text)) => {
            let form = form.unwrap_or(Form::Full);
            mended::move_to(&source, text, form, output, *is_forced, out)?
        }
        (Verb::Mend, Some(text)) => {
            let asked = Mending {
                form: *form,
                is_only_told: *only_told,
                is_forced: *is_forced,
            };
            mended::mend(&source, file, text, &asked, out)?
        }
        (Verb::Move | Verb::Mend, None) | (Verb::Explain | Verb::Figures, _) => {
            Ok(Outcome::Trouble)
        }
    };
    match written {
        Ok(outcome) => Ok(outcome),
        Err(trouble) => troubled(&trouble, out),
    }
}

/// Prints a text in some way. The refusal that ends the reading follows what there is to print.
fn shown<W: Write>(
    source: &Source,
    out: &mut W,
    print: impl Fn(&Document, &mut W) -> io::Result<Result<(), Refusal>>,
) -> io::Result<Outcome> {
    let printed = match Document::open(source.bytes.clone()) {
        Ok(document) => print(&document, out)?,
        Err(refusal) => Err(refusal),
    };
    match printed {
        Ok(()) => Ok(Outcome::Fine),
        Err(refusal) => {
            message::refused(source, &refusal, out)?;
            Ok(Outcome::Refused)
        }
    }
}

/// Complains of a file behind all that was printed so far, so that what is said of several files stays in order.
fn troubled(trouble: &Trouble, out: &mut impl Write) -> io::Result<Outcome> {
    out.flush()?;
    complain(&trouble.to_string());
    Ok(Outcome::Trouble)
}

fn complain(message: &str) {
    complain_with(&format!("spoonharbor: {message}\n"));
}

/// To standard error; if even that is closed, the exit status has to do.
fn complain_with(text: &str) {
    let _ = io::stderr().write_all(text.as_bytes());
}
