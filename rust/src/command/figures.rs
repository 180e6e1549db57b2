//! `spoonharbor figures`: what is counted of many programs, added up.

use super::source::Source;
use super::terminal::{self, Progress};
use super::{complain, folder, troubled, Outcome};
use bars::print_bars;
use spoonharbor::lent::{self, COUNT, NODE_WORDS, ROW_WORDS};
use spoonharbor::{Figure, MapType, ProgramKind, Refusal, Tally, LONGEST_TEXT};
use std::ffi::{OsStr, OsString};
use std::io::{self, IsTerminal, Write};

mod bars;
mod data;

/// How figures are written.
#[derive(Debug, Clone, Copy, PartialEq, Eq, Default)]
enum Form {
    #[default]
    Table,
    Json,
    Csv,
    Bars,
}

/// What is printed of figures.
#[derive(Debug, Clone, Copy, Default)]
pub struct Counting {
    form: Form,
    /// Whether each file's figures are printed too, before the sum.
    with_each: bool,
}

/// Figures of a file, or of all files together.
pub struct Figures<'a> {
    /// The file's name; none of the sum.
    name: Option<&'a str>,
    files: u64,
    left_out: u64,
    tally: &'a Tally,
}

/// The sum so far.
#[derive(Default)]
struct Sum {
    tally: Tally,
    files: u64,
    left_out: u64,
}

/// Room for the rows and nodes of any text, which serves one file after the other.
struct Room {
    rows: Vec<u32>,
    nodes: Vec<u32>,
}

impl Room {
    fn new() -> Room {
        Room {
            rows: vec![0; (LONGEST_TEXT + 1) * ROW_WORDS],
            nodes: vec![0; (LONGEST_TEXT + 1) * NODE_WORDS],
        }
    }

    /// What [`spoonharbor::Document::tally`] tells of a text.
    fn tally(&mut self, text: &[u8]) -> Result<Tally, Refusal> {
        let table = lent::scan(text, &mut self.rows);
        let parsed = lent::parse(text, &self.rows, &table, &mut self.nodes);
        match Refusal::from_words(&parsed) {
            Some(refusal) => Err(refusal),
            None => Tally::of_nodes(&self.nodes[..parsed[COUNT] as usize * NODE_WORDS]),
        }
    }
}

impl Counting {
    /// Takes an option, or says why not.
    pub fn choose(&mut self, option: &str) -> Result<(), &'static str> {
        let form = match option {
            "--json" => Form::Json,
            "--csv" => Form::Csv,
            "--bars" => Form::Bars,
            _ => {
                self.with_each = true;
                return Ok(());
            }
        };
        if self.form != Form::Table && self.form != form {
            return Err("one of --json, --csv and --bars is wanted");
        }
        self.form = form;
        Ok(())
    }
}

/// Counts every file that the arguments stand for.
pub fn count_all(
    arguments: &[OsString],
    counting: Counting,
    out: &mut impl Write,
) -> io::Result<Outcome> {
    let mut worst = Outcome::Fine;
    let mut files = Vec::new();
    for argument in arguments {
        match folder::probes(argument) {
            Ok(found) => files.extend(found),
            Err(trouble) => worst = worst.max(troubled(&trouble, out)?),
        }
    }
    if counting.form == Form::Csv {
        data::print_csv_head(out)?;
    }
    // Figures that are printed on the terminal meanwhile say how far the work is.
    let is_seen = counting.with_each && io::stdout().is_terminal();
    let mut work = Work {
        counting,
        room: Room::new(),
        sum: Sum::default(),
        progress: Progress::of(files.len(), !is_seen),
    };
    for file in &files {
        worst = worst.max(work.count(file, out)?);
        work.progress.step();
    }
    work.progress.clear();
    print(&work.sum.figures(), counting, out)?;
    Ok(worst)
}

/// The work on several files.
struct Work {
    counting: Counting,
    room: Room,
    sum: Sum,
    progress: Progress,
}

impl Work {
    /// Counts one file and adds it to the sum; one that is no program, or cannot be read, is left out.
    fn count(&mut self, file: &OsStr, out: &mut impl Write) -> io::Result<Outcome> {
        let source = match Source::read(file, LONGEST_TEXT) {
            Ok(source) => source,
            Err(trouble) => {
                self.leave_out();
                return troubled(&trouble, out);
            }
        };
        let told = self.room.tally(&source.bytes);
        let added = told
            .map_err(|refusal| refusal.to_string())
            .and_then(|tally| {
                let added = self.sum.tally.add(&tally);
                added.map_err(|refusal| refusal.to_string())?;
                Ok(tally)
            });
        match added {
            Ok(tally) => {
                self.sum.files += 1;
                self.print_one(&source, &tally, out)?;
                Ok(Outcome::Fine)
            }
            Err(refusal) => {
                self.leave_out();
                out.flush()?;
                complain(&format!("{}: left out: {refusal}", source.name));
                Ok(Outcome::Refused)
            }
        }
    }

    /// One more file is left out, of which something is said next.
    fn leave_out(&mut self) {
        self.progress.clear();
        self.sum.left_out += 1;
    }

    /// Prints the figures of one file, if each file's are asked for.
    fn print_one(
        &mut self,
        source: &Source,
        tally: &Tally,
        out: &mut impl Write,
    ) -> io::Result<()> {
        if !self.counting.with_each {
            return Ok(());
        }
        let figures = Figures {
            name: Some(&source.name),
            files: 1,
            left_out: 0,
            tally,
        };
        print(&figures, self.counting, out)
    }
}

impl Sum {
    fn figures(&self) -> Figures<'_> {
        Figures {
            name: None,
            files: self.files,
            left_out: self.left_out,
            tally: &self.tally,
        }
    }
}

/// Prints figures; an empty line follows those of a file.
fn print(figures: &Figures, counting: Counting, out: &mut impl Write) -> io::Result<()> {
    match counting.form {
        Form::Json => return data::print_json(figures, out),
        Form::Csv => return data::print_csv(figures, out),
        Form::Table | Form::Bars => {}
    }
    match figures.name {
        Some(name) => writeln!(out, "{name}")?,
        None => writeln!(out, "{}", figures.told_files())?,
    }
    match counting.form {
        Form::Bars => print_bars(figures.tally, terminal::columns(), out)?,
        _ => print_table(figures.tally, out)?,
    }
    match figures.name {
        Some(_) => writeln!(out),
        None => Ok(()),
    }
}

impl Figures<'_> {
    /// `2 files`, `1 file, 1 left out`.
    fn told_files(&self) -> String {
        let files = match self.files {
            1 => "1 file".to_string(),
            count => format!("{count} files"),
        };
        match self.left_out {
            0 => files,
            count => format!("{files}, {count} left out"),
        }
    }
}

/// A line of a table: what it is of, and its number.
struct Line {
    label: String,
    count: u128,
    /// The figure, unless it is the sum of several.
    figure: Option<Figure>,
}

impl Line {
    fn of(figure: Figure, count: u64) -> Line {
        let label = match figure {
            Figure::Units(kind) => format!("  {kind}"),
            Figure::Maps(map_type) => format!("  {map_type}"),
            other => other.to_string(),
        };
        Line {
            label,
            count: count.into(),
            figure: Some(figure),
        }
    }

    fn of_sum(label: &str, count: u128) -> Line {
        Line {
            label: label.to_string(),
            count,
            figure: None,
        }
    }
}

/// The lines of a tally: units and below them those of each kind, maps and below them those of each type, and the rest.
fn lines(tally: &Tally) -> Vec<Line> {
    let mut lines = Vec::new();
    for (figure, count) in tally.figures() {
        match figure {
            Figure::Units(ProgramKind::Xdp) => lines.push(Line::of_sum("units", tally.units())),
            Figure::Maps(MapType::Hash) => lines.push(Line::of_sum("maps", tally.maps())),
            _ => {}
        }
        lines.push(Line::of(figure, count));
    }
    lines
}

/// How wide the labels are: as `  raw tracepoint`.
const LABEL: usize = 16;

/// How wide the numbers of some lines are.
fn number_width(lines: &[Line]) -> usize {
    let widths = lines.iter().map(|line| line.count.to_string().len());
    widths.max().unwrap_or(0)
}

fn print_table(tally: &Tally, out: &mut impl Write) -> io::Result<()> {
    let lines = lines(tally);
    let width = number_width(&lines);
    for Line { label, count, .. } in &lines {
        writeln!(out, "{label:<LABEL$} {count:>width$}")?;
    }
    Ok(())
}
