//! `spoonharbor move` and `mend`: a stored table with its text at hand, into the other form, or as it should be.

use super::block::{says_short, told_length, BLOCK, LONGEST_FILE};
use super::source::{Source, Trouble};
use super::stored::{complaint, damaged, too_long};
use super::writing::{place_of_table, write_table};
use super::{message, Outcome};
use spoonharbor::{mend_file, move_file, Document, Form, Reason, Refusal, Table};
use std::cmp::Ordering;
use std::ffi::OsStr;
use std::io::{self, Write};
use std::path::Path;

/// Moves a stored table to a form and writes it to a path, or says why not.
pub fn move_to(
    source: &Source,
    text: &Source,
    form: Form,
    output: &OsStr,
    is_forced: bool,
    out: &mut impl Write,
) -> io::Result<Result<Outcome, Trouble>> {
    if let Some(complaint) = too_long(&source.bytes) {
        writeln!(out, "{}: {complaint}", source.name)?;
        return Ok(Ok(Outcome::Refused));
    }
    let file = match move_file(&text.bytes, &source.bytes, form) {
        Ok(file) => file,
        Err(refusal) => {
            writeln!(out, "{}: {}", source.name, complaint(&refusal))?;
            return Ok(Ok(Outcome::Refused));
        }
    };
    if let Err(trouble) = write_table(output, &file, text, is_forced) {
        return Ok(Err(trouble));
    }
    let name = Path::new(output).display();
    let (before, after) = (source.bytes.len(), file.len());
    writeln!(
        out,
        "{}: {form} of {after} bytes in {name} ({before} before)",
        source.name
    )?;
    Ok(Ok(Outcome::Fine))
}

/// How a file is to be mended: in the form asked for, or else in the one of which more of it is right; only told;
/// even if it is another text's, or no table at all.
pub struct Mending {
    pub form: Option<Form>,
    pub is_only_told: bool,
    pub is_forced: bool,
}

/// A file as it should be in a form, and the blocks that differed from that.
struct Mended {
    form: Form,
    file: Vec<u8>,
    blocks: Vec<u32>,
}

/// What a file is beside what a reading of the text stores.
enum State {
    /// Just that.
    Right,
    /// That, but in this form, and the other is asked for.
    InForm(Form),
    /// Another text's, and how that shows.
    OtherText(String),
    /// Damaged in the blocks that differ.
    Damaged,
}

/// Mends the stored table of a path, or only tells what would be mended. Another text's table stays unless it is
/// forced.
pub fn mend(
    source: &Source,
    path: &OsStr,
    text: &Source,
    asked: &Mending,
    out: &mut impl Write,
) -> io::Result<Result<Outcome, Trouble>> {
    let place = match place_of_table(path, text, asked.is_forced) {
        Ok(place) => place,
        Err(trouble) => return Ok(Err(trouble)),
    };
    let mended = match Mended::of(source, text, asked.form) {
        Ok(mended) => mended,
        Err(refusal) => {
            message::refused(text, &refusal, out)?;
            return Ok(Ok(Outcome::Refused));
        }
    };
    let state = mended.state(source, text);
    mended.tell(&state, source, out)?;
    let outcome = match state {
        State::Right => Outcome::Fine,
        _ if asked.is_only_told => mended.tell_to_do(&state, source, out)?,
        State::OtherText(_) if !asked.is_forced => tell_asking(source, text, out)?,
        _ => {
            if let Err(error) = place.write(&mended.file, asked.is_forced) {
                return Ok(Err(Trouble::new(path, error)));
            }
            mended.tell_done(&state, source, out)?
        }
    };
    Ok(Ok(outcome))
}

impl Mended {
    /// In the form asked for, or in the form of which more is right; of two equal ones in that which the file says.
    fn of(source: &Source, text: &Source, asked: Option<Form>) -> Result<Mended, Refusal> {
        if let Some(form) = asked {
            return Mended::in_form(source, text, form);
        }
        let full = Mended::in_form(source, text, Form::Full)?;
        let short = Mended::in_form(source, text, Form::Short)?;
        let takes_short = match short.right_blocks().cmp(&full.right_blocks()) {
            Ordering::Less => false,
            Ordering::Equal => says_short(&source.bytes),
            Ordering::Greater => true,
        };
        Ok(if takes_short { short } else { full })
    }

    fn in_form(source: &Source, text: &Source, form: Form) -> Result<Mended, Refusal> {
        let mut file = source.bytes.clone();
        let blocks = mend_file(&text.bytes, &mut file, form)?;
        Ok(Mended { form, file, blocks })
    }

    /// How many blocks of the file were right.
    fn right_blocks(&self) -> usize {
        let whole = self.file.len() / BLOCK;
        let differing = self
            .blocks
            .iter()
            .filter(|&&block| (block as usize) < whole);
        whole - differing.count()
    }

    /// What the file was before. It is sound if a reading takes it, or refuses it as another text's, which is judged
    /// last.
    fn state(&self, source: &Source, text: &Source) -> State {
        if self.blocks.is_empty() {
            return State::Right;
        }
        let is_right_in = |form: &Form| {
            let mended = Mended::in_form(source, text, *form);
            mended.is_ok_and(|mended| mended.blocks.is_empty())
        };
        if let Some(form) = Form::ALL.into_iter().find(is_right_in) {
            return State::InForm(form);
        }
        let read = Table::load_beside(&text.bytes, &source.bytes);
        let is_sound = match &read {
            Ok(_) => true,
            Err(refusal) => refusal.reason == Reason::OtherText,
        };
        let bytes = text.bytes.len();
        match told_length(&source.bytes).filter(|&told| told != bytes) {
            Some(told) => {
                let what = if is_sound {
                    "sound, but"
                } else {
                    "damaged, and"
                };
                State::OtherText(format!(
                    "{what} of another text: that one has {told} bytes, and {} has {bytes}",
                    text.name
                ))
            }
            None if is_sound => {
                let line = first_line_apart(source, text);
                State::OtherText(format!(
                    "sound, but of another text: in line {line} it differs from {}",
                    text.name
                ))
            }
            None => State::Damaged,
        }
    }

    /// Tells what the file was.
    fn tell(&self, state: &State, source: &Source, out: &mut impl Write) -> io::Result<()> {
        let name = &source.name;
        match state {
            State::Right => writeln!(
                out,
                "{name}: right, {} of {} bytes",
                self.form,
                self.file.len()
            ),
            State::InForm(form) => writeln!(out, "{name}: right, but in {form}"),
            State::OtherText(how) => writeln!(out, "{name}: {how}"),
            State::Damaged => self.blocks.iter().try_for_each(|&block| {
                writeln!(out, "{name}: {}", what_of(block, &source.bytes, &self.file))
            }),
        }
    }

    /// Tells what there is to do.
    fn tell_to_do(
        &self,
        state: &State,
        source: &Source,
        out: &mut impl Write,
    ) -> io::Result<Outcome> {
        if let State::Damaged = state {
            writeln!(
                out,
                "{}: {} to mend in {}",
                source.name,
                self.many(),
                self.form
            )?;
        }
        Ok(Outcome::Refused)
    }

    /// Tells what was done.
    fn tell_done(
        &self,
        state: &State,
        source: &Source,
        out: &mut impl Write,
    ) -> io::Result<Outcome> {
        let done = match state {
            State::Damaged => format!("{} mended", self.many()),
            State::InForm(_) => "moved".to_string(),
            _ => "written anew".to_string(),
        };
        writeln!(
            out,
            "{}: {done}, {} of {} bytes",
            source.name,
            self.form,
            self.file.len()
        )?;
        Ok(Outcome::Fine)
    }

    /// How many blocks differed.
    fn many(&self) -> String {
        match self.blocks.len() {
            1 => "1 block".to_string(),
            many => format!("{many} blocks"),
        }
    }
}

/// Asks for the text of a file that is another's, or to be asked twice.
fn tell_asking(source: &Source, text: &Source, out: &mut impl Write) -> io::Result<Outcome> {
    writeln!(
        out,
        "{}: it stays; --text names its own text, or --force writes over it what {} has",
        source.name, text.name
    )?;
    Ok(Outcome::Refused)
}

/// The first line in which the table of a sound file differs from that of a text that is as long as the file says.
fn first_line_apart(source: &Source, text: &Source) -> usize {
    let stored =
        Table::load(&source.bytes).or_else(|_| Table::load_beside(&text.bytes, &source.bytes));
    let (Ok(stored), Ok(fresh)) = (stored, Document::open(text.bytes.clone())) else {
        return 1;
    };
    let pairs = stored.rows().zip(fresh.rows());
    let same = pairs.take_while(|(stored, fresh)| stored == fresh).count();
    let line_behind = |table: &Table| match (table.row(same), table.refusal()) {
        (Some(row), _) => row.line,
        (None, Some(refusal)) => refusal.place.line,
        (None, None) => usize::MAX,
    };
    line_behind(&stored).min(line_behind(fresh.table()))
}

/// What is wrong with a block of a file that should be another.
fn what_of(block: u32, file: &[u8], right: &[u8]) -> String {
    let from = block as usize * BLOCK;
    match (
        from >= right.len(),
        file.len() <= from,
        file.len() < from + BLOCK,
    ) {
        (true, _, _) => format!("from byte {from} on there is too much"),
        (_, true, _) => format!("block {block} is missing"),
        (_, _, true) => format!("block {block} is cut"),
        _ => damaged(block),
    }
}

/// The most bytes of a file to be mended that are read: what is behind the longest file and one block more is too much in any case.
pub const MOST_MENDED: usize = LONGEST_FILE + BLOCK;
