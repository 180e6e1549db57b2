//! A text with its rows, which follow every change of the text.

use crate::extent::Extent;
use crate::lent::{self, Change, Words, NODE_WORDS, ROW_WORDS};
use crate::refusal::{Place, Reason, Refusal};
use crate::row::{Row, Rows};
use crate::table::{written, Table};
use crate::tally::Tally;
use crate::tree::Tree;
use crate::LONGEST_TEXT;
use std::fmt;
use std::ops::{Bound, Range, RangeBounds};
use std::sync::OnceLock;

mod merge;
mod places;

/// An open text and its rows. The text is valid UTF-8; the rows are always those of a fresh reading, and each of them starts and ends
/// between two characters, which is proved of the library. Offsets and columns count bytes. Of a document that is opened with a stored
/// table so much is true as [`Document::open_with`] says.
///
/// A text of over 65,536 bytes is held too. It has no rows and no tree, and both tell 1; as soon as a change makes it short enough, it is
/// read.
///
/// Two documents are equal if their texts, rows and refusals are.
#[derive(Clone)]
pub struct Document {
    text: String,
    table: Table,
    /// Where the next change writes; it then changes places with the table's rows.
    spare: Vec<u32>,
    /// The tree, once it was asked for; a change takes it away.
    tree: OnceLock<Result<Tree, Refusal>>,
    /// The first and last row of each of its nodes, once one was asked for.
    extents: OnceLock<Vec<Extent>>,
}

impl Document {
    /// Opens a text, which may be any bytes, and reads it. Refused are bytes that are not valid UTF-8: with 2 at the first character that is
    /// broken or cut, as [`std::str::Utf8Error::valid_up_to`], or with 1 if they are too many besides. A text that scans only up to a place
    /// is open with its rows up to there, and one that is too long is open without rows; [`Document::refusal`] tells the rest.
    ///
    /// # Errors
    ///
    /// 2, or 1, if the bytes are not valid UTF-8.
    pub fn open(text: impl Into<Vec<u8>>) -> Result<Document, Refusal> {
        let text = text.into();
        let (words, rows) = scanned(&text);
        // The library judges the length first.
        match (Table::told(words, rows), valid(text)) {
            (Ok(table), text) => Ok(Document::of(text?, table)),
            (Err(refusal), Ok(text)) if refusal.reason == Reason::TextTooLong => {
                Ok(Document::of(text, Table::of_no_text(words)))
            }
            (Err(refusal), _) => Err(refusal),
        }
    }

    /// Opens a text with the table that was stored for it, and does not read the text again. Refused are a text that is too long (1), of
    /// which there is no table, or not valid UTF-8 (2), as [`Document::open`] refuses it, and a table that the text cannot have (45, [`Reason::OtherText`]): it is of a
    /// text of another length, or something in it stands inside a character.
    ///
    /// The table is trusted no further. A table of a text of the same length is taken, as nothing but a reading tells it from the
    /// text's own. Every call still answers then, some perhaps with 3; but rows, spellings and tree are the table's and not the text's,
    /// and a change patches what is wrong already. So store a table when its text is saved, and where a text may have been changed
    /// since, call [`Document::refresh`], at once or when there is time.
    ///
    /// # Errors
    ///
    /// 1, 2 or 45.
    pub fn open_with(text: impl Into<Vec<u8>>, table: Table) -> Result<Document, Refusal> {
        let text = text.into();
        if text.len() > LONGEST_TEXT {
            return Err(at_start(Reason::TextTooLong));
        }
        let text = valid(text)?;
        match table.fits(&text) {
            true => Ok(Document::of(text, table)),
            false => Err(at_start(Reason::OtherText)),
        }
    }

    fn of(text: String, table: Table) -> Document {
        Document {
            text,
            table,
            spare: Vec::new(),
            tree: OnceLock::new(),
            extents: OnceLock::new(),
        }
    }

    /// Forgets the tree, since the rows are others now.
    fn forget_tree(&mut self) {
        self.tree = OnceLock::new();
        self.extents = OnceLock::new();
    }

    /// Reads the whole text afresh, so that the rows are those of a fresh reading, and says whether they were before. They were unless the
    /// document was opened with a table that is not the text's.
    pub fn refresh(&mut self) -> bool {
        let spare = roomy(&mut self.spare, self.text.len());
        let told = lent::scan(self.text.as_bytes(), spare);
        let were_fresh =
            told == *self.table.words() && written(spare, &told) == self.table.row_words();
        if !were_fresh && self.table.become_told(told, &mut self.spare).is_ok() {
            self.forget_tree();
        }
        were_fresh
    }

    /// The rows and how they end, to be stored.
    pub fn table(&self) -> &Table {
        &self.table
    }

    /// The text.
    pub fn text(&self) -> &str {
        &self.text
    }

    /// The rows in order; without a refusal the last is Eof. A text that is too long has none.
    pub fn rows(&self) -> Rows<'_> {
        self.table.rows()
    }

    /// The row with this number.
    pub fn row(&self, row: usize) -> Option<Row> {
        self.table.row(row)
    }

    /// The refusal, 11 to 17, at which the rows end, or 1 if the text is too long; nothing if the whole text scans.
    pub fn refusal(&self) -> Option<Refusal> {
        self.table.refusal()
    }

    /// The part of the text that a row spells; empty for Eof. A row that is not there is 3. The rows are the document's own, so
    /// nothing but the characters at both ends is tested anew: the answer is that of [`lent::spelling`], in a time that does not grow
    /// with the text.
    ///
    /// # Errors
    ///
    /// 3, if there is no such row.
    pub fn spelling(&self, row: usize) -> Result<&str, Refusal> {
        self.row(row)
            .and_then(|row| self.text.get(row.span()))
            .ok_or(at_start(Reason::NotWellFormed))
    }

    /// The program's tree, or the first refusal: 1 if the text is too long, that of the rows (11 to 17), or one of 21 to 32. The text is
    /// parsed when the tree is first asked for, and again only after a change.
    ///
    /// # Errors
    ///
    /// The first refusal, if the text is no program.
    pub fn tree(&self) -> Result<&Tree, Refusal> {
        self.tree
            .get_or_init(|| self.parsed())
            .as_ref()
            .map_err(|refusal| *refusal)
    }

    fn parsed(&self) -> Result<Tree, Refusal> {
        Ok(Tree::from_words(&self.node_words()?))
    }

    /// The words of the tree's nodes, as the library tells them.
    fn node_words(&self) -> Result<Vec<u32>, Refusal> {
        let mut nodes = vec![0; self.rows().len() * NODE_WORDS];
        let answer = lent::parse(
            self.text.as_bytes(),
            self.table.row_words(),
            self.table.words(),
            &mut nodes,
        );
        match Refusal::from_words(&answer) {
            Some(refusal) => Err(refusal),
            None => {
                nodes.truncate(answer[lent::COUNT] as usize * NODE_WORDS);
                Ok(nodes)
            }
        }
    }

    /// The program in its one layout: a newline after each `{`, `}` and `;`, a blank between all other rows, map fields in the order type,
    /// key, value, max, numbers in decimal, parentheses only where the grammar needs them. Comments are not in it. Reading it gives a tree
    /// with the same kinds, children, spellings and facts, and its own layout is the same text, which is proved of the library below.
    ///
    /// It is made anew at each call, with a scratch of that call's own: layouts are rare beside changes, and a document that kept 2 MB
    /// for them would be large. Whoever makes many calls [`lent::layout`] with one scratch.
    ///
    /// # Errors
    ///
    /// What [`Document::tree`] tells, if the text is no program; else 4 ([`Reason::LayoutTooLong`]), if the layout has over 65,536 bytes,
    /// so that it would be no text; else 3, if the document was opened with a table that is not the text's.
    pub fn layout(&self) -> Result<String, Refusal> {
        let nodes = self.node_words()?;
        let mut room = vec![0; LONGEST_TEXT];
        let answer = lent::layout(
            self.text.as_bytes(),
            self.table.row_words(),
            self.table.words(),
            &nodes,
            (nodes.len() / NODE_WORDS) as u32,
            &mut lent::scratch(),
            &mut room,
        );
        match Refusal::from_words(&answer) {
            Some(refusal) if refusal.reason == Reason::NoRowRoom => {
                Err(at_start(Reason::LayoutTooLong))
            }
            Some(refusal) => Err(refusal),
            None => {
                room.truncate(answer[lent::LENGTH] as usize);
                valid(room)
            }
        }
    }

    /// What is in the program, counted: units by kind, maps by type, events, statements, the sum of `max`, methods. It is made anew at each
    /// call.
    ///
    /// # Errors
    ///
    /// What [`Document::tree`] tells, if the text is no program. The nodes of a program are never refused, which is proved of the library
    /// below.
    pub fn tally(&self) -> Result<Tally, Refusal> {
        Tally::of_nodes(&self.node_words()?)
    }

    /// Puts a new text in the place of the text's bytes in `range`, which is of any kind: `3..5`, `3..=4`, `3..`, `..`. Refused are a range
    /// that is not in the text (6) and one that starts or ends inside a character ([`Reason::InsideCharacter`], with the place of the first
    /// such end), in this order; the document is then as it was. The new text is never refused with 2: an editor that is sent a
    /// character byte by byte keeps its bytes until they are whole. Nor is it with 1: a text that has become too long is held, tells 1, and
    /// is read as soon as it is short enough.
    ///
    /// # Errors
    ///
    /// 6, if the range is not one of the text's.
    pub fn replace(&mut self, range: impl RangeBounds<usize>, new: &str) -> Result<(), Refusal> {
        let range = self.between(&range)?;
        let (before, behind) = self.kept(&range)?;
        let text = [before, new, behind].concat();
        let spare = roomy(&mut self.spare, text.len());
        let told = changed(&self.table, &range, new.len(), &text, spare);
        if told[lent::NUMBER] == Reason::TextTooLong.number() {
            self.table = Table::of_no_text(told);
        } else {
            self.table.become_told(told, &mut self.spare)?;
        }
        self.text = text;
        self.forget_tree();
        Ok(())
    }

    /// The bytes that a range of any kind means.
    fn between(&self, range: &impl RangeBounds<usize>) -> Result<Range<usize>, Refusal> {
        let start = match range.start_bound() {
            Bound::Included(&start) => Some(start),
            Bound::Excluded(&before) => before.checked_add(1),
            Bound::Unbounded => Some(0),
        };
        let end = match range.end_bound() {
            Bound::Included(&last) => last.checked_add(1),
            Bound::Excluded(&end) => Some(end),
            Bound::Unbounded => Some(self.text.len()),
        };
        let both = start.zip(end).map(|(start, end)| start..end);
        both.ok_or(at_start(Reason::EditNotSensible))
    }

    /// The text before a range and behind it, if the range lies in the text and cuts no character.
    fn kept(&self, range: &Range<usize>) -> Result<(&str, &str), Refusal> {
        if range.start > range.end || range.end > self.text.len() {
            return Err(at_start(Reason::EditNotSensible));
        }
        let part = |at: usize| {
            self.text
                .split_at_checked(at)
                .ok_or_else(|| self.inside(at))
        };
        Ok((part(range.start)?.0, part(range.end)?.1))
    }

    /// The refusal of an offset that is inside a character.
    fn inside(&self, offset: usize) -> Refusal {
        Refusal {
            reason: Reason::InsideCharacter,
            place: Place::before(self.text.as_bytes(), offset),
        }
    }
}

impl PartialEq for Document {
    fn eq(&self, other: &Document) -> bool {
        self.text == other.text && self.table == other.table
    }
}

impl Eq for Document {}

impl fmt::Debug for Document {
    fn fmt(&self, out: &mut fmt::Formatter<'_>) -> fmt::Result {
        out.debug_struct("Document")
            .field("text", &self.text)
            .field("rows", &self.rows().collect::<Vec<Row>>())
            .field("refusal", &self.refusal())
            .finish()
    }
}

/// The text.
impl fmt::Display for Document {
    fn fmt(&self, out: &mut fmt::Formatter<'_>) -> fmt::Result {
        out.write_str(&self.text)
    }
}

/// What is told of a new text, whose rows are patched if the old text has a table, and else read afresh.
fn changed(
    old: &Table,
    range: &Range<usize>,
    new: usize,
    text: &str,
    rows: &mut [u32],
) -> lent::Words {
    let numbers = [range.start, range.end, new].map(u32::try_from);
    if let ([Ok(a), Ok(b), Ok(n)], true) = (numbers, old.is_of_a_text()) {
        let change = Change { a, b, n };
        let told = lent::change(old.row_words(), old.words(), change, text.as_bytes(), rows);
        // 3 comes only after changes of a stored table that was never the text's.
        if told[lent::NUMBER] != Reason::NotWellFormed.number() {
            return told;
        }
    }
    lent::scan(text.as_bytes(), rows)
}

/// A text of these bytes, or 2 where they are no UTF-8.
fn valid(text: Vec<u8>) -> Result<String, Refusal> {
    String::from_utf8(text).map_err(|error| Refusal {
        reason: Reason::BadByte,
        place: Place::before(error.as_bytes(), error.utf8_error().valid_up_to()),
    })
}

/// Lent memory with room for the rows of a text of so many bytes.
fn roomy(spare: &mut Vec<u32>, length: usize) -> &mut [u32] {
    if spare.len() < room_for(length) {
        spare.resize(room_for(length), 0);
    }
    spare
}

/// What a scan tells of a text, and its rows. There is room for a row to four bytes first, which most probes never fill; a text that does is
/// read again with room for all that it can have.
fn scanned(text: &[u8]) -> (Words, Vec<u32>) {
    let length = text.len().min(LONGEST_TEXT);
    let mut rows = vec![0; room_for(length / 4)];
    let mut words = lent::scan(text, &mut rows);
    if words[lent::NUMBER] == Reason::NoRowRoom.number() {
        rows = vec![0; room_for(length)];
        words = lent::scan(text, &mut rows);
    }
    (words, rows)
}

/// How many words the rows of a text of so many bytes need: every row but Eof has a byte. A text that is too long has none.
fn room_for(length: usize) -> usize {
    match length {
        0..=LONGEST_TEXT => (length + 1) * ROW_WORDS,
        _ => 0,
    }
}

fn at_start(reason: Reason) -> Refusal {
    Refusal {
        reason,
        place: Place::START,
    }
}
