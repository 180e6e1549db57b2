//! Changes that were made for an earlier text.

use super::{at_start, Document};
use crate::edit::{Conflict, Edit};
use crate::refusal::{Reason, Refusal};
use std::ops::Range;

impl Document {
    /// Makes a change that is told in places of this document's text, as [`Document::replace`] does.
    ///
    /// # Errors
    ///
    /// 6, if the range is not one of the text's.
    pub fn apply(&mut self, edit: &Edit) -> Result<(), Refusal> {
        self.replace(edit.range.clone(), &edit.new)
    }

    /// Takes a change that someone else made for an earlier text, the common one. `since` has our own changes since then in their order,
    /// each told in places of the text that it was made for. Their change is moved over ours, one after the other, and made; it comes
    /// back in places of this document's text.
    ///
    /// Ours are moved over theirs as well. The common text is then the one with their change, and `since` leads from it to this
    /// document's. So their next change may be merged, told in places of the text with their first. Once they have taken the first of
    /// ours, it belongs to the common text too and is taken out of `since`.
    ///
    /// Two documents with the same common text that take each other's changes, each in the order in which they were made, end alike:
    /// text, rows and refusal. Of the library's calls, with changes moved in this way, it is proved for any number of them on either side
    /// (`consoles_end_alike`).
    ///
    /// ```
    /// use spoonharbor::{Conflict, Document, Edit};
    ///
    /// let mut here = Document::open("a = 1; b = 2;")?;
    /// let mut there = here.clone();
    /// let ours = Edit::new(0..1, "first");
    /// let theirs = Edit::new(11..12, "20");
    /// here.apply(&ours)?;
    /// there.apply(&theirs)?;
    /// assert_eq!(here.merge(&mut [ours.clone()], &theirs), Ok(Edit::new(15..16, "20")));
    /// assert_eq!(there.merge(&mut [theirs], &ours), Ok(ours.clone()));
    /// assert_eq!(here.text(), "first = 1; b = 20;");
    /// assert_eq!(here, there);
    ///
    /// let touching = Edit::new(1..2, "");
    /// let conflict = Conflict::Touching { ours: 0, theirs: touching.clone() };
    /// assert_eq!(here.merge(&mut [ours], &touching), Err(conflict));
    /// # Ok::<(), spoonharbor::Refusal>(())
    /// ```
    ///
    /// # Errors
    ///
    /// [`Conflict::Refused`] with 6, if ours cannot lead to this document's text, or theirs is no change of the common one;
    /// [`Conflict::Touching`], if no old byte lies between their change and one of ours. The document and `since` are then as they were.
    pub fn merge(&mut self, since: &mut [Edit], theirs: &Edit) -> Result<Edit, Conflict> {
        match self.length_before(since) {
            Some(length) if lies(&theirs.range, length) => {}
            _ => return Err(at_start(Reason::EditNotSensible).into()),
        }
        let mut theirs = theirs.clone();
        let mut moved = Vec::with_capacity(since.len());
        for (ours, edit) in since.iter().enumerate() {
            let (Some(next), Some(edit)) = (theirs.after(edit), edit.after(&theirs)) else {
                return Err(Conflict::Touching { ours, theirs });
            };
            theirs = next;
            moved.push(edit);
        }
        self.apply(&theirs)?;
        since.clone_from_slice(&moved);
        Ok(theirs)
    }

    /// How long the text was before these changes, if each of them lies in the text that it was made for.
    fn length_before(&self, edits: &[Edit]) -> Option<usize> {
        let mut length = self.text.len();
        for Edit { range, new } in edits.iter().rev() {
            length = length.checked_sub(new.len())?.checked_add(range.len())?;
            if !lies(range, length) {
                return None;
            }
        }
        Some(length)
    }
}

/// Whether a range is one of a text of so many bytes.
fn lies(range: &Range<usize>, length: usize) -> bool {
    range.start <= range.end && range.end <= length
}
