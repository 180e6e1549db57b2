//! What a diagnostic's words say to write, as an edit of the text.

use super::printable;
use std::ops::Range;

/// New text for some bytes. A later version may tell more of it.
#[derive(Debug, Clone, PartialEq, Eq)]
#[non_exhaustive]
pub struct Edit {
    /// The bytes that go; empty where something is added.
    pub span: Range<usize>,
    /// What comes in their place; empty where they are deleted.
    pub text: String,
}

impl Edit {
    pub(super) fn new(span: Range<usize>, text: impl Into<String>) -> Edit {
        Edit {
            span,
            text: text.into(),
        }
    }

    /// What the edit does, in a few words for a menu: `write a = a - 1`, `add ';'`, `delete this`.
    pub fn title(&self) -> String {
        let text = printable(self.text.trim());
        match (self.span.is_empty(), self.text.trim().is_empty()) {
            (_, true) if self.text.is_empty() => "delete this".to_string(),
            (_, true) => "write an ordinary blank".to_string(),
            (true, false) => format!("add '{text}'"),
            (false, false) => format!("write {text}"),
        }
    }
}

#[cfg(test)]
mod tests {
    use super::*;

    #[test]
    fn edits_have_titles() {
        for (span, text, wanted) in [
            (3..3, ";", "add ';'"),
            (3..5, "a = a - 1", "write a = a - 1"),
            (3..5, "", "delete this"),
            (3..5, " ", "write an ordinary blank"),
        ] {
            assert_eq!(Edit::new(span, text).title(), wanted);
        }
    }
}
