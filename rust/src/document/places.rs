//! From offsets to rows, nodes, lines and columns, and back.

use super::Document;
use crate::extent::{extents, Extent};
use crate::position::Position;
use crate::row::Row;
use crate::tree::Node;
use std::ops::{Range, RangeInclusive};

impl Document {
    /// The name of a node of this document's tree, as the text spells it; of a section or a licence the string with its quotes. Nothing if
    /// the node has no name.
    ///
    /// ```
    /// use spoonharbor::Document;
    ///
    /// let document = Document::open("unit u { x += 1; }")?;
    /// let tree = document.tree()?;
    /// let names: Vec<&str> = tree.nodes().iter().filter_map(|node| document.name(node)).collect();
    /// assert_eq!(names, ["x", "u"]);
    /// # Ok::<(), spoonharbor::Refusal>(())
    /// ```
    pub fn name(&self, node: &Node) -> Option<&str> {
        self.spelling(node.name?).ok()
    }

    /// The rows of the node with this index, from its first to its last: all that it is written with. So the rows of a statement include
    /// its `;`, those of an operator the parentheses around its sides, those of an `else` that word, and those of the program Eof. The
    /// parentheses around a node itself do not belong to it. Nothing if the text is no program, or no node has the index.
    pub fn node_rows(&self, index: usize) -> Option<RangeInclusive<usize>> {
        let Extent { first, last } = self.extent(index)?;
        Some(first..=last)
    }

    /// The bytes of the node with this index, from the start of its first row to the end of its last. Those of the program are all of the
    /// text.
    ///
    /// ```
    /// use spoonharbor::Document;
    ///
    /// let document = Document::open("unit u { x = (a + b) * 2; }")?;
    /// let tree = document.tree()?;
    /// let spans = (0..tree.len()).filter_map(|index| document.node_span(index));
    /// let parts: Vec<&str> = spans.map(|span| &document.text()[span]).collect();
    /// assert_eq!(parts[..4], ["x", "a", "b", "a + b"]);
    /// assert_eq!(parts[4..7], ["2", "(a + b) * 2", "x = (a + b) * 2;"]);
    /// # Ok::<(), spoonharbor::Refusal>(())
    /// ```
    pub fn node_span(&self, index: usize) -> Option<Range<usize>> {
        let Extent { first, last } = self.extent(index)?;
        if index == self.tree().ok()?.root() {
            return Some(0..self.text().len());
        }
        Some(self.row(first)?.start..self.row(last)?.end)
    }

    /// The first and last row of a node. They are worked out for all nodes when one is first asked for.
    fn extent(&self, index: usize) -> Option<Extent> {
        let tree = self.tree().ok()?;
        let known = self.extents.get_or_init(|| {
            let rows: Vec<Row> = self.rows().collect();
            extents(tree, &rows)
        });
        known.get(index).copied()
    }

    /// The number of the row that has the byte at this offset; nothing between rows and from the text's end on.
    pub fn row_at(&self, offset: usize) -> Option<usize> {
        let (mut low, mut high) = (0, self.rows().len());
        while low < high {
            let middle = low + (high - low) / 2;
            match self.row(middle)? {
                row if row.end <= offset => low = middle + 1,
                row if row.start > offset => high = middle,
                _ => return Some(middle),
            }
        }
        None
    }

    /// The index of the smallest node whose bytes include this offset. Between declarations and at the text's end it is the program.
    /// Nothing if the text is no program, or the offset is past its end.
    pub fn node_at(&self, offset: usize) -> Option<usize> {
        let tree = self.tree().ok()?;
        if offset > self.text().len() {
            return None;
        }
        let mut node = tree.root();
        let has = |child: usize| {
            self.node_span(child)
                .is_some_and(|span| span.contains(&offset))
        };
        while let Some(child) = tree.children(node).find(|&child| has(child)) {
            node = child;
        }
        Some(node)
    }

    /// The line, the column in bytes and the column in units of UTF-16 before the byte at this offset. Lines and columns count from 1, so an
    /// editor that speaks the language server protocol subtracts 1 from each. Nothing if the offset is past the text's end or inside a
    /// character.
    pub fn position(&self, offset: usize) -> Option<Position> {
        let is_edge = self.text().is_char_boundary(offset);
        is_edge.then(|| Position::of(self.text().as_bytes(), offset))
    }

    /// The offset at a line and a column in bytes, both counted from 1: what [`Document::position`] is told of. Nothing if the text has no
    /// such line, the line is shorter, or the column is inside a character.
    pub fn offset_at(&self, line: usize, column: usize) -> Option<usize> {
        let line = self.line(line)?;
        let offset = line.start.checked_add(column.checked_sub(1)?)?;
        (offset <= line.end && self.text().is_char_boundary(offset)).then_some(offset)
    }

    /// The offset at a line and a column in units of UTF-16, both counted from 1. Nothing if the text has no such line, the line is shorter,
    /// or the column is inside a character.
    ///
    /// ```
    /// use spoonharbor::Document;
    ///
    /// let document = Document::open("// 0.1°\n// 🔭 dome\n")?;
    /// let dome = document.text().find("dome").unwrap();
    /// let position = document.position(dome).unwrap();
    /// assert_eq!((position.line, position.column, position.utf16), (2, 9, 7));
    /// assert_eq!(document.offset_at(2, 9), Some(dome));
    /// assert_eq!(document.offset_at_utf16(2, 7), Some(dome));
    /// # Ok::<(), spoonharbor::Refusal>(())
    /// ```
    pub fn offset_at_utf16(&self, line: usize, column: usize) -> Option<usize> {
        let Range { start, end } = self.line(line)?;
        let mut left = column.checked_sub(1)?;
        let mut offset = start;
        for letter in self.text()[start..end].chars() {
            if left == 0 {
                break;
            }
            left = left.checked_sub(letter.len_utf16())?;
            offset += letter.len_utf8();
        }
        (left == 0).then_some(offset)
    }

    /// The bytes of a line, counted from 1, without its newline.
    fn line(&self, line: usize) -> Option<Range<usize>> {
        let mut start = 0;
        for _ in 1..line.max(1) {
            start += self.text()[start..].find('\n')? + 1;
        }
        let rest = &self.text()[start..];
        let length = rest.find('\n').unwrap_or(rest.len());
        (line > 0).then_some(start..start + length)
    }
}
