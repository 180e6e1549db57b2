//! A text's comments: they stand in the gaps between its rows.

use spoonharbor::diagnostic::Outline;
use std::ops::Range;

/// Where comments are, in the text's order.
pub fn comments(outline: &Outline) -> Vec<Range<usize>> {
    let text = outline.text();
    let mut found = Vec::new();
    let mut end = 0;
    for row in outline.rows() {
        if row.comments > 0 {
            let gap = text.get(end..row.start).unwrap_or_default();
            found.extend(in_gap(gap).map(|span| end + span.start..end + span.end));
        }
        end = row.end;
    }
    found
}

/// The comments of a gap, in which only blanks stand besides.
fn in_gap(gap: &str) -> impl Iterator<Item = Range<usize>> + '_ {
    let mut from = 0;
    std::iter::from_fn(move || {
        let rest = gap.get(from..)?;
        let start = from + rest.find('/')?;
        let comment = gap.get(start..)?;
        let length = match comment.strip_prefix("/*") {
            Some(inside) => inside.find("*/").map(|end| end + 4),
            None => comment.find('\n'),
        };
        from = start + length.unwrap_or(comment.len());
        Some(start..from)
    })
}

/// Whether a comment goes to its line's end.
pub fn is_line_comment(text: &str, span: &Range<usize>) -> bool {
    text.get(span.clone())
        .is_some_and(|comment| comment.starts_with("//"))
}

#[cfg(test)]
mod tests {
    use super::*;

    #[test]
    fn comments_stand_in_gaps() {
        let text = "/* a */ map m /**//*/*/ { // b /* c\n} \"// d\" // °";
        let outline = Outline::of(text.as_bytes());
        let told: Vec<&str> = comments(&outline)
            .into_iter()
            .filter_map(|span| text.get(span))
            .collect();
        assert_eq!(told, ["/* a */", "/**/", "/*/*/", "// b /* c", "// °"]);
    }
}
