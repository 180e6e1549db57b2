//! What may be folded: declarations and bodies between their braces, and comments of several lines.

use crate::comments::{comments, is_line_comment};
use crate::open::Open;
use serde_json::{json, Value};
use spoonharbor::Kind;

/// The first and the last line of what is folded.
type Fold = (usize, usize);

/// All folds in the order of their first lines.
pub fn folds(open: &Open) -> Value {
    let mut folds: Vec<(Fold, bool)> = Vec::new();
    folds.extend(braces(open).into_iter().map(|fold| (fold, false)));
    folds.extend(of_comments(open).into_iter().map(|fold| (fold, true)));
    folds.sort_unstable();
    let told = folds
        .into_iter()
        .map(|((first, last), is_comment)| match is_comment {
            true => json!({ "startLine": first, "endLine": last, "kind": "comment" }),
            false => json!({ "startLine": first, "endLine": last }),
        });
    told.collect()
}

/// From the line of each `{` to the one in front of its `}`.
fn braces(open: &Open) -> Vec<Fold> {
    let mut waiting = Vec::new();
    let mut folds = Vec::new();
    for row in open.outline().rows() {
        let line = open.lines().line_of(row.start);
        match row.kind {
            Kind::LBrace => waiting.push(line),
            Kind::RBrace => {
                let first = waiting.pop();
                folds.extend(first.map(|first| (first, line.saturating_sub(1))));
            }
            _ => {}
        }
    }
    folds.retain(|(first, last)| first < last);
    folds
}

/// Comments of several lines, and comments on lines in a row that have nothing else.
fn of_comments(open: &Open) -> Vec<Fold> {
    let outline = open.outline();
    let mut folds: Vec<Fold> = Vec::new();
    let mut run: Option<Fold> = None;
    for span in comments(outline) {
        let first = open.lines().line_of(span.start);
        if !is_line_comment(outline.text(), &span) {
            let end = span.end.saturating_sub(1);
            folds.push((first, open.lines().line_of(end)));
            continue;
        }
        let start = open.lines().line(outline.text(), first).start;
        let before = outline.text().get(start..span.start).unwrap_or_default();
        if !before.trim().is_empty() {
            continue;
        }
        run = Some(match run {
            Some((begun, last)) if last + 1 == first => (begun, first),
            done => {
                folds.extend(done);
                (first, first)
            }
        });
    }
    folds.extend(run);
    folds.retain(|(first, last)| first < last);
    folds
}
