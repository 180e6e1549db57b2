//! What a selection grows to: the row, the nodes around it, the declaration, the text.

use crate::failure::Failure;
use crate::open::Open;
use crate::params;
use serde_json::{json, Value};
use spoonharbor::diagnostic::Outline;
use spoonharbor::Document;
use std::ops::Range;

/// The most nodes that a chain has: a sum of thousands of numbers is as many nodes deep, and a message so deep is
/// read by no client.
const MOST_NODES: usize = 60;

/// A chain of ranges for each place that is asked for.
pub fn ranges(open: &Open, params: &Value) -> Result<Value, Failure> {
    let places = params::list(params, "positions")?;
    places
        .iter()
        .map(|place| {
            let place = json!({ "place": place });
            let offset = open.offset(&place, "place")?;
            Ok(chained(open, &around(open.outline(), open.text(), offset)))
        })
        .collect()
}

/// Ranges around an offset, each in the next.
fn around(outline: &Outline, text: &str, offset: usize) -> Vec<Range<usize>> {
    let mut spans = Vec::new();
    let row = row_span(outline, offset);
    let probe = row.as_ref().map_or(offset, |row| row.start);
    spans.extend(row);
    let holds = |span: &Range<usize>| span.start <= offset && offset <= span.end;
    let declaration = outline.declarations().iter().find(|one| holds(&one.span));
    if let Some(declaration) = declaration {
        let start = declaration.span.start;
        if let Some(document) = outline.document(declaration) {
            let nodes = node_spans(&document, probe.saturating_sub(start));
            spans.extend(nodes.map(|span| start + span.start..start + span.end));
        }
        spans.push(declaration.span.clone());
    }
    spans.push(0..text.len());
    let mut chain: Vec<Range<usize>> = Vec::new();
    for span in spans {
        let grows =
            |last: &Range<usize>| *last != span && span.start <= last.start && last.end <= span.end;
        if chain.last().is_none_or(grows) {
            chain.push(span);
        }
    }
    chain
}

/// The row at an offset, or that ends there.
fn row_span(outline: &Outline, offset: usize) -> Option<Range<usize>> {
    let rows = outline.rows();
    let behind = rows.partition_point(|row| row.start <= offset);
    let row = rows.get(behind.checked_sub(1)?)?;
    (offset <= row.end && row.start < row.end).then(|| row.span())
}

/// The spans of the smallest node at an offset and of those around it; none where the declaration is refused.
fn node_spans(document: &Document, offset: usize) -> impl Iterator<Item = Range<usize>> + '_ {
    let tree = document.tree().ok();
    std::iter::successors(document.node_at(offset), move |node| tree?.parent(*node))
        .filter_map(|node| document.node_span(node))
        .take(MOST_NODES)
}

fn chained(open: &Open, spans: &[Range<usize>]) -> Value {
    let mut chain = Value::Null;
    for span in spans.iter().rev() {
        chain = match chain {
            Value::Null => json!({ "range": open.range(span) }),
            parent => json!({ "range": open.range(span), "parent": parent }),
        };
    }
    chain
}
