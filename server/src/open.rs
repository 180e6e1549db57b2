//! A text that the client has open.

use crate::failure::Failure;
use crate::lines::{Encoding, Lines};
use crate::params;
use serde_json::{json, Value};
use spoonharbor::diagnostic::{diagnose, Checks, Diagnostic, Outline};
use spoonharbor::Document;
use std::cell::OnceCell;
use std::ops::Range;

/// An open text with what is known of it. What a request asks for is worked out once, and again after a change.
pub struct Open {
    uri: String,
    version: Option<i64>,
    document: Document,
    lines: Lines,
    checks: Checks,
    outline: OnceCell<Outline>,
    diagnostics: OnceCell<Vec<Diagnostic>>,
}

impl Open {
    /// Opens what `textDocument/didOpen` brings.
    pub fn new(params: &Value, encoding: Encoding, checks: &Checks) -> Result<Open, Failure> {
        let text = params::text(params, "textDocument/text")?;
        let refused = |refusal| Failure::not_done(format!("{refusal}"));
        Ok(Open {
            uri: params::text(params, "textDocument/uri")?.to_string(),
            version: version(params),
            document: Document::open(text).map_err(refused)?,
            lines: Lines::of(text, encoding),
            checks: checks.clone(),
            outline: OnceCell::new(),
            diagnostics: OnceCell::new(),
        })
    }

    /// Makes the changes that `textDocument/didChange` brings, in their order.
    pub fn change(&mut self, params: &Value) -> Result<(), Failure> {
        self.version = version(params);
        for change in params::list(params, "contentChanges")? {
            self.change_one(change)?;
        }
        Ok(())
    }

    fn change_one(&mut self, change: &Value) -> Result<(), Failure> {
        let new = params::text(change, "text")?;
        let span = match params::at(change, "range") {
            Some(_) => self.span(change, "range")?,
            None => 0..self.text().len(),
        };
        let done = self.document.replace(span, new);
        self.lines = Lines::of(self.document.text(), self.lines.encoding());
        self.forget();
        done.map_err(|refusal| Failure::bad_params(format!("a change is not made: {refusal}")))
    }

    /// Looks for what these checks ask for from now on.
    pub fn check(&mut self, checks: &Checks) {
        self.checks = checks.clone();
        self.forget();
    }

    fn forget(&mut self) {
        self.outline = OnceCell::new();
        self.diagnostics = OnceCell::new();
    }

    pub fn uri(&self) -> &str {
        &self.uri
    }

    pub fn version(&self) -> Option<i64> {
        self.version
    }

    pub fn document(&self) -> &Document {
        &self.document
    }

    pub fn text(&self) -> &str {
        self.document.text()
    }

    pub fn lines(&self) -> &Lines {
        &self.lines
    }

    /// Rows and declarations of the text, whatever is wrong with it.
    pub fn outline(&self) -> &Outline {
        self.outline
            .get_or_init(|| Outline::of(self.text().as_bytes()))
    }

    /// Everything that is wrong with the text.
    pub fn diagnostics(&self) -> &[Diagnostic] {
        self.diagnostics
            .get_or_init(|| diagnose(self.text().as_bytes(), &self.checks))
    }

    /// The offset of the place at a path of a request's parameters.
    pub fn offset(&self, params: &Value, path: &str) -> Result<usize, Failure> {
        let (line, character) = params::place(params, path)?;
        Ok(self.lines.offset(self.text(), line, character))
    }

    /// The bytes between the places at a path.
    pub fn span(&self, params: &Value, path: &str) -> Result<Range<usize>, Failure> {
        let start = self.offset(params, &format!("{path}/start"))?;
        let end = self.offset(params, &format!("{path}/end"))?;
        Ok(start..end)
    }

    /// Some bytes as a message has them.
    pub fn range(&self, span: &Range<usize>) -> Value {
        self.lines.range(self.text(), span)
    }

    /// Some bytes of this text, with the text's name.
    pub fn location(&self, span: &Range<usize>) -> Value {
        json!({ "uri": self.uri, "range": self.range(span) })
    }

    /// New texts for some bytes, as a message has them.
    pub fn edits(&self, edits: impl IntoIterator<Item = (Range<usize>, String)>) -> Value {
        let one = |(span, text)| json!({ "range": self.range(&span), "newText": text });
        edits.into_iter().map(one).collect()
    }
}

fn version(params: &Value) -> Option<i64> {
    params::at(params, "textDocument/version").and_then(Value::as_i64)
}
