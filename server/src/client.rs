//! What the client can take, as it says when it begins.

use crate::lines::Encoding;
use crate::params::{has, is_true};
use serde_json::Value;

/// The client's capabilities, as far as answers differ by them.
#[derive(Debug, Clone, Copy, Default)]
pub struct Client {
    /// What both sides count in a line.
    pub encoding: Encoding,
    /// Whether symbols may stand in symbols.
    pub takes_nested_symbols: bool,
    /// Whether a diagnostic may have further places.
    pub takes_related: bool,
    /// Whether a hover may be Markdown.
    pub takes_markdown: bool,
}

impl Client {
    /// By the parameters of `initialize`. Bytes are counted where the client offers that, else units of UTF-16.
    pub fn of(params: &Value) -> Client {
        let text = "capabilities/textDocument";
        let offers = |word| has(params, "capabilities/general/positionEncodings", word);
        Client {
            encoding: match offers(Encoding::Utf8.name()) {
                true => Encoding::Utf8,
                false => Encoding::Utf16,
            },
            takes_nested_symbols: is_true(
                params,
                &format!("{text}/documentSymbol/hierarchicalDocumentSymbolSupport"),
            ),
            takes_related: is_true(
                params,
                &format!("{text}/publishDiagnostics/relatedInformation"),
            ),
            takes_markdown: has(params, &format!("{text}/hover/contentFormat"), "markdown"),
        }
    }
}
