//! Spans as bytes of a script.
use crate::{Diagnostic, Tree};
use std::ops::Range;

/// The bytes of a span that lie in a script; none where it lies past its end.
fn covered(script: &[u8], span: Range<usize>) -> &[u8] {
    let end = span.end.min(script.len());
    &script[span.start.min(end)..end]
}

impl Tree {
    /// The bytes of the script that a span covers. The span of the script's end lies past it, and so
    /// may that of a Void that is written nowhere: what lies past the end is left out here, where an
    /// index by the span would panic. A Doc's span starts at its `#` and is as long as its words, so
    /// that it covers other bytes than these: use [`Tree::spelling`] for words.
    pub fn bytes(&self, span: Range<usize>) -> &[u8] {
        covered(self.script(), span)
    }
}

impl Diagnostic {
    /// The bytes of the script that the error names, as [`Tree::bytes`]; none at the script's end.
    pub fn bytes<'a>(&self, script: &'a [u8]) -> &'a [u8] {
        covered(script, self.span.clone())
    }
}
