//! What the counted copy of the parser notes while it reads: levels, struck tokens, blocks after a default.

use crate::diagnostic::{Diagnostic, Span};
use crate::lex::Token;
use std::cell::RefCell;

/// The deepest level that is read.
const LEVELS: usize = 128;

#[derive(Default)]
pub struct Notes {
    level: usize,
    /// where error 10 ended the reading
    pub refused: Option<Span>,
    /// starts of the tokens that are struck out
    pub struck: Vec<usize>,
    /// blocks that follow a default of the same match
    pub after_default: usize,
}

thread_local! {
    static NOTES: RefCell<Notes> = RefCell::default();
}

fn note<R>(f: impl FnOnce(&mut Notes) -> R) -> R {
    NOTES.with(|notes| f(&mut notes.borrow_mut()))
}

/// A read begins, one level deeper than the one it is made from.
pub fn enter(cur: &Token<'_>) -> Result<(), Diagnostic> {
    note(|notes| {
        if notes.level == LEVELS {
            notes.refused = Some(Span::from_token(cur));
            return Err(Diagnostic::at_token("too many levels", cur));
        }
        notes.level += 1;
        Ok(())
    })
}

pub fn leave() {
    note(|notes| notes.level -= 1);
}

pub fn refused() -> bool {
    note(|notes| notes.refused.is_some())
}

pub fn strike(start: usize) {
    note(|notes| notes.struck.push(start));
}

pub fn block_after_default() {
    note(|notes| notes.after_default += 1);
}

/// The notes of a finished reading; the next one begins with none.
pub fn take() -> Notes {
    let notes = note(std::mem::take);
    assert_eq!(notes.level, 0, "a level was entered and never left");
    notes
}
