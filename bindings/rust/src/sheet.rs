//! The correction sheet of a paper: each error by line and column, in words.
use crate::{ffi, Diagnostic, Problem, Tree};

/// The most bytes that an error takes: three lines of 72 bytes and a line feed.
const MOST: usize = 3 * 73;

/// The sheet of errors, five numbers each.
fn print(script: &[u8], errors: &[u32]) -> String {
    let mut sheet = vec![0; MOST * (errors.len() / 5)];
    let length = ffi::sheet(script, errors, &mut sheet);
    sheet.truncate(length.unwrap_or_else(|number| panic!("errors of this script: refused with {number}")));
    String::from_utf8(sheet).expect("a sheet is ASCII")
}

impl Tree {
    /// The correction sheet of what a collecting reading gathered; empty after a strict one. Each
    /// line has 72 bytes: the error's line in places 1 to 5, its column in 7 to 11, its number in 13
    /// and 14, its words from 16 on. Words that are longer go on under a blank margin.
    pub fn sheet(&self) -> String {
        print(&self.script, &self.arrays.diagnostics[..5 * self.counts.diagnostics()])
    }
}

impl Diagnostic {
    /// The correction sheet of this error alone, which is one of `script`.
    ///
    /// # Panics
    /// Where the error starts past the script's end, or the script is too long.
    pub fn sheet(&self, script: &[u8]) -> String {
        let wanted = match self.problem {
            Problem::ExpectedToken(kind) => kind.number(),
            _ => 0,
        };
        let seen = match self.problem {
            Problem::UnknownCharacter(byte) => u32::from(byte),
            _ => self.seen.map_or(0, |kind| kind.number()),
        };
        let [start, len] = [self.span.start, self.span.len()].map(|n| u32::try_from(n).expect("a place in a script"));
        print(script, &[self.problem.number(), start, len, wanted, seen])
    }
}
