//! Practice sheets: the same script at every site from one seed.
//!
//! ```
//! use purple_garden_reader::practice;
//!
//! let sheet = practice::sheet(2, 3)?;
//! assert_eq!(sheet, "let v0 = v4\nlet v1 = -v9\nlet v2 = (--58 + 24)\n");
//! # Ok::<(), practice::TooManyLines>(())
//! ```
use crate::ffi;
use std::fmt;

/// The most lines of a sheet.
pub const MAX_LINES: u32 = 16;

/// Every sheet fits: a line has at most 118 bytes.
const BYTES: usize = 118 * MAX_LINES as usize;

/// More than 16 lines were asked for (47).
#[derive(Clone, Copy, Debug, PartialEq, Eq)]
pub struct TooManyLines {
    pub lines: u32,
}

impl fmt::Display for TooManyLines {
    fn fmt(&self, f: &mut fmt::Formatter<'_>) -> fmt::Result {
        write!(f, "a practice sheet has at most {MAX_LINES} lines, not {}", self.lines)
    }
}

impl std::error::Error for TooManyLines {}

/// The sheet of a seed, with so many lines. Strict reading accepts it, with one root for each line.
pub fn sheet(seed: u32, lines: u32) -> Result<String, TooManyLines> {
    let mut out = vec![0; BYTES];
    match ffi::practice(seed, lines, &mut out) {
        Ok(length) => {
            out.truncate(length);
            Ok(String::from_utf8(out).expect("a sheet is ASCII"))
        }
        Err(47) => Err(TooManyLines { lines }),
        Err(number) => panic!("refused with {number}, though every sheet fits the buffer"),
    }
}
