//! What is wrong with a script.
use crate::{ffi, Kind};
use std::fmt;
use std::ops::Range;

/// Why a script has no tree.
#[derive(Clone, Debug, PartialEq, Eq)]
pub enum Error {
    /// The script has more than 65,536 bytes.
    TooLong { bytes: usize },
    /// The script is wrong at a place.
    Script(Diagnostic),
}

/// A place where a script is wrong.
#[derive(Clone, Debug, PartialEq, Eq)]
pub struct Diagnostic {
    pub problem: Problem,
    /// The place of the token that the error names, or that the lexer passed over. At the script's end it lies past
    /// the script: an index by it panics, and [`Diagnostic::bytes`] does not.
    pub span: Range<usize>,
    /// The kind of that token; nothing for what is no token.
    pub seen: Option<Kind>,
    /// The line of the span's start, from 1.
    pub line: usize,
    /// Its column, from 1, as [`Tree::line_column`](crate::Tree::line_column) counts it.
    pub column: usize,
}

/// What is wrong, by the numbers from 10 to 34.
#[derive(Clone, Copy, Debug, PartialEq, Eq)]
pub enum Problem {
    TooDeep,
    ExpectedToken(Kind),
    ExpectedIdentifier,
    DocsAttachedToNothing,
    DocsBeforeSomethingElse,
    ImportPathNotAString,
    ExternWithoutAString,
    NestedExtern,
    MatchWithoutADefault,
    ExpectedExpression,
    EmptyForeign,
    EmptyOption,
    EmptyArray,
    BadType,
    UnterminatedString,
    InvalidUtf8,
    UnknownCharacter(u8),
    InvalidNumber,
}

impl Problem {
    /// The number of the error, from 10 to 34.
    pub fn number(self) -> u32 {
        match self {
            Problem::TooDeep => 10,
            Problem::ExpectedToken(_) => 11,
            Problem::ExpectedIdentifier => 12,
            Problem::DocsAttachedToNothing => 13,
            Problem::DocsBeforeSomethingElse => 14,
            Problem::ImportPathNotAString => 15,
            Problem::ExternWithoutAString => 16,
            Problem::NestedExtern => 17,
            Problem::MatchWithoutADefault => 18,
            Problem::ExpectedExpression => 19,
            Problem::EmptyForeign => 20,
            Problem::EmptyOption => 21,
            Problem::EmptyArray => 22,
            Problem::BadType => 23,
            Problem::UnterminatedString => 31,
            Problem::InvalidUtf8 => 32,
            Problem::UnknownCharacter(_) => 33,
            Problem::InvalidNumber => 34,
        }
    }

    fn new(number: u32, wanted: u32, seen: u32) -> Problem {
        match number {
            10 => Problem::TooDeep,
            11 => Problem::ExpectedToken(Kind::from_number(wanted).expect("a kind")),
            12 => Problem::ExpectedIdentifier,
            13 => Problem::DocsAttachedToNothing,
            14 => Problem::DocsBeforeSomethingElse,
            15 => Problem::ImportPathNotAString,
            16 => Problem::ExternWithoutAString,
            17 => Problem::NestedExtern,
            18 => Problem::MatchWithoutADefault,
            19 => Problem::ExpectedExpression,
            20 => Problem::EmptyForeign,
            21 => Problem::EmptyOption,
            22 => Problem::EmptyArray,
            23 => Problem::BadType,
            31 => Problem::UnterminatedString,
            32 => Problem::InvalidUtf8,
            33 => Problem::UnknownCharacter(seen as u8),
            34 => Problem::InvalidNumber,
            _ => unreachable!("no error has the number {number}"),
        }
    }
}

impl Diagnostic {
    /// From the five numbers of an error.
    pub(crate) fn new(script: &[u8], numbers: [u32; 5]) -> Diagnostic {
        let place = ffi::line_column(script, numbers[1] as usize).expect("an error names a place in the script");
        Diagnostic::at(place, numbers)
    }

    /// From its line and column and the five numbers.
    pub(crate) fn at((line, column): (usize, usize), [number, start, len, wanted, seen]: [u32; 5]) -> Diagnostic {
        let start = start as usize;
        let problem = Problem::new(number, wanted, seen);
        let seen = if number < 30 { Kind::from_number(seen) } else { None };
        Diagnostic { problem, span: start..start + len as usize, seen, line, column }
    }
}

impl Diagnostic {
    /// What is wrong in words, as docs/WORDS.md has them; nothing for numbers that no reading gives.
    pub fn words(&self) -> Option<String> {
        let wanted = match self.problem {
            Problem::ExpectedToken(kind) => kind.number(),
            _ => 0,
        };
        let seen = match self.problem {
            Problem::UnknownCharacter(byte) => byte.into(),
            _ => self.seen.map_or(0, Kind::number),
        };
        ffi::describe(&[self.problem.number(), 0, 0, wanted, seen]).ok()
    }
}

impl fmt::Display for Diagnostic {
    fn fmt(&self, f: &mut fmt::Formatter<'_>) -> fmt::Result {
        write!(f, "line {}, column {}: error {}", self.line, self.column, self.problem.number())?;
        self.words().map_or(Ok(()), |words| write!(f, ": {words}"))
    }
}

impl fmt::Display for Error {
    fn fmt(&self, f: &mut fmt::Formatter<'_>) -> fmt::Result {
        match self {
            Error::TooLong { bytes } => write!(f, "the script has {bytes} bytes, more than {}", crate::MAX_BYTES),
            Error::Script(diagnostic) => diagnostic.fmt(f),
        }
    }
}

impl std::error::Error for Error {}
