//! The arrays that are lent to the library, and its answers as results.
use crate::c::{self, Lent};
use crate::{Error, Kind, Token, MAX_BYTES};
use std::ops::Range;

pub use crate::c::{Mode, ERROR_CELLS, TOKEN_CELLS};

/// How many nodes, types, list cells, roots, values and diagnostics a reading made.
pub struct Counts([u32; 6]);

impl Counts {
    pub fn nodes(&self) -> usize {
        self.0[0] as usize
    }

    pub fn types(&self) -> usize {
        self.0[1] as usize
    }

    pub fn cells(&self) -> usize {
        self.0[2] as usize
    }

    pub fn roots(&self) -> usize {
        self.0[3] as usize
    }

    pub fn values(&self) -> u32 {
        self.0[4]
    }

    pub fn diagnostics(&self) -> usize {
        self.0[5] as usize
    }
}

/// The five arrays, of their least lengths: lookups ask for these lengths too.
pub struct Arrays {
    pub nodes: Vec<u32>,
    pub types: Vec<u32>,
    pub lists: Vec<u32>,
    pub roots: Vec<u32>,
    pub diagnostics: Vec<u32>,
}

/// The answer, or the number that refused the call.
fn answered<A>(number: u32, answer: A) -> Result<A, u32> {
    if number == 0 {
        Ok(answer)
    } else {
        Err(number)
    }
}

/// How a reading ended, by its number and its twelve numbers.
fn ended(number: u32, numbers: [u32; 12]) -> Result<Counts, [u32; 5]> {
    let [_, e0, e1, e2, e3, e4, counts @ ..] = numbers;
    let refused = matches!(number, 1 | 2 | 43);
    assert!(!refused, "refused with {number}, though the arrays have their lengths and the tables are the script's");
    answered(number, Counts(counts)).map_err(|_| [e0, e1, e2, e3, e4])
}

impl Arrays {
    pub fn new(script: &[u8]) -> Result<Arrays, Error> {
        let n = script.len();
        if n > MAX_BYTES {
            return Err(Error::TooLong { bytes: n });
        }
        let [nodes, types, lists, roots, diagnostics] = c::CELLS.map(|cells| vec![0; cells * n]);
        Ok(Arrays { nodes, types, lists, roots, diagnostics })
    }

    fn lend(&mut self) -> [&mut [u32]; 5] {
        let Arrays { nodes, types, lists, roots, diagnostics } = self;
        [nodes, types, lists, roots, diagnostics]
    }

    /// Cutting and reading: the counts, or the five numbers of the error.
    pub fn parse(&mut self, mode: Mode, script: &[u8]) -> Result<Counts, [u32; 5]> {
        let (mut tables, mut numbers) = (Tables::new(script), [0; 12]);
        let number = c::parse(mode, script, [&mut tables.tokens, &mut tables.errors], self.lend(), &mut numbers);
        ended(number, numbers)
    }

    /// The same from the tables of the script.
    pub fn read(&mut self, mode: Mode, script: &[u8], tables: &Tables) -> Result<Counts, [u32; 5]> {
        let mut numbers = [0; 12];
        let number = c::read(mode, script, [&tables.tokens, &tables.errors], self.lend(), &mut numbers);
        ended(number, numbers)
    }

    fn lent<'a>(&'a self, script: &'a [u8], counts: &'a Counts) -> Lent<'a> {
        let Arrays { nodes, types, lists, roots, .. } = self;
        Lent { script, nodes, types, lists, roots, counts: &counts.0 }
    }

    /// Where a node starts, if it has a start.
    pub fn node_start(&self, script: &[u8], counts: &Counts, node: u32) -> Result<Option<usize>, u32> {
        let mut start = [0; 2];
        let number = self.lent(script, counts).node_start(node, &mut start);
        answered(number, (start[0] == 1).then_some(start[1] as usize))
    }

    pub fn type_token(&self, script: &[u8], counts: &Counts, ty: u32) -> Result<Token, u32> {
        let mut token = [0; 3];
        let number = self.lent(script, counts).type_token(ty, &mut token);
        answered(number, token).map(|[kind, start, len]| Token {
            kind: Kind::from_number(kind as u32).expect("a kind"),
            start: start as u32,
            len: len as u32,
        })
    }

    pub fn same_shape(&self, script: &[u8], counts: &Counts, other: &Arrays, script2: &[u8], counts2: &Counts) -> Result<bool, u32> {
        let mut same = [0];
        let number = self.lent(script, counts).same_shape(&other.lent(script2, counts2), &mut same);
        answered(number, same[0] == 1)
    }
}

/// The tables of a script's tokens and lexer errors, of their least lengths. The zeros behind the
/// records belong to them: a reading asks for these too.
pub struct Tables {
    tokens: Vec<u32>,
    errors: Vec<u32>,
    counts: [u32; 2],
}

impl Tables {
    fn new(script: &[u8]) -> Tables {
        let [tokens, errors] = c::table_lengths(script.len()).map(|cells| vec![0; cells]);
        Tables { tokens, errors, counts: [0; 2] }
    }

    pub fn cut(script: &[u8]) -> Result<Tables, u32> {
        let mut tables = Tables::new(script);
        let number = c::cut(script, &mut tables.tokens, &mut tables.errors, &mut tables.counts);
        answered(number, tables)
    }

    /// The records of the tokens.
    pub fn tokens(&self) -> &[u32] {
        &self.tokens[..c::TOKEN_CELLS * self.counts[0] as usize]
    }

    /// The records of the lexer errors.
    pub fn errors(&self) -> &[u32] {
        &self.errors[..c::ERROR_CELLS * self.counts[1] as usize]
    }
}

pub fn token_span(script: &[u8], token: Token) -> Result<Range<usize>, u32> {
    let mut span = [0; 2];
    let number = c::token_span(script, token.kind.number(), token.start as usize, token.len as usize, &mut span);
    answered(number, span[0] as usize..(span[0] + span[1]) as usize)
}

pub fn line_column(script: &[u8], at: usize) -> Result<(usize, usize), u32> {
    let mut place = [0; 2];
    let Ok(at) = u32::try_from(at) else { return Err(3) };
    let number = c::line_column(script, at, &mut place);
    answered(number, (place[0] as usize, place[1] as usize))
}

/// The lines and columns of positions that never fall.
pub fn line_columns(script: &[u8], positions: &[u32]) -> Result<Vec<(usize, usize)>, u32> {
    let mut places = vec![0; 2 * positions.len()];
    let number = c::line_columns(script, positions, &mut places);
    answered(number, places.chunks_exact(2).map(|p| (p[0] as usize, p[1] as usize)).collect())
}

/// The words of an error of five numbers.
pub fn describe(error: &[u32; 5]) -> Result<String, u32> {
    let (mut line, mut length) = ([0; 160], [0]);
    let number = c::describe(error, &mut line, &mut length);
    answered(number, String::from_utf8_lossy(&line[..length[0] as usize]).into_owned())
}

/// The length of the practice sheet that now stands in front of `out`.
pub fn practice(seed: u32, lines: u32, out: &mut [u8]) -> Result<usize, u32> {
    let mut length = [0];
    let number = c::practice(seed, lines, out, &mut length);
    answered(number, length[0] as usize)
}

/// The length of the correction sheet that now stands in front of `sheet`.
pub fn sheet(script: &[u8], errors: &[u32], sheet: &mut [u8]) -> Result<usize, u32> {
    let mut length = [0];
    let number = c::sheet(script, errors, sheet, &mut length);
    answered(number, length[0] as usize)
}
