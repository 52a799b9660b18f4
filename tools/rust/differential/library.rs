//! The library over C, and the arrays that are lent to it: full of rubbish, longer than needed, and with cells around them that nobody may touch.

use crate::c;
use crate::scripts::Random;

pub use crate::c::{CELLS, Mode};

/// The five arrays of a reading and the two tables.
pub const LENT: usize = 7;
pub const NAMES: [&str; LENT] = ["nodes", "types", "lists", "roots", "diagnostics", "tokens", "errors"];

/// Where the tables stand among them.
pub const TOKENS: usize = 5;
pub const ERRORS: usize = 6;

/// The least lengths of all seven for `n` bytes.
pub fn least(n: usize) -> [usize; LENT] {
    let ([nodes, types, lists, roots, diagnostics], [tokens, errors]) = (CELLS.map(|cells| cells * n), c::table_lengths(n));
    [nodes, types, lists, roots, diagnostics, tokens, errors]
}

/// Cells before and behind each array that stay as they are.
const GUARD: usize = 4;
const UNTOUCHED: u32 = 0xdead_beef;

pub const MODES: [Mode; 2] = [Mode::Strict, Mode::Collecting];

/// Rubbish to fill arrays with.
pub struct Rubbish(Vec<u32>);

impl Rubbish {
    pub fn new(random: &mut Random) -> Self {
        Rubbish((0..1 << 12).map(|_| random.below(1 << 31) as u32 * 2 + 1).collect())
    }

    fn fill(&self, cells: &mut [u32], random: &mut Random) {
        let from = random.below(self.0.len() / 2);
        let source = &self.0[from..];
        for part in cells.chunks_mut(source.len()) {
            part.copy_from_slice(&source[..part.len()]);
        }
    }
}

/// The five arrays, the two tables and the twelve numbers.
pub struct Lent {
    cells: [Vec<u32>; LENT],
    lens: [usize; LENT],
    pub numbers: [u32; 12],
}

impl Lent {
    pub fn new() -> Self {
        Lent { cells: [const { Vec::new() }; LENT], lens: [0; LENT], numbers: [0; 12] }
    }

    /// Arrays of these lengths, filled with rubbish.
    pub fn lend(&mut self, lens: [usize; LENT], rubbish: &Rubbish, random: &mut Random) {
        for (cells, len) in self.cells.iter_mut().zip(lens) {
            if cells.len() < len + 2 * GUARD {
                cells.resize(len + 2 * GUARD, 0);
            }
            cells[..GUARD].fill(UNTOUCHED);
            rubbish.fill(&mut cells[GUARD..GUARD + len], random);
            cells[GUARD + len..len + 2 * GUARD].fill(UNTOUCHED);
        }
        self.lens = lens;
        rubbish.fill(&mut self.numbers, random);
    }

    pub fn array(&self, i: usize) -> &[u32] {
        &self.cells[i][GUARD..GUARD + self.lens[i]]
    }

    pub fn array_mut(&mut self, i: usize) -> &mut [u32] {
        &mut self.cells[i][GUARD..GUARD + self.lens[i]]
    }

    /// All that is lent, for a test that nothing changed.
    pub fn copy(&self) -> ([Vec<u32>; LENT], [u32; 12]) {
        (std::array::from_fn(|i| self.array(i).to_vec()), self.numbers)
    }

    pub fn guarded(&self) -> bool {
        let whole = |i: usize| &self.cells[i][..self.lens[i] + 2 * GUARD];
        (0..LENT).all(|i| whole(i)[..GUARD].iter().chain(&whole(i)[GUARD + self.lens[i]..]).all(|&cell| cell == UNTOUCHED))
    }

    fn all(&mut self) -> ([&mut [u32]; 5], [&mut [u32]; 2], &mut [u32; 12]) {
        let mut lens = self.lens.iter();
        let [nodes, types, lists, roots, diagnostics, tokens, errors] =
            self.cells.each_mut().map(|cells| &mut cells[GUARD..GUARD + lens.next().expect("a length each")]);
        ([nodes, types, lists, roots, diagnostics], [tokens, errors], &mut self.numbers)
    }

    /// Cutting and reading.
    pub fn parse(&mut self, mode: Mode, script: &[u8]) -> u32 {
        let (arrays, tables, numbers) = self.all();
        c::parse(mode, script, tables, arrays, numbers)
    }

    /// Reading from the tables as they are.
    pub fn read(&mut self, mode: Mode, script: &[u8]) -> u32 {
        let (arrays, [tokens, errors], numbers) = self.all();
        c::read(mode, script, [tokens, errors], arrays, numbers)
    }

    fn lent<'a>(&'a self, script: &'a [u8]) -> c::Lent<'a> {
        let [nodes, types, lists, roots] = [0, 1, 2, 3].map(|i| self.array(i));
        c::Lent { script, nodes, types, lists, roots, counts: self.numbers[6..].first_chunk().expect("six counts") }
    }

    pub fn node_start(&self, script: &[u8], node: u32) -> (u32, [u64; 2]) {
        let mut start = [u64::MAX; 2];
        (self.lent(script).node_start(node, &mut start), start)
    }

    pub fn type_token(&self, script: &[u8], ty: u32) -> (u32, [u64; 3]) {
        let mut token = [u64::MAX; 3];
        (self.lent(script).type_token(ty, &mut token), token)
    }

    pub fn same_shape(&self, script: &[u8], other: &Lent, script2: &[u8]) -> (u32, u64) {
        let mut same = [u64::MAX];
        (self.lent(script).same_shape(&other.lent(script2), &mut same), same[0])
    }
}

pub fn token_span(script: &[u8], kind: u32, start: usize, len: usize) -> (u32, [u64; 2]) {
    let mut span = [u64::MAX; 2];
    (c::token_span(script, kind, start, len, &mut span), span)
}

pub fn line_column(script: &[u8], at: u32) -> (u32, [u64; 2]) {
    let mut place = [u64::MAX; 2];
    (c::line_column(script, at, &mut place), place)
}

pub fn line_columns(script: &[u8], positions: &[u32], places: &mut [u32]) -> u32 {
    c::line_columns(script, positions, places)
}
