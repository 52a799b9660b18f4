//! The library's functions over slices: all that is unsafe is here. The programs under tools/rust
//! and bench take this file too. include/purple_garden.h says what each function does.
#![allow(dead_code)] // a program calls some of them

#[rustfmt::skip]
unsafe extern "C" {
    fn purple_garden_parse(
        script: *const u8, script_len: usize, tokens: *mut u32, tokens_len: usize,
        errors: *mut u32, errors_len: usize, nodes: *mut u32, nodes_len: usize,
        types: *mut u32, types_len: usize, lists: *mut u32, lists_len: usize,
        roots: *mut u32, roots_len: usize, diagnostics: *mut u32, diagnostics_len: usize,
        numbers: *mut [u32; 12],
    ) -> u32;
    fn purple_garden_parse_collect(
        script: *const u8, script_len: usize, tokens: *mut u32, tokens_len: usize,
        errors: *mut u32, errors_len: usize, nodes: *mut u32, nodes_len: usize,
        types: *mut u32, types_len: usize, lists: *mut u32, lists_len: usize,
        roots: *mut u32, roots_len: usize, diagnostics: *mut u32, diagnostics_len: usize,
        numbers: *mut [u32; 12],
    ) -> u32;
    fn purple_garden_read(
        script: *const u8, script_len: usize, tokens: *const u32, tokens_len: usize,
        errors: *const u32, errors_len: usize, nodes: *mut u32, nodes_len: usize,
        types: *mut u32, types_len: usize, lists: *mut u32, lists_len: usize,
        roots: *mut u32, roots_len: usize, diagnostics: *mut u32, diagnostics_len: usize,
        numbers: *mut [u32; 12],
    ) -> u32;
    fn purple_garden_read_collect(
        script: *const u8, script_len: usize, tokens: *const u32, tokens_len: usize,
        errors: *const u32, errors_len: usize, nodes: *mut u32, nodes_len: usize,
        types: *mut u32, types_len: usize, lists: *mut u32, lists_len: usize,
        roots: *mut u32, roots_len: usize, diagnostics: *mut u32, diagnostics_len: usize,
        numbers: *mut [u32; 12],
    ) -> u32;
    fn purple_garden_cut(
        script: *const u8, script_len: usize, tokens: *mut u32, tokens_len: usize,
        errors: *mut u32, errors_len: usize, counts: *mut [u32; 2],
    ) -> u32;
    fn purple_garden_is_cut(
        script: *const u8, script_len: usize, tokens: *const u32, tokens_len: usize,
        errors: *const u32, errors_len: usize,
    ) -> bool;
    fn purple_garden_node_start(
        script: *const u8, script_len: usize, nodes: *const u32, nodes_len: usize,
        types: *const u32, types_len: usize, lists: *const u32, lists_len: usize,
        roots: *const u32, roots_len: usize, counts: *const [u32; 6],
        node: u32, start: *mut [u64; 2],
    ) -> u32;
    fn purple_garden_type_token(
        script: *const u8, script_len: usize, nodes: *const u32, nodes_len: usize,
        types: *const u32, types_len: usize, lists: *const u32, lists_len: usize,
        roots: *const u32, roots_len: usize, counts: *const [u32; 6],
        ty: u32, token: *mut [u64; 3],
    ) -> u32;
    fn purple_garden_same_shape(
        script: *const u8, script_len: usize, nodes: *const u32, nodes_len: usize,
        types: *const u32, types_len: usize, lists: *const u32, lists_len: usize,
        roots: *const u32, roots_len: usize, counts: *const [u32; 6],
        script2: *const u8, script2_len: usize, nodes2: *const u32, nodes2_len: usize,
        types2: *const u32, types2_len: usize, lists2: *const u32, lists2_len: usize,
        roots2: *const u32, roots2_len: usize, counts2: *const [u32; 6],
        same: *mut [u64; 1],
    ) -> u32;
    fn purple_garden_token_span(
        script: *const u8, script_len: usize, kind: u32, start: usize, len: usize,
        span: *mut [u64; 2],
    ) -> u32;
    fn purple_garden_line_column(
        script: *const u8, script_len: usize, at: u32, place: *mut [u64; 2],
    ) -> u32;
    fn purple_garden_line_columns(
        script: *const u8, script_len: usize, positions: *const u32, positions_len: usize,
        places: *mut u32, places_len: usize,
    ) -> u32;
    fn purple_garden_describe(
        error: *const [u32; 5], line: *mut u8, line_len: usize, length: *mut [u64; 1],
    ) -> u32;
    fn purple_garden_sheet(
        script: *const u8, script_len: usize, errors: *const u32, errors_len: usize,
        sheet: *mut u8, sheet_len: usize, length: *mut [u64; 1],
    ) -> u32;
    fn purple_garden_practice(
        seed: u32, lines: u32, out: *mut u8, out_len: usize, length: *mut [u64; 1],
    ) -> u32;
    fn lex_is_utf8(bytes: *const u8, bytes_len: usize) -> bool;
    fn lex_step(
        script: *const u8, script_len: usize, pos: usize, out: *mut u64, out_len: usize,
    ) -> bool;
    fn lex_spelling(
        script: *const u8, script_len: usize, kind: u32, start: usize, len: usize, out: *mut u64,
    ) -> bool;
}

/// Cells for each byte of a script, at least: nodes, types, lists, roots, diagnostics.
pub const CELLS: [usize; 5] = [16, 8, 8, 1, 5];

#[derive(Clone, Copy, PartialEq)]
pub enum Mode {
    Strict,
    Collecting,
}

/// The cells of a record of tokens, and of one of lexer errors.
pub const TOKEN_CELLS: usize = 4;
pub const ERROR_CELLS: usize = 6;

/// The least lengths of the tables of tokens and of lexer errors, for a script of `n` bytes.
pub fn table_lengths(n: usize) -> [usize; 2] {
    [TOKEN_CELLS * n + TOKEN_CELLS, ERROR_CELLS * n]
}

/// Cuts a script into both tables; `counts` gets how many records each has, unless it is refused.
#[rustfmt::skip]
#[inline]
pub fn cut(script: &[u8], tokens: &mut [u32], errors: &mut [u32], counts: &mut [u32; 2]) -> u32 {
    // SAFETY: each pointer comes with its slice's length; two cells for the counts.
    unsafe {
        purple_garden_cut(
            script.as_ptr(), script.len(), tokens.as_mut_ptr(), tokens.len(),
            errors.as_mut_ptr(), errors.len(), counts,
        )
    }
}

/// Whether both tables are exactly what cutting leaves.
#[rustfmt::skip]
#[inline]
pub fn is_cut(script: &[u8], tokens: &[u32], errors: &[u32]) -> bool {
    // SAFETY: each pointer comes with its slice's length.
    unsafe {
        purple_garden_is_cut(
            script.as_ptr(), script.len(), tokens.as_ptr(), tokens.len(),
            errors.as_ptr(), errors.len(),
        )
    }
}

/// Cutting into both tables and reading into the five arrays: the number. `numbers` gets it too, with
/// the error's five numbers and the six counts, unless the call is refused.
#[rustfmt::skip]
#[inline]
pub fn parse(
    mode: Mode, script: &[u8], tables: [&mut [u32]; 2], arrays: [&mut [u32]; 5], numbers: &mut [u32; 12],
) -> u32 {
    let call = match mode {
        Mode::Strict => purple_garden_parse,
        Mode::Collecting => purple_garden_parse_collect,
    };
    let [tokens, errors] = tables;
    let [nodes, types, lists, roots, diagnostics] = arrays;
    // SAFETY: each pointer comes with its slice's length; twelve cells for the answer.
    unsafe {
        call(
            script.as_ptr(), script.len(), tokens.as_mut_ptr(), tokens.len(),
            errors.as_mut_ptr(), errors.len(), nodes.as_mut_ptr(), nodes.len(),
            types.as_mut_ptr(), types.len(), lists.as_mut_ptr(), lists.len(),
            roots.as_mut_ptr(), roots.len(), diagnostics.as_mut_ptr(), diagnostics.len(),
            numbers,
        )
    }
}

/// The same from tables that cutting the script left: 43 where they are others.
#[rustfmt::skip]
#[inline]
pub fn read(
    mode: Mode, script: &[u8], tables: [&[u32]; 2], arrays: [&mut [u32]; 5], numbers: &mut [u32; 12],
) -> u32 {
    let call = match mode {
        Mode::Strict => purple_garden_read,
        Mode::Collecting => purple_garden_read_collect,
    };
    let [tokens, errors] = tables;
    let [nodes, types, lists, roots, diagnostics] = arrays;
    // SAFETY: each pointer comes with its slice's length; twelve cells for the answer.
    unsafe {
        call(
            script.as_ptr(), script.len(), tokens.as_ptr(), tokens.len(),
            errors.as_ptr(), errors.len(), nodes.as_mut_ptr(), nodes.len(),
            types.as_mut_ptr(), types.len(), lists.as_mut_ptr(), lists.len(),
            roots.as_mut_ptr(), roots.len(), diagnostics.as_mut_ptr(), diagnostics.len(),
            numbers,
        )
    }
}

/// A script with the arrays and counts of its tree. A lookup answers its number, and its cells keep
/// what they held where it is refused.
pub struct Lent<'a> {
    pub script: &'a [u8],
    pub nodes: &'a [u32],
    pub types: &'a [u32],
    pub lists: &'a [u32],
    pub roots: &'a [u32],
    pub counts: &'a [u32; 6],
}

impl Lent<'_> {
    #[rustfmt::skip]
    pub fn node_start(&self, node: u32, start: &mut [u64; 2]) -> u32 {
        let Lent { script, nodes, types, lists, roots, counts } = self;
        // SAFETY: each pointer comes with its slice's length; six counts, two cells for the answer.
        unsafe {
            purple_garden_node_start(
                script.as_ptr(), script.len(), nodes.as_ptr(), nodes.len(),
                types.as_ptr(), types.len(), lists.as_ptr(), lists.len(),
                roots.as_ptr(), roots.len(), *counts, node, start,
            )
        }
    }

    #[rustfmt::skip]
    pub fn type_token(&self, ty: u32, token: &mut [u64; 3]) -> u32 {
        let Lent { script, nodes, types, lists, roots, counts } = self;
        // SAFETY: as for `node_start`, with three cells for the answer.
        unsafe {
            purple_garden_type_token(
                script.as_ptr(), script.len(), nodes.as_ptr(), nodes.len(),
                types.as_ptr(), types.len(), lists.as_ptr(), lists.len(),
                roots.as_ptr(), roots.len(), *counts, ty, token,
            )
        }
    }

    #[rustfmt::skip]
    pub fn same_shape(&self, other: &Lent, same: &mut [u64; 1]) -> u32 {
        let (a, b) = (self, other);
        // SAFETY: as for `node_start`, of both trees, with one cell for the answer.
        unsafe {
            purple_garden_same_shape(
                a.script.as_ptr(), a.script.len(), a.nodes.as_ptr(), a.nodes.len(),
                a.types.as_ptr(), a.types.len(), a.lists.as_ptr(), a.lists.len(),
                a.roots.as_ptr(), a.roots.len(), a.counts,
                b.script.as_ptr(), b.script.len(), b.nodes.as_ptr(), b.nodes.len(),
                b.types.as_ptr(), b.types.len(), b.lists.as_ptr(), b.lists.len(),
                b.roots.as_ptr(), b.roots.len(), b.counts,
                same,
            )
        }
    }
}

pub fn token_span(script: &[u8], kind: u32, start: usize, len: usize, span: &mut [u64; 2]) -> u32 {
    // SAFETY: the pointer comes with its slice's length; two cells for the answer.
    unsafe { purple_garden_token_span(script.as_ptr(), script.len(), kind, start, len, span) }
}

pub fn line_column(script: &[u8], at: u32, place: &mut [u64; 2]) -> u32 {
    // SAFETY: the pointer comes with its slice's length; two cells for the answer.
    unsafe { purple_garden_line_column(script.as_ptr(), script.len(), at, place) }
}

pub fn line_columns(script: &[u8], positions: &[u32], places: &mut [u32]) -> u32 {
    let (m, n) = (positions.len(), places.len());
    // SAFETY: each pointer comes with its length.
    unsafe {
        purple_garden_line_columns(
            script.as_ptr(), script.len(), positions.as_ptr(), m, places.as_mut_ptr(), n,
        )
    }
}

/// The words of an error, in front of `line`; `length` gets how many bytes they have.
pub fn describe(error: &[u32; 5], line: &mut [u8], length: &mut [u64; 1]) -> u32 {
    // SAFETY: five numbers, the line with its length; one cell for the answer.
    unsafe { purple_garden_describe(error, line.as_mut_ptr(), line.len(), length) }
}

/// A correction sheet, in front of `out`; `length` gets how many bytes it has.
#[rustfmt::skip]
pub fn sheet(script: &[u8], errors: &[u32], out: &mut [u8], length: &mut [u64; 1]) -> u32 {
    // SAFETY: each pointer comes with its slice's length; one cell for the answer.
    unsafe {
        purple_garden_sheet(
            script.as_ptr(), script.len(), errors.as_ptr(), errors.len(),
            out.as_mut_ptr(), out.len(), length,
        )
    }
}

/// A practice sheet, in front of `out`; `length` gets how many bytes it has.
pub fn practice(seed: u32, lines: u32, out: &mut [u8], length: &mut [u64; 1]) -> u32 {
    // SAFETY: the pointer comes with its slice's length; one cell for the answer.
    unsafe { purple_garden_practice(seed, lines, out.as_mut_ptr(), out.len(), length) }
}

pub fn is_utf8(bytes: &[u8]) -> bool {
    // SAFETY: the pointer comes with its slice's length.
    unsafe { lex_is_utf8(bytes.as_ptr(), bytes.len()) }
}

/// What stands at a position, in six cells; false where `out` has fewer.
pub fn step(script: &[u8], pos: usize, out: &mut [u64]) -> bool {
    // SAFETY: each pointer comes with its slice's length.
    unsafe { lex_step(script.as_ptr(), script.len(), pos, out.as_mut_ptr(), out.len()) }
}

/// Where a token's spelling begins; false where it has none, and `out` keeps what it held.
pub fn spelling(script: &[u8], kind: u32, start: usize, len: usize, out: &mut u64) -> bool {
    // SAFETY: the pointer comes with its slice's length; one cell for the answer.
    unsafe { lex_spelling(script.as_ptr(), script.len(), kind, start, len, out) }
}
