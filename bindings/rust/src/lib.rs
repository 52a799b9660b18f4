//! Reads Purple Garden scripts: the tree of a script, or the error that ended the reading.
//!
//! ```
//! use purple_garden_reader::Tree;
//!
//! let tree = Tree::parse("let x = a -1")?;
//! for root in tree.roots() {
//!     println!("{:?}", tree.node(root));
//! }
//! # Ok::<(), purple_garden_reader::Error>(())
//! ```
//!
//! The reading itself is proved (crates/c_api and below); this wrapper lends it arrays of the lengths it asks for and decodes what they hold.

mod c;
mod error;
mod ffi;
mod kind;
mod node;
mod span;
pub mod practice;
mod sheet;
mod tokens;

pub use error::{Diagnostic, Error, Problem};
pub use kind::Kind;
pub use tokens::Tokens;
pub use node::{Case, Field, Function, List, Member, Node, NodeId, Parameter, Token, Type, TypeId};

use ffi::Mode;
use std::ops::Range;

/// The longest script that is read, in bytes.
pub const MAX_BYTES: usize = 65_536;

/// A script and its tree.
pub struct Tree {
    script: Vec<u8>,
    arrays: ffi::Arrays,
    counts: ffi::Counts,
}

impl Tree {
    /// Strict reading: the tree, or the first error. The script is cut into tokens, and these are read.
    pub fn parse(script: impl Into<Vec<u8>>) -> Result<Tree, Error> {
        Tree::new(script.into(), |arrays, script| arrays.parse(Mode::Strict, script))
    }

    /// Collecting reading: the tree of what could be read, with all errors of the script as its diagnostics. Only a script that is too long or
    /// nested too deep has no tree.
    pub fn parse_collect(script: impl Into<Vec<u8>>) -> Result<Tree, Error> {
        Tree::new(script.into(), |arrays, script| arrays.parse(Mode::Collecting, script))
    }

    /// Strict reading from tokens: what [`Tree::parse`] gives of their script.
    ///
    /// ```
    /// use purple_garden_reader::{Tokens, Tree};
    ///
    /// let tokens = Tokens::cut("let x = a -1")?;
    /// assert!(Tree::read(&tokens)?.same_shape(&Tree::parse("let x = a -1")?));
    /// # Ok::<(), purple_garden_reader::Error>(())
    /// ```
    pub fn read(tokens: &Tokens) -> Result<Tree, Error> {
        Tree::new(tokens.script.clone(), |arrays, script| arrays.read(Mode::Strict, script, &tokens.tables))
    }

    /// Collecting reading from tokens: what [`Tree::parse_collect`] gives of their script.
    pub fn read_collect(tokens: &Tokens) -> Result<Tree, Error> {
        Tree::new(tokens.script.clone(), |arrays, script| arrays.read(Mode::Collecting, script, &tokens.tables))
    }

    fn new(script: Vec<u8>, read: impl FnOnce(&mut ffi::Arrays, &[u8]) -> Result<ffi::Counts, [u32; 5]>) -> Result<Tree, Error> {
        let mut arrays = ffi::Arrays::new(&script)?;
        match read(&mut arrays, &script) {
            Ok(counts) => Ok(Tree { script, arrays, counts }),
            Err(numbers) => Err(Error::Script(Diagnostic::new(&script, numbers))),
        }
    }

    /// What a collecting reading gathered, in the order in which it was met; nothing after a strict one.
    pub fn diagnostics(&self) -> impl ExactSizeIterator<Item = Diagnostic> + '_ {
        let cells = &self.arrays.diagnostics[..5 * self.counts.diagnostics()];
        let mut starts: Vec<u32> = cells.chunks_exact(5).map(|c| c[1]).collect();
        starts.sort_unstable(); // a gathered error may start before the one that was met before it
        let places = ffi::line_columns(&self.script, &starts).expect("errors name places in the script");
        cells.chunks_exact(5).map(move |c| {
            let place = places[starts.binary_search(&c[1]).expect("a start of these errors")];
            Diagnostic::at(place, [c[0], c[1], c[2], c[3], c[4]])
        })
    }

    pub fn script(&self) -> &[u8] {
        &self.script
    }

    /// The nodes that stand at the root, in script order.
    pub fn roots(&self) -> impl ExactSizeIterator<Item = NodeId> + '_ {
        self.arrays.roots[..self.counts.roots()].iter().map(|&id| NodeId(id))
    }

    /// Every node, in the order in which they were made: those below a node come before it. Those that no root
    /// reaches are among them: a body that a later default replaced, and what a collecting reading had made of a
    /// root before an error.
    pub fn nodes(&self) -> impl ExactSizeIterator<Item = (NodeId, Node<'_>)> {
        (0..self.counts.nodes() as u32).map(|i| (NodeId(i), self.node(NodeId(i))))
    }

    /// Every type, in the order in which they were made.
    pub fn types(&self) -> impl ExactSizeIterator<Item = (TypeId, Type<'_>)> {
        (0..self.counts.types() as u32).map(|i| (TypeId(i), self.ty(TypeId(i))))
    }

    /// How many value numbers were handed out.
    pub fn values(&self) -> u32 {
        self.counts.values()
    }

    /// A node of this tree.
    ///
    /// # Panics
    /// Where the tree has no node of that number.
    pub fn node(&self, id: NodeId) -> Node<'_> {
        assert!((id.0 as usize) < self.counts.nodes(), "no node {}", id.0);
        Node::decode(self.lists(), &self.arrays.nodes[16 * id.0 as usize..][..16])
    }

    /// A type of this tree.
    ///
    /// # Panics
    /// Where the tree has no type of that number.
    pub fn ty(&self, id: TypeId) -> Type<'_> {
        assert!((id.0 as usize) < self.counts.types(), "no type {}", id.0);
        Type::decode(self.lists(), &self.arrays.types[8 * id.0 as usize..][..8])
    }

    fn lists(&self) -> &[u32] {
        &self.arrays.lists[..self.counts.cells()]
    }

    /// What a token says: of a string what stands between its quotes, of a doc its line.
    pub fn spelling(&self, token: Token) -> &str {
        if let Some(fixed) = token.kind.fixed_spelling() {
            return fixed;
        }
        let start = token.start as usize;
        let offset = match token.kind {
            Kind::S => 1,
            Kind::Doc if self.script.get(start + 2) == Some(&b' ') => 3,
            Kind::Doc => 2,
            _ => 0,
        };
        let bytes = &self.script[start + offset..][..token.len as usize];
        std::str::from_utf8(bytes).expect("the lexer refuses bad UTF-8")
    }

    /// Where a node starts, in bytes. An empty array has no start, nor has what begins with one and has no sign of
    /// its own, as `[].b` and `[[] 1]`.
    ///
    /// # Panics
    /// Where the tree has no node of that number.
    pub fn start(&self, id: NodeId) -> Option<usize> {
        let start = self.arrays.node_start(&self.script, &self.counts, id.0);
        start.unwrap_or_else(|number| panic!("no node {}: refused with {number}", id.0))
    }

    /// The token of a type: its own, or that of the type inside.
    ///
    /// # Panics
    /// Where the tree has no type of that number.
    pub fn type_token(&self, id: TypeId) -> Token {
        let token = self.arrays.type_token(&self.script, &self.counts, id.0);
        token.unwrap_or_else(|number| panic!("no type {}: refused with {number}", id.0))
    }

    /// The place of a token. A string's span starts behind its quote; a Doc's starts at its `#` and is as long as its
    /// words; that of a Void that is written nowhere may end past the script. [`Tree::bytes`] has what it covers.
    ///
    /// # Panics
    /// Where the token is none of this tree.
    pub fn span(&self, token: Token) -> Range<usize> {
        ffi::token_span(&self.script, token).unwrap_or_else(|number| panic!("no token of this script: refused with {number}"))
    }

    /// The line and column of a byte position, both from 1; nothing where it lies past the script's end. A column is
    /// 1 plus the number of bytes since the last line feed that are not UTF-8 continuation bytes, that is, not 128 to
    /// 191: a letter with an accent counts once, as an editor shows it.
    ///
    /// ```
    /// let tree = purple_garden_reader::Tree::parse("\"José\" x")?;
    /// assert_eq!((tree.script()[8], tree.line_column(8)), (b'x', Some((1, 8))));
    /// # Ok::<(), purple_garden_reader::Error>(())
    /// ```
    pub fn line_column(&self, at: usize) -> Option<(usize, usize)> {
        ffi::line_column(&self.script, at).ok()
    }

    /// The lines and columns of byte positions that never fall, as [`Tree::line_column`] gives them, going through the
    /// script once; nothing where a position is below the one before it or lies past the script's end.
    ///
    /// ```
    /// let tree = purple_garden_reader::Tree::parse("a\nb")?;
    /// assert_eq!(tree.line_columns(&[0, 2, 2, 3]), Some(vec![(1, 1), (2, 1), (2, 1), (2, 2)]));
    /// assert_eq!((tree.line_columns(&[2, 1]), tree.line_columns(&[4])), (None, None));
    /// # Ok::<(), purple_garden_reader::Error>(())
    /// ```
    pub fn line_columns(&self, positions: &[usize]) -> Option<Vec<(usize, usize)>> {
        let positions: Option<Vec<u32>> = positions.iter().map(|&at| at.try_into().ok()).collect();
        ffi::line_columns(&self.script, &positions?).ok()
    }

    /// The two trees have the same shape: the same kinds, spellings, docs and lists downward from their roots, wherever they stand.
    pub fn same_shape(&self, other: &Tree) -> bool {
        let same = self.arrays.same_shape(&self.script, &self.counts, &other.arrays, &other.script, &other.counts);
        same.expect("trees of readings are well formed")
    }
}

impl std::fmt::Debug for Tree {
    fn fmt(&self, f: &mut std::fmt::Formatter<'_>) -> std::fmt::Result {
        f.debug_struct("Tree").field("nodes", &self.nodes().collect::<Vec<_>>()).field("types", &self.types().collect::<Vec<_>>()).finish()
    }
}
