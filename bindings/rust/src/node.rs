//! Nodes, types and lists, decoded from the arrays as docs/LAYOUT.md lays them out.
use crate::Kind;
use std::fmt;
use std::marker::PhantomData;

/// The number of a node in its tree.
#[derive(Clone, Copy, Debug, PartialEq, Eq, PartialOrd, Ord, Hash)]
pub struct NodeId(pub u32);

/// The number of a type in its tree.
#[derive(Clone, Copy, Debug, PartialEq, Eq, PartialOrd, Ord, Hash)]
pub struct TypeId(pub u32);

/// A token: its kind, where it starts in the script, and how long its spelling is.
#[derive(Clone, Copy, Debug, PartialEq, Eq, Hash)]
pub struct Token {
    pub kind: Kind,
    pub start: u32,
    pub len: u32,
}

/// A node; `id` is its value number.
#[derive(Clone, Copy, Debug)]
pub enum Node<'t> {
    Atom { id: u32, raw: Token },
    Ident { id: u32, name: Token },
    Bin { id: u32, op: Token, lhs: NodeId, rhs: NodeId },
    Unary { id: u32, op: Token, rhs: NodeId },
    Let { id: u32, docs: List<'t, Token>, name: Token, rhs: NodeId },
    Fn { id: u32, docs: List<'t, Token>, name: Token, args: List<'t, Parameter>, return_type: TypeId, body: List<'t, NodeId> },
    Match { id: u32, cases: List<'t, Case<'t>>, default_token: Token, default_body: List<'t, NodeId> },
    Call { id: u32, target: NodeId, args: List<'t, NodeId> },
    Field { id: u32, target: NodeId, name: Token },
    Cast { id: u32, src: Token, lhs: NodeId, rhs: TypeId },
    Import { id: u32, src: Token, pkgs: List<'t, Token> },
    Extern { id: u32, src: Token, docs: List<'t, Token>, name: Token, fns: List<'t, Function<'t>> },
    Record { id: u32, src: Token, fields: List<'t, Field> },
    Array { id: u32, src: Token, members: List<'t, NodeId> },
}

/// A type.
#[derive(Clone, Copy, Debug)]
pub enum Type<'t> {
    Atom(Token),
    /// The name inside of the angle brackets.
    Foreign(Token),
    Option(TypeId),
    Array(TypeId),
    Record { src: Token, fields: List<'t, Parameter> },
}

/// A name with its type: an argument of a fn, a field of a Record type.
#[derive(Clone, Copy, Debug)]
pub struct Parameter {
    pub name: Token,
    pub ty: TypeId,
}

/// A name with its value, in a record.
#[derive(Clone, Copy, Debug)]
pub struct Field {
    pub name: Token,
    pub value: NodeId,
}

/// A case of a match: the condition's first token, the condition, the body.
#[derive(Clone, Copy, Debug)]
pub struct Case<'t> {
    pub token: Token,
    pub condition: NodeId,
    pub body: List<'t, NodeId>,
}

/// A fn of an extern.
#[derive(Clone, Copy, Debug)]
pub struct Function<'t> {
    pub docs: List<'t, Token>,
    pub name: Token,
    pub args: List<'t, Parameter>,
    pub return_type: TypeId,
}

/// A list in a tree; it is an iterator over its members.
pub struct List<'t, T> {
    /// all list cells of the tree
    lists: &'t [u32],
    /// the cells of this list
    cells: &'t [u32],
    members: PhantomData<T>,
}

impl<T> Clone for List<'_, T> {
    fn clone(&self) -> Self {
        *self
    }
}

impl<T> Copy for List<'_, T> {}

impl<'t, T: Member<'t>> List<'t, T> {
    pub fn len(&self) -> usize {
        self.cells.len() / T::CELLS
    }

    pub fn is_empty(&self) -> bool {
        self.cells.is_empty()
    }

    pub fn get(&self, i: usize) -> Option<T> {
        (i < self.len()).then(|| T::decode(self.lists, &self.cells[i * T::CELLS..][..T::CELLS]))
    }
}

impl<'t, T: Member<'t>> Iterator for List<'t, T> {
    type Item = T;

    fn next(&mut self) -> Option<T> {
        let first = self.get(0)?;
        self.cells = &self.cells[T::CELLS..];
        Some(first)
    }

    fn size_hint(&self) -> (usize, Option<usize>) {
        (self.len(), Some(self.len()))
    }
}

impl<'t, T: Member<'t>> ExactSizeIterator for List<'t, T> {}

impl<'t, T: Member<'t> + fmt::Debug> fmt::Debug for List<'t, T> {
    fn fmt(&self, f: &mut fmt::Formatter<'_>) -> fmt::Result {
        f.debug_list().entries(*self).finish()
    }
}

/// What lists have: a number of cells, decoded over the list cells of the tree.
pub trait Member<'t>: Sized {
    const CELLS: usize;
    fn decode(lists: &'t [u32], cells: &[u32]) -> Self;
}

fn token(cells: &[u32]) -> Token {
    Token { kind: Kind::from_number(cells[0]).expect("a kind"), start: cells[1], len: cells[2] }
}

/// The list of a run: its first cell, how many members.
fn list<'t, T: Member<'t>>(lists: &'t [u32], run: &[u32]) -> List<'t, T> {
    let (first, members) = (run[0] as usize, run[1] as usize);
    List { lists, cells: &lists[first..][..members * T::CELLS], members: PhantomData }
}

impl Member<'_> for Token {
    const CELLS: usize = 3;

    fn decode(_: &[u32], cells: &[u32]) -> Self {
        token(cells)
    }
}

impl Member<'_> for NodeId {
    const CELLS: usize = 1;

    fn decode(_: &[u32], cells: &[u32]) -> Self {
        NodeId(cells[0])
    }
}

impl Member<'_> for Parameter {
    const CELLS: usize = 4;

    fn decode(_: &[u32], cells: &[u32]) -> Self {
        Parameter { name: token(cells), ty: TypeId(cells[3]) }
    }
}

impl Member<'_> for Field {
    const CELLS: usize = 4;

    fn decode(_: &[u32], cells: &[u32]) -> Self {
        Field { name: token(cells), value: NodeId(cells[3]) }
    }
}

impl<'t> Member<'t> for Case<'t> {
    const CELLS: usize = 6;

    fn decode(lists: &'t [u32], cells: &[u32]) -> Self {
        Case { token: token(cells), condition: NodeId(cells[3]), body: list(lists, &cells[4..]) }
    }
}

impl<'t> Member<'t> for Function<'t> {
    const CELLS: usize = 8;

    fn decode(lists: &'t [u32], cells: &[u32]) -> Self {
        Function { docs: list(lists, cells), name: token(&cells[2..]), args: list(lists, &cells[5..]), return_type: TypeId(cells[7]) }
    }
}

impl<'t> Node<'t> {
    /// From a record of 16 cells.
    pub(crate) fn decode(lists: &'t [u32], c: &[u32]) -> Node<'t> {
        let id = c[1];
        match c[0] {
            1 => Node::Atom { id, raw: token(&c[2..]) },
            2 => Node::Ident { id, name: token(&c[2..]) },
            3 => Node::Bin { id, op: token(&c[2..]), lhs: NodeId(c[5]), rhs: NodeId(c[6]) },
            4 => Node::Unary { id, op: token(&c[2..]), rhs: NodeId(c[5]) },
            5 => Node::Let { id, docs: list(lists, &c[2..]), name: token(&c[4..]), rhs: NodeId(c[7]) },
            6 => Node::Fn {
                id,
                docs: list(lists, &c[2..]),
                name: token(&c[4..]),
                args: list(lists, &c[7..]),
                return_type: TypeId(c[9]),
                body: list(lists, &c[10..]),
            },
            7 => Node::Match { id, cases: list(lists, &c[2..]), default_token: token(&c[4..]), default_body: list(lists, &c[7..]) },
            8 => Node::Call { id, target: NodeId(c[2]), args: list(lists, &c[3..]) },
            9 => Node::Field { id, target: NodeId(c[2]), name: token(&c[3..]) },
            10 => Node::Cast { id, src: token(&c[2..]), lhs: NodeId(c[5]), rhs: TypeId(c[6]) },
            11 => Node::Import { id, src: token(&c[2..]), pkgs: list(lists, &c[5..]) },
            12 => Node::Extern { id, src: token(&c[2..]), docs: list(lists, &c[5..]), name: token(&c[7..]), fns: list(lists, &c[10..]) },
            13 => Node::Record { id, src: token(&c[2..]), fields: list(lists, &c[5..]) },
            14 => Node::Array { id, src: token(&c[2..]), members: list(lists, &c[5..]) },
            tag => unreachable!("a reading writes no node of tag {tag}"),
        }
    }
}

impl<'t> Type<'t> {
    /// From a record of 8 cells.
    pub(crate) fn decode(lists: &'t [u32], c: &[u32]) -> Type<'t> {
        match c[0] {
            1 => Type::Atom(token(&c[1..])),
            2 => Type::Foreign(token(&c[1..])),
            3 => Type::Option(TypeId(c[1])),
            4 => Type::Array(TypeId(c[1])),
            5 => Type::Record { src: token(&c[1..]), fields: list(lists, &c[4..]) },
            tag => unreachable!("a reading writes no type of tag {tag}"),
        }
    }
}
