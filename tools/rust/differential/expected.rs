//! What the unchanged Rust reads, laid out in numbers as docs/LAYOUT.md says.

use crate::ast::{Ast, ExternFn, Node, NodeId, TypeExpr, TypeExprId};
use crate::diagnostic::{Diagnostic, Span};
use crate::lex::{Lexer, Token};
use crate::numbers::{Script, error_numbers, kind_number};
use crate::{counted, notes, parser};
use purple_garden_allocators::bump::{Arena, Bump};
use std::alloc::{AllocError, Allocator, Layout};
use std::any::type_name;
use std::cell::RefCell;
use std::ptr::NonNull;

/// A list that the parser finished: the type of its members, where it lies, how many it has.
struct Finished {
    members: &'static str,
    at: *const u8,
    len: usize,
}

/// An arena that notes each finished list, also those that no node names in the end. An empty list gets a place of its own.
pub struct Noting {
    bump: Bump,
    finished: RefCell<Vec<Finished>>,
}

impl Noting {
    fn new(bytes: usize) -> Self {
        Noting { bump: Bump::new(bytes), finished: RefCell::default() }
    }

    fn reset(&mut self) {
        self.bump.reset();
        self.finished.get_mut().clear();
    }
}

// SAFETY: the arena within does the work.
unsafe impl Allocator for Noting {
    fn allocate(&self, layout: Layout) -> Result<NonNull<[u8]>, AllocError> {
        self.bump.allocate(layout)
    }

    unsafe fn deallocate(&self, part: NonNull<u8>, layout: Layout) {
        unsafe { self.bump.deallocate(part, layout) }
    }

    unsafe fn grow(&self, part: NonNull<u8>, old: Layout, new: Layout) -> Result<NonNull<[u8]>, AllocError> {
        unsafe { self.bump.grow(part, old, new) }
    }
}

impl Arena for Noting {
    fn alloc_slice<T>(&self, items: impl IntoIterator<Item = T>) -> &[T] {
        let mut list = self.bump.alloc_slice(items);
        if list.is_empty() {
            let place = self.bump.allocate(Layout::new::<[T; 1]>()).expect("room");
            // SAFETY: the place is not null and fit for a T; no member is read.
            list = unsafe { std::slice::from_raw_parts(place.cast().as_ptr(), 0) };
        }
        self.finished.borrow_mut().push(Finished { members: type_name::<T>(), at: list.as_ptr().cast(), len: list.len() });
        list
    }
}

/// A number, the five numbers of an error, six counts, and the used part of each array.
#[derive(Default)]
pub struct Expected {
    pub numbers: [u32; 12],
    pub arrays: [Vec<u32>; 5],
}

/// The Rust parser, with what it reads into.
pub struct Rust {
    arena: Noting,
    scratch: Bump,
}

/// How a script was read: a tree and what was gathered, or the error that ended the reading.
enum Reading<'src, 'ast> {
    Tree(Ast<'src, 'ast>, Vec<Diagnostic>),
    Ended([u32; 5]),
}

/// No script of fewer bytes stands at level 129: each level takes a byte, but for the first two.
const SHALLOW: usize = 120;

impl Rust {
    pub fn new() -> Self {
        Rust { arena: Noting::new(1 << 28), scratch: Bump::new(1 << 28) }
    }

    fn reset(&mut self) {
        self.arena.reset();
        self.scratch.reset();
    }

    fn refused(&mut self, script: &[u8], collecting: bool) -> Option<[u32; 5]> {
        if script.len() < SHALLOW {
            return None;
        }
        let parser = counted::Parser::new(Lexer::new(script), &self.arena, &self.scratch);
        if collecting {
            parser.parse_collect();
        } else {
            let _ = parser.parse();
        }
        let refused = notes::take().refused;
        self.reset();
        refused.map(|span| [10, span.start as u32, span.len as u32, 0, seen_kind(script, span)])
    }

    /// What is to be expected of strict mode, or of collecting mode; `look` is shown the tree, if there is one.
    pub fn read(&mut self, script: &[u8], collecting: bool, expected: &mut Expected, look: &mut dyn FnMut(&Ast<'_, '_>)) {
        expected.numbers = [0; 12];
        expected.arrays.iter_mut().for_each(Vec::clear);
        let refused = self.refused(script, collecting);
        let parser = || parser::Parser::new(Lexer::new(script), &self.arena, &self.scratch);
        let numbers = |e: &Diagnostic| error_numbers(&Script::new(script), e).map(|n| n as u32);
        let reading = match refused {
            Some(error) => Reading::Ended(error),
            None if collecting => {
                let output = parser().parse_collect();
                Reading::Tree(output.ast.expect("a tree"), output.diagnostics)
            }
            None => match parser().parse() {
                Ok(tree) => Reading::Tree(tree, Vec::new()),
                Err(error) => Reading::Ended(numbers(&error)),
            },
        };
        match reading {
            Reading::Ended(error) => {
                expected.numbers[0] = error[0];
                expected.numbers[1..6].copy_from_slice(&error);
            }
            Reading::Tree(tree, errors) => {
                look(&tree);
                let finished = self.arena.finished.borrow();
                // the last two are the roots and the types
                let lists = &finished[..finished.len() - 2];
                lay_out(&tree, lists, &mut expected.arrays);
                let script = Script::new(script);
                for e in &errors {
                    expected.arrays[4].extend(error_numbers(&script, e).map(|n| n as u32));
                }
                let cells = expected.arrays[2].len();
                expected.numbers[6..]
                    .copy_from_slice(&[tree.nodes.len(), tree.types.len(), cells, tree.roots.len(), tree.values, errors.len()].map(|n| n as u32));
            }
        }
        self.reset();
    }
}

/// The kind of the token that an error names by its span.
fn seen_kind(script: &[u8], span: Span) -> u32 {
    let tokens = crate::numbers::tokens_of(script);
    let token = tokens.iter().find(|t| Span::from_token(t) == span).expect("a token of that span");
    kind_number(&token.t) as u32
}

// ---- cells

fn put(out: &mut Vec<u32>, number: usize) {
    out.push(number as u32);
}

fn put_token(out: &mut Vec<u32>, t: &Token<'_>) {
    put(out, kind_number(&t.t));
    put(out, t.start);
    put(out, t.t.as_str().len());
}

/// The first cell of each finished list.
struct Places<'a> {
    lists: &'a [Finished],
    firsts: Vec<usize>,
}

impl Places<'_> {
    /// Lists lie in the arena in the order in which they were finished.
    fn put_run<T>(&self, out: &mut Vec<u32>, list: &[T]) {
        let at = list.as_ptr().cast();
        let i = self.lists.binary_search_by(|f| f.at.cmp(&at)).expect("a finished list");
        assert_eq!(self.lists[i].len, list.len());
        put(out, self.firsts[i]);
        put(out, list.len());
    }
}

fn width(members: &str) -> usize {
    match members {
        m if m == type_name::<Token<'_>>() => 3,
        m if m == type_name::<NodeId>() => 1,
        m if m == type_name::<(Token<'_>, TypeExprId)>() => 4,
        m if m == type_name::<(Token<'_>, NodeId)>() => 4,
        m if m == type_name::<((Token<'_>, NodeId), &[NodeId])>() => 6,
        m if m == type_name::<ExternFn<'_, '_>>() => 8,
        m => panic!("a list of {m}"),
    }
}

/// The members of a list, as what they are.
///
/// # Safety
/// The list was noted as one of T.
unsafe fn members<T>(f: &Finished) -> &[T] {
    // SAFETY: so it was handed out.
    unsafe { std::slice::from_raw_parts(f.at.cast(), f.len) }
}

fn put_list(out: &mut Vec<u32>, places: &Places<'_>, f: &Finished) {
    // SAFETY: each arm has the type that the list was noted with.
    unsafe {
        match f.members {
            m if m == type_name::<Token<'_>>() => members::<Token<'_>>(f).iter().for_each(|t| put_token(out, t)),
            m if m == type_name::<NodeId>() => members::<NodeId>(f).iter().for_each(|id| put(out, id.0)),
            m if m == type_name::<(Token<'_>, TypeExprId)>() => {
                for (name, ty) in members::<(Token<'_>, TypeExprId)>(f) {
                    put_token(out, name);
                    put(out, ty.0);
                }
            }
            m if m == type_name::<(Token<'_>, NodeId)>() => {
                for (name, value) in members::<(Token<'_>, NodeId)>(f) {
                    put_token(out, name);
                    put(out, value.0);
                }
            }
            m if m == type_name::<((Token<'_>, NodeId), &[NodeId])>() => {
                for ((token, condition), body) in members::<((Token<'_>, NodeId), &[NodeId])>(f) {
                    put_token(out, token);
                    put(out, condition.0);
                    places.put_run(out, body);
                }
            }
            _ => {
                for x in members::<ExternFn<'_, '_>>(f) {
                    places.put_run(out, x.docs);
                    put_token(out, &x.name);
                    places.put_run(out, x.args);
                    put(out, x.return_type.0);
                }
            }
        }
    }
}

fn put_node(out: &mut Vec<u32>, places: &Places<'_>, node: &Node<'_, '_>) {
    let begin = |out: &mut Vec<u32>, tag: usize, id: &usize| {
        put(out, tag);
        put(out, *id);
    };
    match node {
        Node::Atom { id, raw } => {
            begin(out, 1, id);
            put_token(out, raw);
        }
        Node::Ident { id, name } => {
            begin(out, 2, id);
            put_token(out, name);
        }
        Node::Bin { id, op, lhs, rhs } => {
            begin(out, 3, id);
            put_token(out, op);
            put(out, lhs.0);
            put(out, rhs.0);
        }
        Node::Unary { id, op, rhs } => {
            begin(out, 4, id);
            put_token(out, op);
            put(out, rhs.0);
        }
        Node::Let { id, docs, name, rhs } => {
            begin(out, 5, id);
            places.put_run(out, docs);
            put_token(out, name);
            put(out, rhs.0);
        }
        Node::Fn { id, docs, name, args, return_type, body } => {
            begin(out, 6, id);
            places.put_run(out, docs);
            put_token(out, name);
            places.put_run(out, args);
            put(out, return_type.0);
            places.put_run(out, body);
        }
        Node::Match { id, cases, default } => {
            begin(out, 7, id);
            places.put_run(out, cases);
            put_token(out, &default.0);
            places.put_run(out, default.1);
        }
        Node::Call { id, target, args } => {
            begin(out, 8, id);
            put(out, target.0);
            places.put_run(out, args);
        }
        Node::Field { id, target, name } => {
            begin(out, 9, id);
            put(out, target.0);
            put_token(out, name);
        }
        Node::Cast { id, src, lhs, rhs } => {
            begin(out, 10, id);
            put_token(out, src);
            put(out, lhs.0);
            put(out, rhs.0);
        }
        Node::Import { id, src, pkgs } => {
            begin(out, 11, id);
            put_token(out, src);
            places.put_run(out, pkgs);
        }
        Node::Extern { id, src, docs, name, fns } => {
            begin(out, 12, id);
            put_token(out, src);
            places.put_run(out, docs);
            put_token(out, name);
            places.put_run(out, fns);
        }
        Node::Record { id, src, fields } => {
            begin(out, 13, id);
            put_token(out, src);
            places.put_run(out, fields);
        }
        Node::Array { id, src, members } => {
            begin(out, 14, id);
            put_token(out, src);
            places.put_run(out, members);
        }
    }
}

fn put_type(out: &mut Vec<u32>, places: &Places<'_>, ty: &TypeExpr<'_, '_>) {
    match ty {
        TypeExpr::Atom(t) => {
            put(out, 1);
            put_token(out, t);
        }
        TypeExpr::Foreign(t) => {
            put(out, 2);
            put_token(out, t);
        }
        TypeExpr::Option(inner) => {
            put(out, 3);
            put(out, inner.0);
        }
        TypeExpr::Array(inner) => {
            put(out, 4);
            put(out, inner.0);
        }
        TypeExpr::Record { src, fields } => {
            put(out, 5);
            put_token(out, src);
            places.put_run(out, fields);
        }
    }
}

fn lay_out(tree: &Ast<'_, '_>, lists: &[Finished], arrays: &mut [Vec<u32>; 5]) {
    let mut firsts = Vec::with_capacity(lists.len());
    let mut cells = 0;
    for f in lists {
        firsts.push(cells);
        cells += f.len * width(f.members);
    }
    let places = Places { lists, firsts };
    for (i, node) in tree.nodes.iter().enumerate() {
        put_node(&mut arrays[0], &places, node);
        arrays[0].resize(16 * (i + 1), 0);
    }
    for (i, ty) in tree.types.iter().enumerate() {
        put_type(&mut arrays[1], &places, ty);
        arrays[1].resize(8 * (i + 1), 0);
    }
    for f in lists {
        put_list(&mut arrays[2], &places, f);
    }
    arrays[3].extend(tree.roots.iter().map(|id| id.0 as u32));
}
