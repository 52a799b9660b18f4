//! The shape of a tree, by the words of document 01: nodes and types downward from the roots by their kinds, token kinds and spellings, docs
//! and lists. Positions, node numbers, value numbers and a case's own token are left out.

use crate::ast::{Ast, Node, NodeId, TypeExpr, TypeExprId};
use crate::lex::Token;

/// Two trees have the same shape if these are the same bytes.
pub fn shape(tree: &Ast<'_, '_>) -> Vec<u8> {
    let mut shape = Shape { tree, out: Vec::new() };
    shape.nodes(tree.roots);
    shape.out
}

struct Shape<'a> {
    tree: &'a Ast<'a, 'a>,
    out: Vec<u8>,
}

impl Shape<'_> {
    fn kind(&mut self, name: &str) {
        self.out.extend(name.bytes());
        self.out.push(b':');
    }

    /// How many follow, so that no two lists are written alike.
    fn count(&mut self, n: usize) {
        self.out.extend(n.to_string().bytes());
        self.out.push(b'[');
    }

    fn token(&mut self, t: &Token<'_>) {
        let name = format!("{:?}", t.t);
        self.kind(name.split('(').next().expect("a name"));
        let spelling = t.t.as_str();
        self.count(spelling.len());
        self.out.extend(spelling.bytes());
    }

    fn tokens(&mut self, list: &[Token<'_>]) {
        self.count(list.len());
        list.iter().for_each(|t| self.token(t));
    }

    fn nodes(&mut self, list: &[NodeId]) {
        self.count(list.len());
        list.iter().for_each(|id| self.node(*id));
    }

    fn typed(&mut self, list: &[(Token<'_>, TypeExprId)]) {
        self.count(list.len());
        for (name, ty) in list {
            self.token(name);
            self.ty(*ty);
        }
    }

    fn ty(&mut self, id: TypeExprId) {
        match &self.tree.types[id.0] {
            TypeExpr::Atom(t) => {
                self.kind("atom");
                self.token(t);
            }
            TypeExpr::Foreign(t) => {
                self.kind("foreign");
                self.token(t);
            }
            TypeExpr::Option(inner) => {
                self.kind("option");
                self.ty(*inner);
            }
            TypeExpr::Array(inner) => {
                self.kind("array");
                self.ty(*inner);
            }
            TypeExpr::Record { src, fields } => {
                self.kind("record");
                self.token(src);
                self.typed(fields);
            }
        }
    }

    fn node(&mut self, id: NodeId) {
        match &self.tree.nodes[id.0] {
            Node::Atom { raw, .. } => {
                self.kind("atom");
                self.token(raw);
            }
            Node::Ident { name, .. } => {
                self.kind("ident");
                self.token(name);
            }
            Node::Bin { op, lhs, rhs, .. } => {
                self.kind("bin");
                self.token(op);
                self.node(*lhs);
                self.node(*rhs);
            }
            Node::Unary { op, rhs, .. } => {
                self.kind("unary");
                self.token(op);
                self.node(*rhs);
            }
            Node::Let { docs, name, rhs, .. } => {
                self.kind("let");
                self.tokens(docs);
                self.token(name);
                self.node(*rhs);
            }
            Node::Fn { docs, name, args, return_type, body, .. } => {
                self.kind("fn");
                self.tokens(docs);
                self.token(name);
                self.typed(args);
                self.ty(*return_type);
                self.nodes(body);
            }
            Node::Match { cases, default, .. } => {
                self.kind("match");
                self.count(cases.len());
                for ((_, condition), body) in *cases {
                    self.node(*condition);
                    self.nodes(body);
                }
                self.token(&default.0);
                self.nodes(default.1);
            }
            Node::Call { target, args, .. } => {
                self.kind("call");
                self.node(*target);
                self.nodes(args);
            }
            Node::Field { target, name, .. } => {
                self.kind("field");
                self.node(*target);
                self.token(name);
            }
            Node::Cast { src, lhs, rhs, .. } => {
                self.kind("cast");
                self.token(src);
                self.node(*lhs);
                self.ty(*rhs);
            }
            Node::Import { src, pkgs, .. } => {
                self.kind("import");
                self.token(src);
                self.tokens(pkgs);
            }
            Node::Extern { src, docs, name, fns, .. } => {
                self.kind("extern");
                self.token(src);
                self.tokens(docs);
                self.token(name);
                self.count(fns.len());
                for f in *fns {
                    self.tokens(f.docs);
                    self.token(&f.name);
                    self.typed(f.args);
                    self.ty(f.return_type);
                }
            }
            Node::Record { src, fields, .. } => {
                self.kind("record");
                self.token(src);
                self.count(fields.len());
                for (name, value) in *fields {
                    self.token(name);
                    self.node(*value);
                }
            }
            Node::Array { src, members, .. } => {
                self.kind("array");
                self.token(src);
                self.nodes(members);
            }
        }
    }
}
