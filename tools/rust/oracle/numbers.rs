//! The Rust's errors as the five numbers of document 01.
use crate::diagnostic::{Diagnostic, Span};
use crate::lex::{Lexer, Token, Type};
use std::cell::OnceCell;
use std::collections::HashMap;

/// The error numbers of document 01 by what the Rust's messages begin with.
const MESSAGES: [(&str, usize); 17] = [
    ("Expected `", 11),
    ("Expected an identifier, got ", 12),
    ("documentation is not attached to anything", 13),
    ("documentation can only be attached to ", 14),
    ("Only strings are allowed as import paths", 15),
    ("Expected a string package name after ", 16),
    ("nested extern declarations ", 17),
    ("A match statement requires a default branch", 18),
    ("Expected expression, got ", 19),
    ("Expected a foreign type name after ", 20),
    ("Expected a type after `Option<`", 21),
    ("Expected a type after `Array<`", 22),
    ("Bad type, expected one of", 23),
    ("Unterminated string", 31),
    ("Invalid utf8 input", 32),
    ("Unknown character `", 33),
    ("Invalid numeric literal", 34),
];

/// Every kind that `expect` is called with.
const WANTED: [Type<'static>; 12] = [
    Type::BraceLeft,
    Type::BraceRight,
    Type::Equal,
    Type::LessThan,
    Type::GreaterThan,
    Type::Colon,
    Type::BraketRight,
    Type::CurlyLeft,
    Type::CurlyRight,
    Type::Extern,
    Type::Let,
    Type::Fn,
];

/// Kinds count in the order of `Type`, from 1.
pub fn kind_number(t: &Type<'_>) -> usize {
    std::intrinsics::discriminant_value(t) as usize + 1
}

fn wanted_kind(message: &str) -> usize {
    let name = message.split('`').nth(1).unwrap_or("");
    match WANTED.iter().find(|t| format!("{t:?}") == name) {
        Some(t) => kind_number(t),
        None => panic!("unknown wanted kind in: {message}"),
    }
}

/// A script, and the kinds of its tokens by their spans, made when first asked for.
pub struct Script<'src> {
    bytes: &'src [u8],
    kinds: OnceCell<HashMap<(usize, usize), usize>>,
}

impl<'src> Script<'src> {
    pub fn new(bytes: &'src [u8]) -> Self {
        Self { bytes, kinds: OnceCell::new() }
    }

    /// The kind of the token that an error names by its span.
    fn seen_kind(&self, span: Span) -> usize {
        let kinds = self.kinds.get_or_init(|| {
            let mut kinds = HashMap::new();
            for t in tokens_of(self.bytes) {
                let span = Span::from_token(&t);
                if kinds.insert((span.start, span.len), kind_number(&t.t)).is_some() {
                    panic!("two tokens have the span {span:?}");
                }
            }
            kinds
        });
        match kinds.get(&(span.start, span.len)) {
            Some(&kind) => kind,
            None => panic!("no token has the span {span:?}"),
        }
    }
}

/// number, span start, span length, wanted kind, seen kind
pub fn error_numbers(script: &Script<'_>, error: &Diagnostic) -> [usize; 5] {
    let Some(&(_, number)) = MESSAGES.iter().find(|(begin, _)| error.message.starts_with(begin)) else {
        panic!("unknown message: {}", error.message);
    };
    let span = error.primary.span;
    let wanted = if number == 11 { wanted_kind(&error.message) } else { 0 };
    let seen = match number {
        33 => script.bytes[span.start] as usize,
        31..=34 => 0,
        _ => script.seen_kind(span),
    };
    [number, span.start, span.len, wanted, seen]
}

pub fn tokens_of(script: &[u8]) -> Vec<Token<'_>> {
    let mut lexer = Lexer::new(script);
    let mut tokens = Vec::new();
    loop {
        let token = lexer.one();
        let last = token.t == Type::Eof;
        tokens.push(token);
        if last {
            return tokens;
        }
    }
}
