//! The oracle: reads scripts with the unchanged Rust and prints its answers in the forms of document 01.
//!
//! oracle [--limit] MODE          one script on standard input
//! oracle [--limit] batch MODE    a framed list: for each script its length in decimal, LF, its bytes, LF
//!
//! MODE is one of these, or several with commas between them; then the line `(MODE)` stands before the answer of each.
//!
//! strict, collect   the listing; an error of strict mode or a refusal is its only line
//! tokens            what the lexer yields in order, tokens and faults
//! starts            of each node its start, of each type its token
//! struck            what striking leaves of the tokens, then `(plain A B)`: A is 1 if no Doc stands right before an
//!                   Import, else 0; B counts the blocks that follow a default of the same match
//!
//! starts and struck print nothing where strict mode does not accept. With --limit a script of over 960 bytes prints
//! `(long)`. What the oracle does not expect ends it with a message and status 1.
#![feature(allocator_api, portable_simd, core_intrinsics)]
#![allow(internal_features)]

include!(env!("RUST_MODULES")); // written by rust.py: lex, diagnostic, ast, parser, counted, notes

mod numbers;

use crate::ast::{Ast, Node, NodeId, TypeExpr, TypeExprId};
use crate::diagnostic::{Diagnostic, Span};
use crate::lex::{Lexer, Token, Type};
use crate::notes::Notes;
use crate::numbers::{Script, error_numbers, tokens_of};
use purple_garden_allocators::bump::Bump;
use std::alloc::Global;
use std::collections::HashSet;
use std::fmt::Write as _;
use std::io::{Read, Write as _};
use std::sync::atomic::{AtomicUsize, Ordering};

const LONGEST_LISTED: usize = 960;
/// `node_start` goes down a whole chain of operators.
const STACK: usize = 512 << 20;

/// The script being read, for messages.
static CURRENT: AtomicUsize = AtomicUsize::new(0);

fn die(message: &str) -> ! {
    eprintln!("oracle: script {}: {message}", CURRENT.load(Ordering::Relaxed));
    std::process::exit(1)
}

// ---- reading

enum Reading<'src, 'ast> {
    Read(Ast<'src, 'ast>, Vec<Diagnostic>),
    Error(Diagnostic),
    Refused(Span),
}

fn agree<T: PartialEq + std::fmt::Debug>(counted: &T, unchanged: &T) {
    if counted != unchanged {
        die(&format!("the copies differ:\ncounted   {counted:?}\nunchanged {unchanged:?}"));
    }
}

// The counted copy reads first: where it says 10, the unchanged one might go too deep for any stack.
fn read_strict<'src, 'ast>(script: &'src [u8], arena: &'ast Bump) -> (Reading<'src, 'ast>, Notes) {
    let counted = counted::Parser::new(Lexer::new(script), arena, &Global).parse();
    let notes = notes::take();
    if let Some(span) = notes.refused {
        return (Reading::Refused(span), notes);
    }
    let unchanged = parser::Parser::new(Lexer::new(script), arena, &Global).parse();
    agree(&counted, &unchanged);
    let reading = match unchanged {
        Ok(ast) => Reading::Read(ast, Vec::new()),
        Err(error) => Reading::Error(error),
    };
    (reading, notes)
}

fn read_collect<'src, 'ast>(script: &'src [u8], arena: &'ast Bump) -> Reading<'src, 'ast> {
    let counted = counted::Parser::new(Lexer::new(script), arena, &Global).parse_collect();
    if let Some(span) = notes::take().refused {
        return Reading::Refused(span);
    }
    let unchanged = parser::Parser::new(Lexer::new(script), arena, &Global).parse_collect();
    agree(&counted.ast, &unchanged.ast);
    agree(&counted.diagnostics, &unchanged.diagnostics);
    match unchanged.ast {
        Some(ast) => Reading::Read(ast, unchanged.diagnostics),
        None => die("collecting mode gave no tree"),
    }
}

// ---- the forms of the listing

fn kind_name(t: &Type<'_>) -> String {
    let name = format!("{t:?}");
    name.split('(').next().unwrap_or("").to_string()
}

fn token(t: &Token<'_>) -> String {
    format!("({} {} {})", kind_name(&t.t), t.start, t.t.as_str().len())
}

fn list<T>(items: &[T], form: impl Fn(&T) -> String) -> String {
    let forms: Vec<String> = items.iter().map(form).collect();
    format!("({})", forms.join(" "))
}

fn tokens(items: &[Token<'_>]) -> String {
    list(items, token)
}

fn ids(items: &[NodeId]) -> String {
    list(items, |id| id.0.to_string())
}

fn typed(items: &[(Token<'_>, TypeExprId)]) -> String {
    list(items, |(name, ty)| format!("({} {})", token(name), ty.0))
}

fn node(node: &Node<'_, '_>) -> String {
    match node {
        Node::Atom { id, raw } => format!("(Atom {id} {})", token(raw)),
        Node::Ident { id, name } => format!("(Ident {id} {})", token(name)),
        Node::Bin { id, op, lhs, rhs } => format!("(Bin {id} {} {} {})", token(op), lhs.0, rhs.0),
        Node::Unary { id, op, rhs } => format!("(Unary {id} {} {})", token(op), rhs.0),
        Node::Let { id, docs, name, rhs } => {
            format!("(Let {id} {} {} {})", tokens(docs), token(name), rhs.0)
        }
        Node::Fn { id, docs, name, args, return_type, body } => format!(
            "(Fn {id} {} {} {} {} {})",
            tokens(docs),
            token(name),
            typed(args),
            return_type.0,
            ids(body)
        ),
        Node::Match { id, cases, default } => format!(
            "(Match {id} {} ({} {}))",
            list(cases, |((t, condition), body)| format!("(({} {}) {})", token(t), condition.0, ids(body))),
            token(&default.0),
            ids(default.1)
        ),
        Node::Call { id, target, args } => format!("(Call {id} {} {})", target.0, ids(args)),
        Node::Field { id, target, name } => format!("(Field {id} {} {})", target.0, token(name)),
        Node::Cast { id, src, lhs, rhs } => format!("(Cast {id} {} {} {})", token(src), lhs.0, rhs.0),
        Node::Import { id, src, pkgs } => format!("(Import {id} {} {})", token(src), tokens(pkgs)),
        Node::Extern { id, src, docs, name, fns } => format!(
            "(Extern {id} {} {} {} {})",
            token(src),
            tokens(docs),
            token(name),
            list(fns, |f| format!(
                "({} {} {} {})",
                tokens(f.docs),
                token(&f.name),
                typed(f.args),
                f.return_type.0
            ))
        ),
        Node::Record { id, src, fields } => format!(
            "(Record {id} {} {})",
            token(src),
            list(fields, |(name, value)| format!("({} {})", token(name), value.0))
        ),
        Node::Array { id, src, members } => format!("(Array {id} {} {})", token(src), ids(members)),
    }
}

fn type_expr(ty: &TypeExpr<'_, '_>) -> String {
    match ty {
        TypeExpr::Atom(t) => format!("(Atom {})", token(t)),
        TypeExpr::Foreign(t) => format!("(Foreign {})", token(t)),
        TypeExpr::Option(inner) => format!("(Option {})", inner.0),
        TypeExpr::Array(inner) => format!("(Array {})", inner.0),
        TypeExpr::Record { src, fields } => format!("(Record {} {})", token(src), typed(fields)),
    }
}

fn numbers(script: &Script<'_>, error: &Diagnostic) -> String {
    error_numbers(script, error).map(|n| n.to_string()).join(" ")
}

fn listing(bytes: &[u8], reading: &Reading<'_, '_>) -> String {
    let script = &Script::new(bytes);
    let mut out = String::new();
    match reading {
        Reading::Read(ast, errors) => {
            let (nodes, types) = (ast.nodes.len(), ast.types.len());
            let _ = writeln!(out, "(tree (nodes {nodes}) (types {types}) (values {}))", ast.values);
            for (i, n) in ast.nodes.iter().enumerate() {
                let _ = writeln!(out, "(node {i} {})", node(n));
            }
            for (i, t) in ast.types.iter().enumerate() {
                let _ = writeln!(out, "(type {i} {})", type_expr(t));
            }
            out.push_str("(roots");
            for root in ast.roots {
                let _ = write!(out, " {}", root.0);
            }
            out.push_str(")\n");
            for error in errors {
                let _ = writeln!(out, "(diag {})", numbers(script, error));
            }
        }
        Reading::Error(error) => {
            let _ = writeln!(out, "(error {})", numbers(script, error));
        }
        Reading::Refused(span) => {
            let _ = writeln!(out, "(refused 10 {} {})", span.start, span.len);
        }
    }
    out
}

// ---- the other modes

fn lexed(bytes: &[u8]) -> String {
    let script = &Script::new(bytes);
    let mut out = String::new();
    let mut lexer = Lexer::new(bytes);
    loop {
        let t = lexer.one();
        for fault in std::mem::take(&mut lexer.diagnostics) {
            let _ = writeln!(out, "(diag {})", numbers(script, &fault));
        }
        let _ = writeln!(out, "{}", token(&t));
        if t.t == Type::Eof {
            return out;
        }
    }
}

fn starts(ast: &Ast<'_, '_>) -> String {
    let mut out = String::new();
    for i in 0..ast.nodes.len() {
        let start = ast::start_of(ast, NodeId(i)).map_or("none".to_string(), |start| start.to_string());
        let _ = writeln!(out, "(start {i} {start})");
    }
    for i in 0..ast.types.len() {
        let _ = writeln!(out, "(typetoken {i} {})", token(ast.type_token(TypeExprId(i))));
    }
    out
}

fn struck(script: &[u8], notes: &Notes) -> String {
    let all = tokens_of(script);
    let struck: HashSet<usize> = notes.struck.iter().copied().collect();
    let mut out = String::new();
    for t in all.iter().filter(|t| !struck.contains(&t.start)) {
        let _ = write!(out, "({}", kind_name(&t.t));
        if let Type::S(_) | Type::D(_) | Type::I(_) | Type::Ident(_) | Type::Doc(_) = t.t {
            for byte in t.t.as_str().bytes() {
                let _ = write!(out, " {byte}");
            }
        }
        out.push_str(")\n");
    }
    let doc_then_import = all.windows(2).any(|w| matches!(w[0].t, Type::Doc(_)) && w[1].t == Type::Import);
    let _ = writeln!(out, "(plain {} {})", usize::from(!doc_then_import), notes.after_default);
    out
}

fn answer(mode: &str, limit: bool, script: &[u8]) -> String {
    if limit && script.len() > LONGEST_LISTED {
        return "(long)\n".to_string();
    }
    let arena = Bump::default();
    match mode {
        "tokens" => lexed(script),
        "collect" => listing(script, &read_collect(script, &arena)),
        _ => {
            let (reading, notes) = read_strict(script, &arena);
            match (mode, &reading) {
                ("strict", _) => listing(script, &reading),
                ("starts", Reading::Read(ast, _)) => starts(ast),
                ("struck", Reading::Read(..)) => struck(script, &notes),
                _ => String::new(),
            }
        }
    }
}

fn answers(modes: &[String], limit: bool, script: &[u8]) -> String {
    match modes {
        [mode] => answer(mode, limit, script),
        _ => modes.iter().map(|mode| format!("({mode})\n{}", answer(mode, limit, script))).collect(),
    }
}

fn run(modes: &[String], batch: bool, limit: bool) -> std::io::Result<()> {
    let mut input = Vec::new();
    std::io::stdin().read_to_end(&mut input)?;
    let mut out = std::io::BufWriter::new(std::io::stdout());
    if !batch {
        out.write_all(answers(modes, limit, &input).as_bytes())?;
        return out.flush();
    }
    let mut rest = &input[..];
    while !rest.is_empty() {
        let i = CURRENT.load(Ordering::Relaxed);
        let script = next_script(&mut rest).unwrap_or_else(|| die("the list is not framed"));
        write!(out, "(script {i})\n{}", answers(modes, limit, script))?;
        CURRENT.store(i + 1, Ordering::Relaxed);
    }
    out.flush()
}

fn next_script<'a>(rest: &mut &'a [u8]) -> Option<&'a [u8]> {
    let digits = rest.iter().position(|&b| b == b'\n')?;
    let length: usize = std::str::from_utf8(&rest[..digits]).ok()?.parse().ok()?;
    let (script, behind) = rest[digits + 1..].split_at_checked(length)?;
    *rest = behind.strip_prefix(b"\n")?;
    Some(script)
}

fn main() {
    let mut words: Vec<String> = std::env::args().skip(1).collect();
    let limit = words.iter().any(|w| w == "--limit");
    words.retain(|w| w != "--limit");
    let batch = words.first().is_some_and(|w| w == "batch");
    let rest = &words[usize::from(batch)..];
    let [mode] = rest else { usage() };
    let modes: Vec<String> = mode.split(',').map(str::to_string).collect();
    if modes.iter().any(|mode| !["strict", "collect", "tokens", "starts", "struck"].contains(&mode.as_str())) {
        usage()
    }
    let reader = std::thread::Builder::new().stack_size(STACK).spawn(move || run(&modes, batch, limit));
    match reader.expect("a thread").join() {
        Ok(Ok(())) => {}
        Ok(Err(error)) => die(&error.to_string()),
        Err(_) => die("the reader panicked"),
    }
}

fn usage() -> ! {
    eprintln!("usage: oracle [--limit] [batch] MODE[,MODE..], each strict, collect, tokens, starts or struck");
    std::process::exit(2)
}
