//! Times strict reading by the library (libc_api.a) beside the unchanged Rust, on the same scripts.
//!
//! bench [--table]                          a Markdown table
//! bench --cut                              a Markdown table of cutting, beside the Rust's lexer alone
//! bench --once INPUT BYTES COUNT READER    READER (rust, library or clear) reads one input COUNT times
#![feature(allocator_api, portable_simd)]

include!(env!("BENCH_MODULES")); // written by the script beside this file: diagnostic, lex, ast, parser

#[path = "../bindings/rust/src/c.rs"]
mod c;

use crate::c::Mode;
use crate::lex::{Lexer, Type};
use purple_garden_allocators::bump::Bump;
use std::hint::black_box;
use std::time::Instant;

/// The five arrays and the two tables, each of its least length for the script.
struct Arrays {
    arrays: [Vec<u32>; 5],
    tables: [Vec<u32>; 2],
}

impl Arrays {
    fn new(script: &[u8]) -> Self {
        Arrays {
            arrays: c::CELLS.map(|cells| vec![0; cells * script.len()]),
            tables: c::table_lengths(script.len()).map(|cells| vec![0; cells]),
        }
    }

    /// What the reading answers: its number, and how many nodes it made.
    fn read(&mut self, script: &[u8]) -> (u32, u32) {
        let mut numbers = [0; 12];
        let arrays = self.arrays.each_mut().map(Vec::as_mut_slice);
        let tables = self.tables.each_mut().map(Vec::as_mut_slice);
        let number = c::parse(Mode::Strict, script, tables, arrays, &mut numbers);
        (number, numbers[6])
    }

    fn clear(&mut self) {
        for array in self.arrays.iter_mut().chain(&mut self.tables) {
            array.fill(0);
            black_box(array.as_mut_ptr());
        }
    }
}

/// The Rust parser with its two arenas.
struct Rust {
    arena: Bump,
    scratch: Bump,
}

impl Rust {
    /// Whether the script is accepted, and how many nodes were made.
    fn read(&mut self, script: &[u8]) -> (bool, usize) {
        let answer = match parser::Parser::new(Lexer::new(script), &self.arena, &self.scratch).parse() {
            Ok(ast) => (true, black_box(&ast).nodes.len()),
            Err(error) => (false, black_box(&error).message.len() * 0),
        };
        self.arena.reset();
        self.scratch.reset();
        answer
    }
}

// ---- inputs

/// As many whole blocks as fit.
fn repeated(bytes: usize, block: &[u8]) -> Vec<u8> {
    let mut script = Vec::new();
    while script.len() + block.len() <= bytes {
        script.extend_from_slice(block);
    }
    script
}

fn nest(depth: usize, open: &str, inside: &str, close: &str) -> String {
    format!("{}{inside}{}\n", open.repeat(depth), close.repeat(depth))
}

/// Every input: its name, and the script of at most so many bytes.
fn inputs(bytes: usize) -> Vec<(&'static str, Vec<u8>)> {
    let r = |block: &str| repeated(bytes, block.as_bytes());
    let mut broken = repeated(bytes - 1, b"a ");
    broken.push(b')');
    let mut broken_at_once = vec![b')'];
    broken_at_once.extend(repeated(bytes - 1, b"a "));
    vec![
        ("course script", repeated(bytes, include_bytes!(env!("BENCH_COURSE")))),
        ("expressions", r("a + b * 3 - (c / d % 2) == e < f * -1\n")),
        ("chain of operators", r("a+")[..].iter().copied().chain(*b"a").take(bytes).collect()),
        ("chain of casts", repeated(bytes - 1, b" as Int").iter().fold(vec![b'a'], |mut s, b| { s.push(*b); s })),
        ("names", r("a b c d e f g h ")),
        ("names of 60 bytes", r("a_name_that_goes_on_and_on_until_it_has_sixty_bytes_in_all__ ")),
        ("names like keywords", r("imports externs lets matches Foreigns Records ")),
        ("keywords", r("true false ")),
        ("integers", r("1 22 333 4444 ")),
        ("numbers of 40 digits", r("1234567890123456789012345678901234567890 ")),
        ("doubles", r("1.5 22.25 3. ")),
        ("lets", r("let x = 1\n")),
        ("functions", r("fn f(a: Int b: Str) Int { a + 1 }\n")),
        ("calls and fields", r("io.out.print(a b.c f(x) 1)\n")),
        ("arrays", r("[1 2 3 [4 5] []]\n")),
        ("one long array", { let mut s = vec![b'[']; s.extend(repeated(bytes - 2, b"1 ")); s.push(b']'); s }),
        ("records", r("{at: 1 x: 2 y: 3}\n")),
        ("matches", r("match { a == 1 { b } c { d } { e } }\n")),
        ("brackets, 100 deep", r(&nest(100, "(", "a", ")"))),
        ("arrays, 100 deep", r(&nest(100, "[", "a", "]"))),
        ("bodies, 100 deep", r(&nest(100, "fn f(){", "", "}"))),
        ("calls, 60 deep", r(&nest(60, "f(", "", ")"))),
        ("signs, 100 deep", r(&nest(100, "-", "a", ""))),
        ("types", r("a as Record<x: Int y: Option<Array<Str>> z: Foreign<T>>\n")),
        ("types, 100 deep", r(&format!("a as {}", nest(100, "Option<", "Int", ">")))),
        ("externs", r("extern \"p\" {\n#! d\nfn open(a: Int b: Str) Bool\nfn close() }\n")),
        ("imports", r("import (\"a\" \"b\" \"c\") import \"d\"\n")),
        ("docs", r("#! A line of documentation about the next thing.\n#! And another.\nlet a = 1\n")),
        ("strings of 3 bytes", r("\"abc\" ")),
        ("strings of 200 bytes", r(&format!("\"{}\"\n", "abcdefghij".repeat(20)))),
        ("strings of two-byte characters", r(&format!("\"{}\"\n", "é".repeat(100)))),
        ("remarks", r("# a remark that says nothing at all about anything\na\n")),
        ("blanks", r(&format!("a{}\n", " ".repeat(98)))),
        ("unknown characters", r("$ ")),
        ("bad numbers", r("1.2.3 ")),
        ("docs of bad UTF-8", repeated(bytes, b"#! a line that is not \xff UTF-8\n")),
        ("error in the last byte", broken),
        ("error in the first byte", broken_at_once),
    ]
}

fn tokens(script: &[u8]) -> usize {
    let mut lexer = Lexer::new(script);
    (1..).find(|_| lexer.one().t == Type::Eof).expect("an end")
}

// ---- timing

/// Nanoseconds a call, over `count` calls.
fn time(count: usize, mut call: impl FnMut()) -> f64 {
    let start = Instant::now();
    for _ in 0..count {
        call();
    }
    start.elapsed().as_nanos() as f64 / count as f64
}

const ROUNDS: usize = 12;
/// What one measurement should take.
const NANOSECONDS: f64 = 3e6;

fn table() {
    println!("| input | bytes | tokens | Rust, ns/byte | library, ns/byte | clearing, ns/byte | library / Rust | without clearing |");
    println!("|---|---|---|---|---|---|---|---|");
    let mut rust = Rust { arena: Bump::new(1 << 26), scratch: Bump::new(1 << 26) };
    for bytes in [1 << 10, 1 << 12, 1 << 14, 1 << 16] {
        for (name, script) in inputs(bytes) {
            let mut arrays = Arrays::new(&script);
            let (accepted, nodes) = rust.read(&script);
            let (number, made) = arrays.read(&script);
            assert_eq!((accepted, nodes), (number == 0, made as usize), "{name}: the two differ");
            let count = (NANOSECONDS / time(1, || { black_box(arrays.read(black_box(&script))); })).ceil() as usize;
            let [mut by_rust, mut by_library, mut clearing] = [f64::MAX; 3];
            for _ in 0..ROUNDS {
                by_rust = by_rust.min(time(count, || { black_box(rust.read(black_box(&script))); }));
                by_library = by_library.min(time(count, || { black_box(arrays.read(black_box(&script))); }));
                clearing = clearing.min(time(count, || arrays.clear()));
            }
            let n = script.len() as f64;
            println!(
                "| {name} | {} | {} | {:.2} | {:.2} | {:.2} | {:.2} | {:.2} |",
                script.len(),
                tokens(&script),
                by_rust / n,
                by_library / n,
                clearing / n,
                by_library / by_rust,
                (by_library - clearing) / by_rust
            );
        }
    }
}

/// Cutting and the test for it beside the Rust's lexer, which keeps none of its tokens.
fn cut_table() {
    println!("| input | bytes | tokens | Rust's lexer, ns/byte | cut | clearing | is_cut | cut without clearing / Rust | is_cut / Rust |");
    println!("|---|---|---|---|---|---|---|---|---|");
    for bytes in [1 << 10, 1 << 16] {
        for (name, script) in inputs(bytes) {
            let [mut table, mut errors] = c::table_lengths(script.len()).map(|cells| vec![0; cells]);
            let mut counts = [0; 2];
            let made = tokens(&script);
            assert_eq!((c::cut(&script, &mut table, &mut errors, &mut counts), counts[0] as usize), (0, made), "{name}: the two differ");
            let count = (NANOSECONDS / time(1, || { black_box(c::cut(black_box(&script), &mut table, &mut errors, &mut counts)); })).ceil() as usize;
            let [mut by_rust, mut cutting, mut clearing, mut testing] = [f64::MAX; 4];
            for _ in 0..ROUNDS {
                by_rust = by_rust.min(time(count, || { black_box(tokens(black_box(&script))); }));
                clearing = clearing.min(time(count, || {
                    table.fill(0);
                    errors.fill(0);
                    black_box((table.as_mut_ptr(), errors.as_mut_ptr()));
                }));
                cutting = cutting.min(time(count, || { black_box(c::cut(black_box(&script), &mut table, &mut errors, &mut counts)); }));
                testing = testing.min(time(count, || { black_box(c::is_cut(black_box(&script), &table, &errors)); }));
            }
            let n = script.len() as f64;
            println!(
                "| {name} | {} | {made} | {:.2} | {:.2} | {:.2} | {:.2} | {:.2} | {:.2} |",
                script.len(), by_rust / n, cutting / n, clearing / n, testing / n, (cutting - clearing) / by_rust, testing / by_rust
            );
        }
    }
}

fn once(name: &str, bytes: usize, count: usize, reader: &str) {
    let (_, script) = inputs(bytes).into_iter().find(|(n, _)| *n == name).expect("the name of an input");
    let mut rust = Rust { arena: Bump::new(1 << 26), scratch: Bump::new(1 << 26) };
    let mut arrays = Arrays::new(&script);
    for _ in 0..count {
        match reader {
            "rust" => { black_box(rust.read(black_box(&script))); }
            "library" => { black_box(arrays.read(black_box(&script))); }
            "clear" => arrays.clear(),
            _ => usage(),
        }
    }
}

fn main() {
    let words: Vec<String> = std::env::args().skip(1).collect();
    match words.iter().map(String::as_str).collect::<Vec<_>>()[..] {
        [] | ["--table"] => table(),
        ["--cut"] => cut_table(),
        ["--once", name, bytes, count, reader] => once(name, bytes.parse().expect("a number"), count.parse().expect("a number"), reader),
        _ => usage(),
    }
}

fn usage() -> ! {
    eprintln!("usage: bench [--table | --cut | --once INPUT BYTES COUNT rust|library|clear]");
    std::process::exit(2)
}
