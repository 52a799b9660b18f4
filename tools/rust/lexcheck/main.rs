//! Runs the proved lexer (libc_api.a) beside std::str::from_utf8 and the unchanged Rust lexer, and counts the differences.
//!
//! lexcheck [COUNT [SEED]]    COUNT random scripts, drawn by SEED
#![feature(portable_simd)]

// Stands in for the crate `purple_garden_runtime`, of which diagnostic.rs names two types that the lexer never uses.
extern crate self as purple_garden_runtime;

pub struct Anomaly;

impl Anomaly {
    pub fn as_str(&self) -> &'static str {
        ""
    }

    pub fn pc(&self) -> usize {
        0
    }
}

pub struct DebugInfo;

impl DebugInfo {
    pub fn span_at(&self, _pc: usize) -> u32 {
        0
    }
}

include!(env!("LEXCHECK_MODULES")); // written by the script beside this file: the modules diagnostic and lex

use lex::{Lexer, Token, Type};

#[path = "../../../bindings/rust/src/c.rs"]
mod c;

use c::is_utf8;

fn step(script: &[u8], pos: usize) -> [u64; 6] {
    let mut out = [u64::MAX; 6];
    assert!(c::step(script, pos, &mut out));
    out
}

fn spelling(script: &[u8], kind: u32, start: usize, len: usize) -> Option<u64> {
    let mut out = u64::MAX;
    if c::spelling(script, kind, start, len, &mut out) {
        return Some(out);
    }
    assert_eq!(out, u64::MAX);
    None
}

/// What one comparison ran on and where it differed.
struct Count {
    name: &'static str,
    cases: u64,
    seen: u64,
    differ: u64,
}

impl Count {
    fn new(name: &'static str) -> Self {
        Count { name, cases: 0, seen: 0, differ: 0 }
    }

    fn case(&mut self, same: bool, input: &dyn std::fmt::Debug) {
        self.cases += 1;
        if !same {
            self.differ += 1;
            if self.differ <= 3 {
                println!("{}: differs on {input:?}", self.name);
            }
        }
    }

    fn done(self) -> u64 {
        let seen = if self.seen > 0 { format!(", {} tokens and faults", self.seen) } else { String::new() };
        println!("{}: {} cases{seen}, {} differ", self.name, self.cases, self.differ);
        self.differ
    }
}

/// Every string of `n` bytes of `alphabet`.
fn strings(alphabet: &[u8], n: usize, f: &mut dyn FnMut(&[u8])) {
    let mut digits = vec![0; n];
    let mut s = vec![alphabet[0]; n];
    loop {
        f(&s);
        let mut i = 0;
        loop {
            if i == n {
                return;
            }
            digits[i] += 1;
            if digits[i] < alphabet.len() {
                s[i] = alphabet[digits[i]];
                break;
            }
            digits[i] = 0;
            s[i] = alphabet[0];
            i += 1;
        }
    }
}

fn every_byte() -> Vec<u8> {
    (0..=255).collect()
}

fn utf8() -> u64 {
    let same = |s: &[u8]| is_utf8(s) == std::str::from_utf8(s).is_ok();
    let mut short = Count::new("UTF-8, all strings up to 3 bytes");
    for n in 0..=3 {
        strings(&every_byte(), n, &mut |s| short.case(same(s), &s));
    }
    let mut bounds = Count::new("UTF-8, all strings of 4 boundary bytes");
    let edges = [
        0x00, 0x7f, 0x80, 0x8f, 0x90, 0x9f, 0xa0, 0xbf, 0xc0, 0xc1, 0xc2, 0xdf, 0xe0, 0xe1, 0xec, 0xed, 0xee, 0xef, 0xf0, 0xf1, 0xf3, 0xf4, 0xf5,
        0xff,
    ];
    strings(&edges, 4, &mut |s| bounds.case(same(s), &s));
    let mut scalars = Count::new("UTF-8, every scalar value");
    for c in '\0'..=char::MAX {
        let mut buffer = [0; 4];
        let s = c.encode_utf8(&mut buffer).as_bytes();
        scalars.case(is_utf8(s) && same(s), &s);
    }
    let mut surrogates = Count::new("UTF-8, every surrogate in three bytes");
    for c in 0xd800..=0xdfffu32 {
        let s = [0xe0 | (c >> 12) as u8, 0x80 | (c >> 6 & 0x3f) as u8, 0x80 | (c & 0x3f) as u8];
        surrogates.case(!is_utf8(&s) && same(&s), &s);
    }
    short.done() + bounds.done() + scalars.done() + surrogates.done()
}

/// The kind's number, in the order of the enum.
fn kind(t: &Type) -> u64 {
    match t {
        Type::Eof => 1,
        Type::BraceLeft => 2,
        Type::BraceRight => 3,
        Type::Plus => 4,
        Type::Minus => 5,
        Type::Asteriks => 6,
        Type::Slash => 7,
        Type::Percent => 8,
        Type::Equal => 9,
        Type::DoubleEqual => 10,
        Type::LessThan => 11,
        Type::GreaterThan => 12,
        Type::Exclaim => 13,
        Type::NotEqual => 14,
        Type::Question => 15,
        Type::Colon => 16,
        Type::Dot => 17,
        Type::BraketLeft => 18,
        Type::BraketRight => 19,
        Type::CurlyLeft => 20,
        Type::CurlyRight => 21,
        Type::S(_) => 22,
        Type::D(_) => 23,
        Type::I(_) => 24,
        Type::Ident(_) => 25,
        Type::Doc(_) => 26,
        Type::Import => 27,
        Type::Extern => 28,
        Type::Let => 29,
        Type::Fn => 30,
        Type::Match => 31,
        Type::As => 32,
        Type::True => 33,
        Type::False => 34,
        Type::Str => 35,
        Type::Int => 36,
        Type::Double => 37,
        Type::Bool => 38,
        Type::Void => 39,
        Type::Option => 40,
        Type::Array => 41,
        Type::Foreign => 42,
        Type::Record => 43,
    }
}

/// Where the token's own spelling lies in the script, if it has one.
fn own_spelling(script: &[u8], t: &Token) -> Option<u64> {
    match t.t {
        Type::S(s) | Type::D(s) | Type::I(s) | Type::Ident(s) | Type::Doc(s) => Some((s.as_ptr() as usize - script.as_ptr() as usize) as u64),
        _ => None,
    }
}

/// A fault's number and byte, by its message.
fn fault(message: &str) -> (u64, u64) {
    match message {
        "Unterminated string" => (31, 0),
        "Invalid utf8 input" => (32, 0),
        "Invalid numeric literal" => (34, 0),
        _ => (33, message.strip_prefix("Unknown character `").expect("a known message").chars().next().unwrap() as u64),
    }
}

/// Both lexers go over the script side by side: the faults before each token, the token, its own spelling.
fn same_cut(script: &[u8], seen: &mut u64) -> bool {
    let mut rust = Lexer::new(script);
    let mut known = 0;
    let mut pos = 0;
    loop {
        let token = rust.one();
        for d in &rust.diagnostics()[known..] {
            let (number, byte) = fault(&d.message);
            let s = step(script, pos);
            if s[..5] != [1, number, d.primary.span.start as u64, d.primary.span.len as u64, byte] {
                return false;
            }
            pos = s[5] as usize;
            *seen += 1;
        }
        known = rust.diagnostics().len();
        let s = step(script, pos);
        *seen += 1;
        if let Type::Eof = token.t {
            let at = token.start as u64;
            return s == [2, 0, at, 0, 0, at];
        }
        let (kind, len) = (kind(&token.t), token.t.as_str().len());
        if s[..5] != [0, kind, token.start as u64, len as u64, 0] || spelling(script, kind as u32, token.start, len) != own_spelling(script, &token) {
            return false;
        }
        pos = s[5] as usize;
    }
}

/// xorshift64*
struct Random(u64);

impl Random {
    fn below(&mut self, n: usize) -> usize {
        self.0 ^= self.0 >> 12;
        self.0 ^= self.0 << 25;
        self.0 ^= self.0 >> 27;
        (self.0.wrapping_mul(0x2545_f491_4f6c_dd1d) >> 33) as usize % n
    }

    fn pick<'a, T: ?Sized>(&mut self, from: &[&'a T]) -> &'a T {
        from[self.below(from.len())]
    }
}

// What scripts are put together from: every kind, what is nearly one, and bytes at the edges of the classes and of UTF-8.
const PIECES: &[&[u8]] = &[
    b" ", b"\t", b"\r", b"\n", b"#", b"#!", b"#! ", b"#!  ", b"# ", b"!", b"=", b"==", b"!=", b"\"", b"\"\"", b"(", b")", b"+", b"-", b"*", b"/",
    b"%", b"<", b">", b"?", b":", b".", b"..", b"[", b"]", b"{", b"}", b"0", b"9", b"1.", b"1.5", b"1.5.", b"12345678901234567890", b"_", b"a",
    b"z", b"A", b"Z", b"x1", b"abcdefghijklmnopqrstuvwxyz", b"import", b"extern", b"let", b"fn", b"match", b"as", b"true", b"false", b"Str", b"Int",
    b"Double", b"Bool", b"Void", b"Option", b"Array", b"Foreign", b"Record", b"str", b"lets", b"$", b",", b";", b"&", b"@", b"^", b"`", b"|", b"~",
    b"'", b"\\", b"\x00", b"\x0b", b"\x0c", b"\x1f", b"\x7f", b"\x80", b"\xbf", b"\xc2", b"\xc3\xa9", b"\xe2\x82\xac", b"\xed\xa0\x80",
    b"\xf0\x9f\x98\x80", b"\xf4\x90\x80\x80", b"\xff", b"                ",
];

fn lexer(count: u64, random: &mut Random) -> u64 {
    let mut short = Count::new("lexer, all scripts up to 3 bytes");
    for n in 0..=3 {
        strings(&every_byte(), n, &mut |s| {
            let mut seen = 0;
            short.case(same_cut(s, &mut seen), &s);
            short.seen += seen;
        });
    }
    let mut drawn = Count::new("lexer, random scripts");
    let mut script = Vec::new();
    for _ in 0..count {
        script.clear();
        for _ in 0..random.below(24) {
            if random.below(16) == 0 {
                script.push(random.below(256) as u8);
            } else {
                script.extend_from_slice(random.pick(PIECES));
            }
        }
        let mut seen = 0;
        drawn.case(same_cut(&script, &mut seen), &script);
        drawn.seen += seen;
    }
    short.done() + drawn.done()
}

/// Names, numbers, strings, docs, comments and blanks of up to 40 bytes with another byte or character at each place, and with each kind of end:
/// runs are told by 8 bytes and by windows of 16, so that every place in a window is met.
fn runs() -> u64 {
    let mut runs = Count::new("lexer, runs with one other byte");
    let others: [&[u8]; 16] = [
        b"", b"a", b"_", b"0", b".", b" ", b"\t", b"\n", b"#", b"#!", b"\"", b"$", b"\x80", b"\xff", b"\xc3\xa9", b"\xe2\x82\xac",
    ];
    let ends: [&[u8]; 5] = [b"", b"\"", b"\n", b" b \"\n#                ", b"\" \n\"                "];
    for (open, fill) in [("", "a"), ("", "1"), ("1.", "2"), ("1.2.", "3"), ("\"", "a"), ("\"", "\u{e9}"), ("#!", "a"), ("#! ", "\u{20ac}"), ("#", "a"), ("", " ")] {
        for n in 0..=40 {
            for at in 0..=n {
                for (other, end) in others.iter().flat_map(|o| ends.iter().map(move |e| (o, e))) {
                    let script = [open.as_bytes(), fill.repeat(at).as_bytes(), other, fill.repeat(n - at).as_bytes(), end].concat();
                    let mut seen = 0;
                    runs.case(same_cut(&script, &mut seen), &script);
                    runs.seen += seen;
                }
            }
        }
    }
    runs.done()
}

/// What `lex_spelling` should answer of any token, in numbers that do not wrap.
fn any_spelling(script: &[u8], kind: u32, start: usize, len: usize) -> Option<u64> {
    let offset = match kind {
        22 => 1,
        23..=25 => 0,
        26 => 2 + u128::from(start.checked_add(2).and_then(|at| script.get(at)) == Some(&b' ')),
        _ => return None,
    };
    let begins = start as u128 + offset;
    (begins + len as u128 <= script.len() as u128).then_some(begins as u64)
}

fn any_token(count: u64, random: &mut Random) -> u64 {
    let mut any = Count::new("spelling, any token");
    let bytes = b" #!a\"1";
    for _ in 0..count {
        let script: Vec<u8> = (0..random.below(12)).map(|_| bytes[random.below(bytes.len())]).collect();
        let mut number = || match random.below(4) {
            0 => usize::MAX - random.below(5),
            1 => script.len() + random.below(3),
            _ => random.below(14),
        };
        let (start, len) = (number(), number());
        let kind = if random.below(8) == 0 { random.below(1 << 31) as u32 } else { 20 + random.below(9) as u32 };
        any.case(spelling(&script, kind, start, len) == any_spelling(&script, kind, start, len), &(&script, kind, start, len));
    }
    any.done()
}

fn short_buffers() -> u64 {
    let mut short = Count::new("step, buffers of 0 to 9 cells");
    for cells in 0..10 {
        let mut out = [7u64; 10];
        let answer = c::step(b"$ a", 1, &mut out[..cells]);
        let mut wanted = [7u64; 10];
        if cells >= 6 {
            wanted[..6].copy_from_slice(&[0, 25, 2, 1, 0, 3]);
        }
        short.case(answer == (cells >= 6) && out == wanted, &cells);
    }
    short.done()
}

fn main() {
    let words: Vec<u64> = std::env::args().skip(1).map(|w| w.parse().expect("a number")).collect();
    let count = words.first().copied().unwrap_or(4_000_000);
    let mut random = Random(words.get(1).copied().unwrap_or(1).wrapping_mul(0x9e37_79b9_7f4a_7c15) | 1);
    let differ = utf8() + short_buffers() + any_token(count, &mut random) + runs() + lexer(count, &mut random);
    println!("{differ} differences");
    std::process::exit((differ > 0) as i32);
}
