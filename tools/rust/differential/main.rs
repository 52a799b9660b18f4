//! Reads scripts with the library (libc_api.a) and with the unchanged Rust, and counts where they differ.
//!
//! differential [--quick] [--seed S] [FAMILY..]
//!
//! bytes      all byte strings up to length 3 (2 with --quick)
//! tokens     all rows of up to 5 tokens (4 with --quick) of an alphabet
//! programs   random programs, whole and damaged, of up to some hundred bytes
//! long       programs of up to 65,536 bytes, whole and damaged, deep nests and long chains
//! pairs      two scripts each: the comparison of their trees beside the shapes of the Rust's
//! refusals   1 to 3: scripts that are too long, arrays and tables that are too short, numbers that lie outside
//! limits     scripts of 0, 1, 65,536 and 65,537 bytes of many shapes; arrays and tables exactly long enough, longer, and one cell short of each
//! columns    lines and columns of a million positions, in whole and broken UTF-8, beside a count of its own
//! marks      lists of positions beside single lookups, with their refusals; how long they take
//! practice   practice sheets beside a generator of its own; each is read
//! sheets     correction sheets, read back by a reader of its own; refusals; how long one takes
//! tables     tables of tokens and lexer errors beside the Rust's lexer; damaged ones; refusals
//! steps      cutting and then reading beside both at once; reading from damaged tables is refused with 43
//! words      errors of every number, wanted and seen beside the tables of docs/WORDS.md, and their refusals
//!
//! Without a family all are run. Of each script the numbers, all cells of all arrays and tables, the starts of nodes, the tokens of types, spans, lines and columns
//! are compared. The arrays are lent full of rubbish and longer than needed. Every tree is held to the law of a finished tree (law.rs),
//! and every error that a reading returns is described (words.rs).
#![feature(allocator_api, portable_simd, core_intrinsics)]
#![allow(internal_features)]

include!(env!("RUST_MODULES")); // written by tools/rust/oracle/rust.py: lex, diagnostic, ast, parser, counted, notes

#[path = "../../../bindings/rust/src/c.rs"]
mod c;
mod expected;
mod law;
mod library;
#[path = "../oracle/numbers.rs"]
mod numbers;
mod positions;
mod practice;
mod scripts;
mod shape;
mod sheet;
mod steps;
mod tables;
mod words;

use crate::ast::{Ast, NodeId, TypeExprId};
use crate::diagnostic::Span;
use crate::expected::{Expected, Rust};
use crate::law::Law;
use crate::lex::Type;
use crate::library::{ERRORS, LENT, Lent, MODES, Mode, NAMES, Rubbish, TOKENS, least};
use crate::numbers::{kind_number, tokens_of};
use crate::scripts::{Program, Random, damage, rewritten, rows};
use crate::words::Words;

/// The longest script that is read.
const LONGEST: usize = 65_536;

/// What scripts at the limits are made of, again and again up to their length: blanks, words, signs, nests, faults, errors, items.
const LIMITS: [&str; 36] = [
    " ", "\n", "a", "a ", "1.", "1 ", "+", "a+", "a -b ", "- ", "x.", "f()", "[]", "(", "[", "{", "f(", "(a) ", "[a ", "$", "$ ", "\"", "\"s\" ", "#! d\n", "#! d\nlet a=a ", "let 1 ",
    "match {} ", "match {a{b}{c}} ", "fn f(a:Int){a} ", "fn f(){", "import \"x\" ", "extern \"p\" {fn f(a:Int)} ", "a as Option<Int> ", "a as Record<a:Int> ", "!= ", "\u{e9}",
];

/// `node_start` of the Rust goes down a whole chain of operators.
const STACK: usize = 1 << 30;

/// What a family ran on and where the two differed.
struct Count {
    name: &'static str,
    scripts: u64,
    trees: u64,
    lookups: u64,
    differ: u64,
}

impl Count {
    fn new(name: &'static str) -> Self {
        Count { name, scripts: 0, trees: 0, lookups: 0, differ: 0 }
    }

    fn differs(&mut self, script: &[u8], what: &str) {
        self.differ += 1;
        if self.differ <= 5 {
            let shown = &script[..script.len().min(300)];
            println!("{}: {what} of the {} bytes {}", self.name, script.len(), shown.escape_ascii());
        }
    }

    fn done(self) -> u64 {
        println!("{}: {} scripts, {} trees, {} lookups; {} differ", self.name, self.scripts, self.trees, self.lookups, self.differ);
        self.differ
    }
}

/// The two readers, and what is lent.
struct Beside {
    random: Random,
    rubbish: Rubbish,
    rust: Rust,
    lent: Lent,
    expected: Expected,
    law: Law,
    words: Words,
}

/// What is asked of the Rust's tree: starts of some nodes, tokens of some types.
#[derive(Default)]
struct Asked {
    starts: Vec<(usize, Option<u32>)>,
    tokens: Vec<(usize, [u64; 3])>,
}

/// So many of `n` numbers, all where there are fewer.
fn some(n: usize, most: usize, random: &mut Random) -> Vec<usize> {
    if n <= most { (0..n).collect() } else { (0..most).map(|_| random.below(n)).collect() }
}

impl Asked {
    fn ask(tree: &Ast<'_, '_>, random: &mut Random) -> Self {
        let starts = some(tree.nodes.len(), 40, random).into_iter().map(|i| (i, ast::start_of(tree, NodeId(i)))).collect();
        let token = |i| {
            let t = tree.type_token(TypeExprId(i));
            [kind_number(&t.t), t.start, t.t.as_str().len()].map(|n| n as u64)
        };
        let tokens = some(tree.types.len(), 40, random).into_iter().map(|i| (i, token(i))).collect();
        Asked { starts, tokens }
    }
}

impl Beside {
    fn new(seed: u64) -> Self {
        let mut random = Random::new(seed);
        Beside { rubbish: Rubbish::new(&mut random), random, rust: Rust::new(), lent: Lent::new(), expected: Expected::default(), law: Law::default(), words: Words::new() }
    }

    /// Lengths of at least the least for `n` bytes, mostly longer.
    fn lengths(&mut self, n: usize) -> [usize; LENT] {
        least(n).map(|cells| cells + if self.random.chance(50) { self.random.below(40) } else { 0 })
    }

    fn lend(&mut self, n: usize) {
        let lens = self.lengths(n);
        self.lent.lend(lens, &self.rubbish, &mut self.random);
    }

    /// One script in each mode.
    fn compare(&mut self, count: &mut Count, script: &[u8]) {
        count.scripts += 1;
        for mode in MODES {
            let lens = self.lengths(script.len());
            if let Err(what) = self.compare_in(count, mode, script, lens) {
                count.differs(script, &what);
            }
        }
    }

    fn compare_in(&mut self, count: &mut Count, mode: Mode, script: &[u8], lens: [usize; LENT]) -> Result<(), String> {
        let mut asked = Asked::default();
        let random = &mut self.random;
        self.rust.read(script, mode != Mode::Strict, &mut self.expected, &mut |tree| asked = Asked::ask(tree, random));
        self.lent.lend(lens, &self.rubbish, &mut self.random);
        let number = self.lent.parse(mode, script);
        self.same_reading(number)?;
        self.same_cutting(script)?;
        self.same_words(number)?;
        if number == 0 {
            count.trees += 1;
            self.law.holds(&self.lent, script)?;
            self.same_lookups(count, script, &asked)?;
        }
        Ok(())
    }

    fn same_reading(&self, number: u32) -> Result<(), String> {
        let (lent, expected) = (&self.lent, &self.expected);
        if number != expected.numbers[0] || lent.numbers != expected.numbers {
            return Err(format!("answer {number}, numbers {:?}, expected {:?}", lent.numbers, expected.numbers));
        }
        for i in 0..5 {
            let (array, used) = (lent.array(i), &expected.arrays[i]);
            if array[..used.len()] != used[..] {
                return Err(format!("the {} differ", NAMES[i]));
            }
            if array[used.len()..].iter().any(|&cell| cell != 0) {
                return Err(format!("cells behind the {} are not zero", NAMES[i]));
            }
        }
        if lent.guarded() { Ok(()) } else { Err("cells outside of an array changed".to_string()) }
    }

    /// The tables are those of the Rust's lexer.
    fn same_cutting(&self, script: &[u8]) -> Result<(), String> {
        for (i, records) in [TOKENS, ERRORS].into_iter().zip(tables::tables(script)) {
            let table = self.lent.array(i);
            if table[..records.len()] != records[..] || table[records.len()..].iter().any(|&cell| cell != 0) {
                return Err(format!("the {} differ", NAMES[i]));
            }
        }
        Ok(())
    }

    /// The tree that was just read is lawful.
    fn lawful(&mut self, count: &mut Count, script: &[u8]) {
        if let Err(what) = self.law.holds(&self.lent, script) {
            count.differs(script, &what);
        }
    }

    fn same_lookups(&mut self, count: &mut Count, script: &[u8], asked: &Asked) -> Result<(), String> {
        for &(i, start) in &asked.starts {
            let wanted = start.map_or([0, 0], |p| [1, p as u64]);
            if self.lent.node_start(script, i as u32) != (0, wanted) {
                return Err(format!("the start of node {i}"));
            }
        }
        for &(i, wanted) in &asked.tokens {
            if self.lent.type_token(script, i as u32) != (0, wanted) {
                return Err(format!("the token of type {i}"));
            }
        }
        count.lookups += (asked.starts.len() + asked.tokens.len()) as u64;
        if self.random.chance(20) {
            self.same_positions(count, script)?;
        }
        Ok(())
    }

    /// Spans of tokens, lines and columns.
    fn same_positions(&mut self, count: &mut Count, script: &[u8]) -> Result<(), String> {
        let tokens = tokens_of(script);
        for i in some(tokens.len(), 20, &mut self.random) {
            let t = &tokens[i];
            let span = Span::from_token(t);
            let wanted = (0, [span.start as u64, span.len as u64]);
            if library::token_span(script, kind_number(&t.t) as u32, t.start, t.t.as_str().len()) != wanted {
                return Err(format!("the span of token {i}"));
            }
            if library::line_column(script, t.start as u32) != (0, positions::place(script, t.start)) {
                return Err(format!("the line and column of token {i}"));
            }
            count.lookups += 2;
        }
        Ok(())
    }

    // ---- families

    fn bytes(&mut self, longest: usize) -> u64 {
        let mut count = Count::new("bytes");
        let every: Vec<[u8; 1]> = (0..=255).map(|b| [b]).collect();
        let every: Vec<&[u8]> = every.iter().map(|b| &b[..]).collect();
        for n in 0..=longest {
            rows(&every, n, &mut |script| self.compare(&mut count, script));
        }
        count.done()
    }

    fn tokens(&mut self, longest: usize) -> u64 {
        let mut count = Count::new("tokens");
        let alphabet: [&[u8]; 25] = [
            b"a ", b"1 ", b"\"s\" ", b"( ", b") ", b"[ ", b"] ", b"{ ", b"} ", b"- ", b"-", b"== ", b". ", b": ", b"= ", b"< ", b"> ", b"let ", b"fn ", b"match ",
            b"import ", b"extern ", b"as ", b"Int ", b"#! d\n",
        ];
        for n in 0..=longest {
            rows(&alphabet, n, &mut |script| self.compare(&mut count, script));
        }
        // types and signatures, which take more tokens to begin
        let types: [&[u8]; 9] = [b"Option ", b"Array ", b"Foreign ", b"Record ", b"Int ", b"< ", b"> ", b"a ", b": "];
        for (before, after) in [("x as ", ""), ("fn f(", "){}"), ("fn f() ", "{}"), ("extern \"p\" {fn f(", ") fn g() }")] {
            for n in 0..=longest {
                rows(&types, n, &mut |middle| self.compare(&mut count, &[before.as_bytes(), middle, after.as_bytes()].concat()));
            }
        }
        let blocks: [&[u8]; 9] = [b"{ ", b"} ", b"a ", b"let ", b"= ", b"#! d\n", b"import ", b"\"p\" ", b"fn "];
        for (before, after) in [("match { ", "{} }"), ("match {", "}"), ("extern \"p\" {", "}"), ("fn f() {", "}"), ("f(", ")"), ("#! d\n", "let a = 1")] {
            for n in 0..=longest {
                rows(&blocks, n, &mut |middle| self.compare(&mut count, &[before.as_bytes(), middle, after.as_bytes()].concat()));
            }
        }
        count.done()
    }

    /// A random program of about so many bytes, damaged or not.
    fn program(&mut self, bytes: usize) -> Vec<u8> {
        let mut script = Program::write(&mut self.random, bytes);
        script.truncate(LONGEST);
        if self.random.chance(50) {
            damage(&mut script, &mut self.random);
            script.truncate(LONGEST);
        }
        script
    }

    fn programs(&mut self, scripts: usize) -> u64 {
        let mut count = Count::new("programs");
        for _ in 0..scripts {
            let bytes = [20, 60, 200][self.random.below(3)];
            let bytes = self.random.below(bytes);
            let script = self.program(bytes);
            self.compare(&mut count, &script);
        }
        count.done()
    }

    fn long(&mut self, scripts: usize) -> u64 {
        let mut count = Count::new("long");
        for i in 0..scripts {
            let script = match i % 4 {
                0 => self.nest(),
                1 => self.repeated(),
                _ => {
                    let bytes = self.random.below(LONGEST + 1);
                    self.program(bytes)
                }
            };
            self.compare(&mut count, &script);
        }
        for n in [LONGEST - 1, LONGEST] {
            for block in ["a", "a ", "+a", "$", "\"", "#! d\nlet a=a ", "(", "{", "1.", "x.", "f()", "[]"] {
                let script: Vec<u8> = block.bytes().cycle().take(n).collect();
                self.compare(&mut count, &script);
            }
        }
        count.done()
    }

    /// Levels from some to over 129.
    fn nest(&mut self) -> Vec<u8> {
        let forms = [("(", ")"), ("[", "]"), ("f(", ")"), ("{a:", "}"), ("fn f(){", "}"), ("-", ""), ("a+(", ")"), ("let x = ", ""), ("match{{", "}}"), ("x as Option<", ">")];
        let mut script = Vec::new();
        let mut closing = Vec::new();
        let levels = self.random.below(140);
        let (first, one) = (self.random.below(forms.len()), self.random.chance(50));
        for _ in 0..levels {
            let (open, close) = forms[if one { first } else { self.random.below(forms.len()) }];
            script.extend(open.bytes());
            closing.push(close);
        }
        script.extend(if self.random.chance(50) { "a" } else { "Int" }.bytes());
        closing.iter().rev().for_each(|close| script.extend(close.bytes()));
        if self.random.chance(20) {
            damage(&mut script, &mut self.random);
        }
        script
    }

    /// One small program many times over.
    fn repeated(&mut self) -> Vec<u8> {
        let block = self.program(12);
        if block.is_empty() {
            return block;
        }
        let times = self.random.below(LONGEST / block.len() + 1);
        block.repeat(times)
    }

    fn pairs(&mut self, pairs: usize) -> u64 {
        let mut count = Count::new("pairs");
        let (mut same, mut other) = (0u64, Lent::new());
        for _ in 0..pairs {
            let bytes = [12, 40, 120][self.random.below(3)];
            let bytes = self.random.below(bytes);
            let script = self.program(bytes);
            let spans: Vec<(usize, usize)> = tokens_of(&script).iter().filter(|t| t.t != Type::Eof).map(|t| source(&script, t)).collect();
            let script2 = if self.random.chance(90) { rewritten(&script, &spans, &mut self.random) } else { self.program(bytes) };
            count.scripts += 2;
            let mut shapes = [None, None];
            for (shape, script) in shapes.iter_mut().zip([&script, &script2]) {
                self.rust.read(script, false, &mut self.expected, &mut |tree| *shape = Some(shape::shape(tree)));
            }
            let [Some(left), Some(right)] = shapes else { continue };
            count.trees += 2;
            self.lend(script2.len());
            self.lent.parse(Mode::Strict, &script2);
            self.lawful(&mut count, &script2);
            std::mem::swap(&mut self.lent, &mut other);
            self.lend(script.len());
            self.lent.parse(Mode::Strict, &script);
            self.lawful(&mut count, &script);
            let wanted = u64::from(left == right);
            same += wanted;
            count.lookups += 1;
            if self.lent.same_shape(&script, &other, &script2) != (0, wanted) {
                count.differs(&script, &format!("comparison with {}", script2.escape_ascii()));
            }
        }
        println!("pairs: of {} comparisons {same} found the same shape", count.lookups);
        count.done()
    }

    fn refusals(&mut self) -> u64 {
        let mut count = Count::new("refusals");
        let script = b"fn f(a: Int) Int { a + 1 } #! d\nlet x = [1 \"s\"]";
        for mode in MODES {
            for array in 0..LENT {
                let cells = least(1)[array] - least(0)[array];
                for missing in [1, cells, cells * script.len()] {
                    let mut lens = least(script.len());
                    lens[array] -= missing;
                    self.unchanged(&mut count, mode, script, lens, 2);
                }
            }
            for n in [LONGEST + 1, LONGEST + 2, 3 * LONGEST] {
                let script = vec![b'a'; n];
                self.unchanged(&mut count, mode, &script, least(n), 1);
                self.unchanged(&mut count, mode, &script, [0; LENT], 1);
            }
            self.compare(&mut count, script);
            self.lend(script.len());
            self.lent.parse(mode, script);
            self.lawful(&mut count, script);
            let counts = [self.lent.numbers[6], self.lent.numbers[7]];
            for more in [0, 1, 1000, u32::MAX - 1000] {
                count.lookups += 3;
                let answers = [
                    self.lent.node_start(script, counts[0] + more) == (3, [u64::MAX; 2]),
                    self.lent.type_token(script, counts[1] + more) == (3, [u64::MAX; 3]),
                    library::line_column(script, script.len() as u32 + 1 + more) == (3, [u64::MAX; 2]),
                ];
                if answers != [true; 3] {
                    count.differs(script, &format!("a lookup {more} outside: {answers:?}"));
                }
            }
            let end = library::line_column(script, script.len() as u32);
            if end != (0, [2, 16]) {
                count.differs(script, &format!("the end: {end:?}"));
            }
        }
        count.done()
    }

    fn limits(&mut self) -> u64 {
        let mut count = Count::new("limits");
        let mut refused = 0;
        for block in LIMITS {
            for (n, mode) in [0, 1, LONGEST, LONGEST + 1].into_iter().flat_map(|n| MODES.map(|mode| (n, mode))) {
                let script: Vec<u8> = block.bytes().cycle().take(n).collect();
                let exact = least(n);
                if n > LONGEST {
                    self.unchanged(&mut count, mode, &script, exact, 1);
                    self.unchanged(&mut count, mode, &script, [0; LENT], 1);
                    refused += 2;
                    continue;
                }
                for lens in [exact, std::array::from_fn(|i| exact[i] + i + 1), exact.map(|cells| cells + 1000)] {
                    count.scripts += 1;
                    if let Err(what) = self.compare_in(&mut count, mode, &script, lens) {
                        count.differs(&script, &what);
                    }
                }
                for array in (0..LENT).filter(|&i| exact[i] > 0) {
                    let mut lens = exact;
                    lens[array] -= 1;
                    self.unchanged(&mut count, mode, &script, lens, 2);
                    refused += 1;
                }
            }
        }
        println!("limits: of {} readings {refused} were to be refused", count.scripts);
        count.done()
    }

    /// Cutting and reading, and reading alone, are refused with this number, and nothing lent changes.
    fn unchanged(&mut self, count: &mut Count, mode: Mode, script: &[u8], lens: [usize; LENT], wanted: u32) {
        count.scripts += 1;
        self.lent.lend(lens, &self.rubbish, &mut self.random);
        let before = self.lent.copy();
        let numbers = [self.lent.parse(mode, script), self.lent.read(mode, script)];
        if numbers != [wanted; 2] || self.lent.copy() != before || !self.lent.guarded() {
            count.differs(script, &format!("a refusal with {wanted}, arrays of {lens:?}"));
        }
    }
}

/// Where a token stands in the script, with its quotes or its `#!`.
fn source(script: &[u8], t: &lex::Token<'_>) -> (usize, usize) {
    let len = t.t.as_str().len();
    let end = match t.t {
        Type::S(_) => t.start + len + 2,
        Type::Doc(s) => s.as_ptr() as usize - script.as_ptr() as usize + len,
        _ => t.start + len,
    };
    (t.start, end)
}

const FAMILIES: [&str; 14] =
    ["refusals", "limits", "bytes", "tables", "steps", "tokens", "programs", "long", "pairs", "columns", "marks", "practice", "sheets", "words"];

fn run(quick: bool, seed: u64, families: &[String]) -> u64 {
    let mut beside = Beside::new(seed);
    let mut differ = 0;
    for family in FAMILIES.iter().filter(|f| families.is_empty() || families.iter().any(|g| g == *f)) {
        differ += match *family {
            "sheets" => beside.sheets(if quick { 20_000 } else { 400_000 }),
            "columns" => beside.columns(if quick { 100_000 } else { 1_000_000 }),
            "marks" => beside.marks(if quick { 50_000 } else { 500_000 }),
            "practice" => beside.practice(if quick { 5_000 } else { 100_000 }),
            "words" => beside.describe(if quick { 100_000 } else { 2_000_000 }),
            "tables" => beside.tables(if quick { 100_000 } else { 2_000_000 }),
            "steps" => beside.steps(if quick { 50_000 } else { 1_000_000 }),
            "refusals" => beside.refusals(),
            "limits" => beside.limits(),
            "bytes" => beside.bytes(if quick { 2 } else { 3 }),
            "tokens" => beside.tokens(if quick { 4 } else { 5 }),
            "programs" => beside.programs(if quick { 200_000 } else { 4_000_000 }),
            "long" => beside.long(if quick { 100 } else { 4_000 }),
            _ => beside.pairs(if quick { 100_000 } else { 1_000_000 }),
        };
    }
    println!("the law: {} trees, {} resynchronisings", beside.law.trees, beside.law.resynchronisings);
    differ
}

fn main() {
    let mut words = std::env::args().skip(1);
    let (mut quick, mut seed, mut families) = (false, 1, Vec::new());
    while let Some(word) = words.next() {
        match word.as_str() {
            "--quick" => quick = true,
            "--seed" => seed = words.next().and_then(|w| w.parse().ok()).expect("--seed and a number"),
            family if FAMILIES.contains(&family) => families.push(word),
            _ => {
                eprintln!("usage: differential [--quick] [--seed S] [{}]", FAMILIES.join(" | "));
                std::process::exit(2)
            }
        }
    }
    let runner = std::thread::Builder::new().stack_size(STACK).spawn(move || run(quick, seed, &families)).expect("a thread");
    let differ = runner.join().expect("no panic");
    println!("both modes: {differ} differences");
    std::process::exit((differ > 0) as i32);
}
