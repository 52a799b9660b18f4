//! Stack and times of lookups and comparison (libc_api.a) on chains and other extreme shapes.
//!
//! chains [KIB]         lookups and comparison of chains run in a thread with a stack of KIB KiB, 256 unless given
//! chains nests KIB     how many levels of each nest are compared with a stack of KIB KiB
//! chains nest NAME LEVELS KIB    one of them
//! chains reading       how much stack a reading takes
#[path = "../../../bindings/rust/src/c.rs"]
mod c;
mod reading;

use crate::c::{Lent, Mode};
use std::time::{Duration, Instant};

const BYTES: usize = 65536;

// Kinds of tokens, tags of nodes and tags of types, as docs/LAYOUT.md has them.
const PLUS: u32 = 4;
const BRAKET_LEFT: u32 = 18;
const IDENT: u32 = 25;
const AS: u32 = 32;
const INT: u32 = 36;
const NODE_IDENT: u32 = 2;
const NODE_BIN: u32 = 3;
const NODE_FN: u32 = 6;
const NODE_MATCH: u32 = 7;
const NODE_CALL: u32 = 8;
const NODE_FIELD: u32 = 9;
const NODE_CAST: u32 = 10;
const NODE_RECORD: u32 = 13;
const NODE_ARRAY: u32 = 14;
const TYPE_ATOM: u32 = 1;
const TYPE_OPTION: u32 = 3;
const TYPE_RECORD: u32 = 5;

/// A tree in its arrays.
#[derive(Clone)]
struct Tree {
    script: Vec<u8>,
    nodes: Vec<u32>,
    types: Vec<u32>,
    lists: Vec<u32>,
    roots: Vec<u32>,
    /// Nodes, types, list cells, roots, values, diagnostics.
    counts: [u32; 6],
}

impl Tree {
    /// What strict reading leaves of a script.
    fn read(script: Vec<u8>) -> Tree {
        let [mut nodes, mut types, mut lists, mut roots, mut diagnostics] =
            c::CELLS.map(|cells| vec![0; cells * script.len()]);
        let [mut tokens, mut errors] = c::table_lengths(script.len()).map(|cells| vec![0; cells]);
        let mut numbers = [0; 12];
        let arrays = [&mut nodes[..], &mut types, &mut lists, &mut roots, &mut diagnostics];
        let number = c::parse(Mode::Strict, &script, [&mut tokens, &mut errors], arrays, &mut numbers);
        assert_eq!(number, 0, "error {:?} in {:?}", &numbers[1..6], String::from_utf8_lossy(&script[..script.len().min(80)]));
        Tree { script, nodes, types, lists, roots, counts: numbers[6..].try_into().unwrap() }
    }

    /// A tree to be made by hand, over blanks.
    fn blank() -> Tree {
        Tree { script: vec![b' '; BYTES], nodes: vec![], types: vec![], lists: vec![], roots: vec![], counts: [0; 6] }
    }

    fn push_node(&mut self, cells: &[u32]) -> u32 {
        self.nodes.extend(cells);
        self.counts[0] += 1;
        self.nodes.resize(16 * self.counts[0] as usize, 0);
        self.counts[0] - 1
    }

    fn push_type(&mut self, cells: &[u32]) -> u32 {
        self.types.extend(cells);
        self.counts[1] += 1;
        self.types.resize(8 * self.counts[1] as usize, 0);
        self.counts[1] - 1
    }

    /// The one root is given, and the arrays get their least lengths.
    fn rooted(mut self, root: u32) -> Tree {
        self.roots.push(root);
        self.counts[3] = 1;
        for (array, cells) in [(&mut self.nodes, 16), (&mut self.types, 8), (&mut self.lists, 8), (&mut self.roots, 1)] {
            array.resize(array.len().max(cells * self.script.len()), 0);
        }
        self
    }

    /// A left chain of so many links over the name `a`, made by hand.
    fn chain(link: Link, links: u32) -> Tree {
        let mut tree = Tree::blank();
        tree.script[0] = b'a';
        let ty = tree.push_type(&[TYPE_ATOM, INT, 0, 3]);
        let mut node = tree.push_node(&[NODE_IDENT, 0, IDENT, 0, 1]);
        for _ in 0..links {
            node = match link {
                Link::Operator => {
                    let right = tree.push_node(&[NODE_IDENT, 0, IDENT, 0, 1]);
                    tree.push_node(&[NODE_BIN, 0, PLUS, 0, 1, node, right])
                }
                Link::Field => tree.push_node(&[NODE_FIELD, 0, node, IDENT, 0, 1]),
                Link::Call => tree.push_node(&[NODE_CALL, 0, node, 0, 0]),
                Link::Cast => tree.push_node(&[NODE_CAST, 0, AS, 0, 2, node, ty]),
            };
        }
        tree.rooted(node)
    }

    /// A cast to a chain of so many Options over Int, made by hand.
    fn type_chain(links: u32) -> Tree {
        let mut tree = Tree::blank();
        tree.script[0] = b'a';
        let mut ty = tree.push_type(&[TYPE_ATOM, INT, 7, 3]);
        for _ in 0..links {
            ty = tree.push_type(&[TYPE_OPTION, ty]);
        }
        let name = tree.push_node(&[NODE_IDENT, 0, IDENT, 0, 1]);
        let cast = tree.push_node(&[NODE_CAST, 0, AS, 0, 2, name, ty]);
        tree.rooted(cast)
    }

    /// Nodes as members of a list: the run's start and length.
    fn push_list(&mut self, nodes: &[u32]) -> [u32; 2] {
        self.lists.extend(nodes);
        self.counts[2] += nodes.len() as u32;
        [self.counts[2] - nodes.len() as u32, nodes.len() as u32]
    }

    /// So many levels about the name `a`, each in the next one, made by hand.
    fn nested(nest: Nest, levels: u32) -> Tree {
        let mut tree = Tree::blank();
        tree.script[0] = b'a';
        let ty = tree.push_type(&[TYPE_ATOM, INT, 0, 3]);
        let name = tree.push_node(&[NODE_IDENT, 0, IDENT, 0, 1]);
        let mut node = name;
        for _ in 0..levels {
            node = match nest {
                Nest::Array => {
                    let [at, n] = tree.push_list(&[node]);
                    tree.push_node(&[NODE_ARRAY, 0, BRAKET_LEFT, 0, 1, at, n])
                }
                Nest::ArrayLast => {
                    let [at, n] = tree.push_list(&[name, node]);
                    tree.push_node(&[NODE_ARRAY, 0, BRAKET_LEFT, 0, 1, at, n])
                }
                Nest::ArrayFirst => {
                    let [at, n] = tree.push_list(&[node, name]);
                    tree.push_node(&[NODE_ARRAY, 0, BRAKET_LEFT, 0, 1, at, n])
                }
                Nest::Right => tree.push_node(&[NODE_BIN, 0, PLUS, 0, 1, name, node]),
                Nest::Argument => {
                    let [at, n] = tree.push_list(&[node]);
                    tree.push_node(&[NODE_CALL, 0, name, at, n])
                }
                Nest::Body => {
                    let [at, n] = tree.push_list(&[node]);
                    tree.push_node(&[NODE_FN, 0, 0, 0, IDENT, 0, 1, 0, 0, ty, at, n])
                }
                Nest::Case => {
                    let [at, n] = tree.push_list(&[IDENT, 0, 1, node, 0, 0]);
                    tree.push_node(&[NODE_MATCH, 0, at, n / 6, BRAKET_LEFT, 0, 1, 0, 0])
                }
                Nest::Default => {
                    let [at, n] = tree.push_list(&[node]);
                    tree.push_node(&[NODE_MATCH, 0, 0, 0, BRAKET_LEFT, 0, 1, at, n])
                }
                Nest::Value => {
                    let [at, n] = tree.push_list(&[IDENT, 0, 1, node]);
                    tree.push_node(&[NODE_RECORD, 0, BRAKET_LEFT, 0, 1, at, n / 4])
                }
            };
        }
        tree.rooted(node)
    }

    /// A cast to record types, so many, each in the last field of the next one, or in the first of two, made by hand.
    fn nested_types(levels: u32, first: bool) -> Tree {
        let mut tree = Tree::blank();
        tree.script[0] = b'a';
        let atom = tree.push_type(&[TYPE_ATOM, INT, 7, 3]);
        let mut ty = atom;
        for _ in 0..levels {
            let fields = [IDENT, 0, 1, ty, IDENT, 0, 1, atom];
            let [at, n] = tree.push_list(if first { &fields } else { &fields[..4] });
            ty = tree.push_type(&[TYPE_RECORD, INT, 0, 3, at, n / 4]);
        }
        let name = tree.push_node(&[NODE_IDENT, 0, IDENT, 0, 1]);
        let cast = tree.push_node(&[NODE_CAST, 0, AS, 0, 2, name, ty]);
        tree.rooted(cast)
    }

    /// So many operators, both sides of each being the node before it, made by hand.
    fn shared(operators: u32) -> Tree {
        let mut tree = Tree::blank();
        tree.script[0] = b'a';
        let mut node = tree.push_node(&[NODE_IDENT, 0, IDENT, 0, 1]);
        for _ in 0..operators {
            node = tree.push_node(&[NODE_BIN, 0, PLUS, 0, 1, node, node]);
        }
        tree.rooted(node)
    }

    /// The same tree over a script with another first byte.
    fn renamed(&self) -> Tree {
        let mut other = self.clone();
        other.script[0] = b'z';
        other
    }

    fn lent(&self) -> Lent<'_> {
        let Tree { script, nodes, types, lists, roots, counts } = self;
        Lent { script, nodes, types, lists, roots, counts }
    }

    /// Where a node starts.
    fn start(&self, node: u32) -> Result<Option<u64>, u32> {
        let mut start = [0; 2];
        match self.lent().node_start(node, &mut start) {
            0 => Ok((start[0] == 1).then_some(start[1])),
            n => Err(n),
        }
    }

    /// Kind, start and length of a type's token.
    fn type_token(&self, ty: u32) -> Result<[u64; 3], u32> {
        let mut token = [0; 3];
        match self.lent().type_token(ty, &mut token) {
            0 => Ok(token),
            n => Err(n),
        }
    }

    /// Whether the two trees have the same shape.
    fn same(&self, other: &Tree) -> Result<bool, u32> {
        let mut same = [0];
        match self.lent().same_shape(&other.lent(), &mut same) {
            0 => Ok(same[0] == 1),
            n => Err(n),
        }
    }
}

/// What stands in what.
#[derive(Clone, Copy)]
enum Nest {
    Array,
    ArrayLast,
    ArrayFirst,
    Right,
    Argument,
    Body,
    Case,
    Default,
    Value,
}

#[derive(Clone, Copy)]
enum Link {
    Operator,
    Field,
    Call,
    Cast,
}

/// The least of so many times, and what was answered.
fn timed<A: PartialEq + std::fmt::Debug>(count: usize, call: impl Fn() -> A) -> (Duration, A) {
    let answer = call();
    let once = || {
        let start = Instant::now();
        assert_eq!(call(), answer);
        start.elapsed()
    };
    ((0..count).map(|_| once()).min().unwrap(), answer)
}

/// Milliseconds with two places.
fn ms(time: Duration) -> String {
    format!("{:.2}", time.as_secs_f64() * 1000.0)
}

fn in_stack<A: Send>(kib: usize, call: impl FnOnce() -> A + Send) -> A {
    std::thread::scope(|scope| std::thread::Builder::new().stack_size(kib * 1024).spawn_scoped(scope, call).unwrap().join().unwrap())
}

/// Start lookup and comparison of one chain, in a thread with a stack of so many KiB. Its root starts at `at`.
fn show_chain(kib: usize, name: &str, links: u32, at: u64, tree: Tree) {
    let root = tree.roots[0];
    let (copy, other) = (tree.clone(), tree.renamed());
    in_stack(kib, || {
        let (start_time, start) = timed(5, || tree.start(root));
        assert_eq!(start, Ok(Some(at)));
        let (same_time, same) = timed(5, || tree.same(&copy));
        assert_eq!(same, Ok(true));
        let (other_time, different) = timed(5, || tree.same(&other));
        assert_eq!(different, Ok(false));
        println!("| {name} | {links} | {} | {} | {} | {} |", tree.counts[0], ms(start_time), ms(same_time), ms(other_time));
    });
}

/// As many blocks as fit between `open` and `close`, and blanks behind.
fn script(open: &str, block: &str, close: &str) -> Vec<u8> {
    let blocks = (BYTES - open.len() - close.len()) / block.len();
    let mut script = format!("{open}{}{close}", block.repeat(blocks)).into_bytes();
    script.resize(BYTES, b' ');
    script
}

fn nest(depth: usize, open: &str, inside: &str, close: &str) -> String {
    format!("{}{inside}{}\n", open.repeat(depth), close.repeat(depth))
}

/// A script of 65,536 bytes of one extreme shape, and a text of it whose last occurrence another of its length takes the place of.
struct Shape {
    name: &'static str,
    script: Vec<u8>,
    text: &'static str,
    other: &'static str,
}

fn shapes() -> Vec<Shape> {
    let shape = |name, script, text, other| Shape { name, script, text, other };
    vec![
        shape("operators, one chain", script("a", "+a", ""), "+a", "+z"),
        shape("fields, one chain", script("a", ".b", ""), ".b", ".z"),
        shape("calls of fields, one chain", script("a", ".b()", ""), ".b", ".z"),
        shape("casts, one chain", script("a", " as Int", ""), "Int", "Str"),
        shape("arrays, 120 deep", script("", &nest(120, "[", "a", "]"), ""), "a", "z"),
        shape("bodies, 120 deep", script("", &nest(120, "fn f(){", "", "}"), ""), "fn f", "fn z"),
        shape("calls, 60 deep", script("", &nest(60, "f(", "", ")"), ""), "f", "z"),
        shape("signs, 120 deep", script("", &nest(120, "-", "a", ""), ""), "a", "z"),
        shape("names, each a root", script("", "a ", ""), "a", "z"),
        shape("empty strings, each a root", script("", "\"\"", ""), "\"\"", "a "),
        shape("one string", script("\"", "a", "\""), "a", "z"),
        shape("one name", script("", "a", ""), "a", "z"),
        shape("one array of names", script("[", "a ", "]"), "a", "z"),
        shape("docs of one let", script("", "#!\n", "let a=1"), "a", "z"),
        shape("one doc of one let", script("#!", "a", "\nlet a=1"), "a\n", "z\n"),
        shape("paths of one import", script("import(", "\"a\"", ")"), "a", "z"),
        shape("types, 120 deep", script("", &format!("a as {}", nest(120, "Option<", "Int", ">")), ""), "Int", "Str"),
        shape("record types", script("", "a as Record<a:Int b:Int>\n", ""), "b", "z"),
        shape("arguments of one fn", script("fn f(", "a:Int ", "){}"), "a:", "z:"),
        shape("fns of one extern", script("extern \"p\"{", "fn f() ", "}"), "fn f", "fn z"),
        shape("records", script("", "{a:1 b:2} ", ""), "b", "z"),
        shape("fields of one record", script("{", "a:1 ", "}"), "a", "z"),
        shape("matches", script("", "match{a{b}{c}} ", ""), "{c", "{z"),
        shape("cases of one match", script("match{", "a{b}", "{c}}"), "{b", "{z"),
    ]
}

impl Shape {
    fn changed(&self) -> Vec<u8> {
        let mut script = self.script.clone();
        let at = script.windows(self.text.len()).rposition(|w| w == self.text.as_bytes()).expect("the text");
        script[at..at + self.text.len()].copy_from_slice(self.other.as_bytes());
        script
    }
}

/// Each nest by its name.
fn nests() -> Vec<(&'static str, fn(u32) -> Tree)> {
    vec![
        ("arrays of one member", |levels| Tree::nested(Nest::Array, levels)),
        ("arrays, in the last member", |levels| Tree::nested(Nest::ArrayLast, levels)),
        ("arrays, in the first of two members", |levels| Tree::nested(Nest::ArrayFirst, levels)),
        ("operators, on the right", |levels| Tree::nested(Nest::Right, levels)),
        ("calls, in an argument", |levels| Tree::nested(Nest::Argument, levels)),
        ("fns, in the body", |levels| Tree::nested(Nest::Body, levels)),
        ("matches, in a case's condition", |levels| Tree::nested(Nest::Case, levels)),
        ("matches, in the default's body", |levels| Tree::nested(Nest::Default, levels)),
        ("records, in a value", |levels| Tree::nested(Nest::Value, levels)),
        ("record types, in the last field", |levels| Tree::nested_types(levels, false)),
        ("record types, in the first of two fields", |levels| Tree::nested_types(levels, true)),
    ]
}

/// How many levels of a nest are compared with a stack of so many KiB: this program runs itself for each try, since a stack that does not suffice ends it.
fn deepest(name: &str, kib: usize) -> u32 {
    let holds = |levels: u32| {
        let run = std::process::Command::new(std::env::current_exe().unwrap()).args(["nest", name, &levels.to_string(), &kib.to_string()]).stderr(std::process::Stdio::null()).status();
        run.unwrap().success()
    };
    let (mut held, mut not) = (0, 65536);
    while 1 < not - held {
        let middle = (held + not) / 2;
        if holds(middle) { held = middle } else { not = middle }
    }
    held
}

fn main() {
    let words: Vec<String> = std::env::args().collect();
    if words.len() == 5 && words[1] == "nest" {
        let (_, nest) = nests().into_iter().find(|(name, _)| *name == words[2]).expect("a nest");
        let tree = nest(words[3].parse().expect("levels"));
        assert_eq!(in_stack(words[4].parse().expect("KiB"), || tree.same(&tree)), Ok(true));
        return;
    }
    if words.len() == 3 && words[1] == "nests" {
        let kib = words[2].parse().expect("KiB");
        for (name, _) in nests() {
            println!("| {name} | {} |", deepest(name, kib));
        }
        return;
    }
    if words.len() == 2 && words[1] == "reading" {
        return reading::show();
    }
    let kib = std::env::args().nth(1).map_or(256, |word| word.parse().expect("a number of KiB"));
    println!("Chains, looked up and compared with a stack of {kib} KiB; times in milliseconds.\n");
    println!("| chain | links | nodes | start | same | other first name |\n|---|---|---|---|---|---|");
    show_chain(kib, "operators, read", 32767, 0, Tree::read(script("a", "+a", "")));
    show_chain(kib, "fields, read", 32767, 0, Tree::read(script("a", ".b", "")));
    show_chain(kib, "calls of fields, read", 32766, 0, Tree::read(script("a", ".b()", "")));
    show_chain(kib, "casts, read", 9362, 65529, Tree::read(script("a", " as Int", ""))); // a cast starts at its `as`
    for links in [32767, 32768] {
        show_chain(kib, "operators, made by hand", links, 0, Tree::chain(Link::Operator, links));
        show_chain(kib, "fields, made by hand", links, 0, Tree::chain(Link::Field, links));
        show_chain(kib, "calls, made by hand", links, 0, Tree::chain(Link::Call, links));
        show_chain(kib, "casts, made by hand", links, 0, Tree::chain(Link::Cast, links));
    }
    println!("\n| chain of types | links | token | same |\n|---|---|---|---|");
    for links in [32767, 32768] {
        let tree = Tree::type_chain(links);
        let copy = tree.clone();
        in_stack(kib, || {
            let (token_time, token) = timed(5, || tree.type_token(links));
            assert_eq!(token, Ok([INT as u64, 7, 3]));
            let (same_time, same) = timed(5, || tree.same(&copy));
            assert_eq!(same, Ok(true));
            println!("| Options, made by hand | {links} | {} | {} |", ms(token_time), ms(same_time));
        });
    }
    println!("\n| nest, made by hand | levels that 256 KiB hold, up to 65,535 |\n|---|---|");
    for (name, _) in nests() {
        println!("| {name} | {} |", deepest(name, 256));
    }
    println!("\n| operators that share both sides, made by hand | same |\n|---|---|");
    for operators in [12, 16, 20] {
        let tree = Tree::shared(operators);
        let (time, same) = timed(1, || tree.same(&tree));
        assert_eq!(same, Ok(true));
        println!("| {operators} | {} |", ms(time));
    }
    println!("\nTwo scripts of 65,536 bytes, read (with the arrays made) and compared; times in milliseconds.\n");
    println!("| shape | nodes | types | list cells | roots | read | same | same but for one word |\n|---|---|---|---|---|---|---|---|");
    for shape in shapes() {
        let (name, script) = (shape.name, &shape.script);
        assert_eq!(script.len(), BYTES);
        let (read_time, counts) = timed(5, || Tree::read(script.clone()).counts);
        let (tree, copy, other) = (Tree::read(script.clone()), Tree::read(script.clone()), Tree::read(shape.changed()));
        let (same_time, same) = timed(5, || tree.same(&copy));
        assert_eq!(same, Ok(true), "{name}");
        let (other_time, different) = timed(5, || tree.same(&other));
        assert_eq!(different, Ok(false), "{name}");
        println!("| {name} | {} | {} | {} | {} | {} | {} | {} |", counts[0], counts[1], counts[2], counts[3], ms(read_time), ms(same_time), ms(other_time));
    }
}
