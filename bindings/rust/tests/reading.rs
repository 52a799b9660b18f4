//! The wrapper on scripts whose trees and errors document 01 gives, and on scripts of every length allowed.
use purple_garden_reader::{Error, Kind, Node, Problem, Tree, Type, MAX_BYTES};

fn tree(script: &str) -> Tree {
    Tree::parse(script).unwrap_or_else(|e| panic!("{script}: {e}"))
}

fn problem(script: &str) -> (u32, std::ops::Range<usize>, Kind) {
    match Tree::parse(script) {
        Err(Error::Script(d)) => (d.problem.number(), d.span, d.seen.expect("a token")),
        other => panic!("{script}: {other:?}"),
    }
}

/// The tree as text, with spellings: what the decoding says of each node.
fn text(tree: &Tree) -> String {
    tree.roots().map(|id| node(tree, id)).collect::<Vec<_>>().join(" ")
}

fn node(t: &Tree, id: purple_garden_reader::NodeId) -> String {
    let nodes = |list: purple_garden_reader::List<'_, purple_garden_reader::NodeId>| list.map(|id| node(t, id)).collect::<Vec<_>>().join(" ");
    let words = |list: purple_garden_reader::List<'_, purple_garden_reader::Token>| list.map(|w| t.spelling(w)).collect::<Vec<_>>().join("|");
    let typed = |list: purple_garden_reader::List<'_, purple_garden_reader::Parameter>| {
        list.map(|p| format!("{}:{}", t.spelling(p.name), ty(t, p.ty))).collect::<Vec<_>>().join(" ")
    };
    match t.node(id) {
        Node::Atom { raw, .. } => t.spelling(raw).to_string(),
        Node::Ident { name, .. } => t.spelling(name).to_string(),
        Node::Bin { op, lhs, rhs, .. } => format!("({} {} {})", t.spelling(op), node(t, lhs), node(t, rhs)),
        Node::Unary { op, rhs, .. } => format!("({} {})", t.spelling(op), node(t, rhs)),
        Node::Let { docs, name, rhs, .. } => format!("(let [{}] {} {})", words(docs), t.spelling(name), node(t, rhs)),
        Node::Fn { docs, name, args, return_type, body, .. } => {
            format!("(fn [{}] {} ({}) {} ({}))", words(docs), t.spelling(name), typed(args), ty(t, return_type), nodes(body))
        }
        Node::Match { cases, default_body, .. } => {
            let cases: Vec<String> = cases.map(|c| format!("({} ({}))", node(t, c.condition), nodes(c.body))).collect();
            format!("(match {} ({}))", cases.join(" "), nodes(default_body))
        }
        Node::Call { target, args, .. } => format!("(call {} ({}))", node(t, target), nodes(args)),
        Node::Field { target, name, .. } => format!("(. {} {})", node(t, target), t.spelling(name)),
        Node::Cast { lhs, rhs, .. } => format!("(as {} {})", node(t, lhs), ty(t, rhs)),
        Node::Import { pkgs, .. } => format!("(import {})", words(pkgs)),
        Node::Extern { docs, name, fns, .. } => {
            let fns: Vec<String> =
                fns.map(|f| format!("([{}] {} ({}) {})", words(f.docs), t.spelling(f.name), typed(f.args), ty(t, f.return_type))).collect();
            format!("(extern [{}] {} {})", words(docs), t.spelling(name), fns.join(" "))
        }
        Node::Record { fields, .. } => {
            let fields: Vec<String> = fields.map(|f| format!("{}:{}", t.spelling(f.name), node(t, f.value))).collect();
            format!("{{{}}}", fields.join(" "))
        }
        Node::Array { members, .. } => format!("[{}]", nodes(members)),
    }
}

fn ty(t: &Tree, id: purple_garden_reader::TypeId) -> String {
    match t.ty(id) {
        Type::Atom(w) => t.spelling(w).to_string(),
        Type::Foreign(w) => format!("Foreign<{}>", t.spelling(w)),
        Type::Option(inner) => format!("Option<{}>", ty(t, inner)),
        Type::Array(inner) => format!("Array<{}>", ty(t, inner)),
        Type::Record { fields, .. } => {
            let fields: Vec<String> = fields.map(|p| format!("{}:{}", t.spelling(p.name), ty(t, p.ty))).collect();
            format!("Record<{}>", fields.join(" "))
        }
    }
}

#[test]
fn every_node_and_type() {
    for (script, wanted) in [
        ("", ""),
        ("a -b", "a (- b)"),
        ("a - b", "(- a b)"),
        ("a + b as Int", "(+ a (as b Int))"),
        ("f (a) (b)", "(call f (a)) b"),
        ("match {{a} {b}}", "(match  (b))"),
        ("match {a == 1 {b c} {}}", "(match ((== a 1) (b c)) ())"),
        ("-a as Int.b", "(. (- (as a Int)) b)"),
        ("#! one\n#!two\nlet x = \"é\"", "(let [one|two] x é)"),
        ("fn f(a: Int b: Option<Array<Str>>) { a }", "(fn [] f (a:Int b:Option<Array<Str>>) Void (a))"),
        ("import (\"io\" \"str\") import \"p\"", "(import io|str) (import p)"),
        ("extern \"p\" {\n#! d\nfn f(a: Foreign<T>) Bool fn g() }", "(extern [] p ([d] f (a:Foreign<T>) Bool) ([] g () Void))"),
        ("{at: 1 x: [1 2.5 true]} as Record<at: Int x: Void>", "(as {at:1 x:[1 2.5 true]} Record<at:Int x:Void>)"),
        ("$ a", "a"),
    ] {
        assert_eq!(text(&tree(script)), wanted, "{script}");
    }
}

#[test]
fn errors() {
    assert_eq!(problem("a != b"), (19, 2..4, Kind::NotEqual));
    assert_eq!(problem("match {}"), (18, 6..7, Kind::CurlyLeft));
    assert_eq!(problem("extern \"p\" {fn\na() #! d\nfn\nb()}"), (23, 19..20, Kind::Doc));
    assert_eq!(problem("let 1 let x = 2"), (12, 4..5, Kind::I));
    assert_eq!(problem(&format!("{}a{}", "(".repeat(127), ")".repeat(127))), (10, 127..128, Kind::Ident));
    let error = Tree::parse("let x = 1\nfn f(").unwrap_err();
    assert_eq!(error.to_string(), "line 2, column 6: error 11: expected ')', but found the end of the script");
    let Error::Script(d) = error else { panic!("{error:?}") };
    assert_eq!(d.problem, Problem::ExpectedToken(Kind::BraceRight));
}

#[test]
fn every_problem_has_its_number() {
    let scripts = [
        (11, "let x 1"), (12, "let 1"), (13, "#! d"), (14, "#! d\na"), (15, "import (x)"), (16, "extern x"), (17, "extern \"p\" { extern"), (18, "match {}"), (19, ")"),
        (20, "a as Foreign<>"), (21, "a as Option<>"), (22, "a as Array<>"), (23, "a as b"),
    ];
    for (number, script) in scripts {
        assert_eq!(problem(script).0, number, "{script}");
        assert!(Tree::parse(script).unwrap_err().to_string().contains(&format!("error {number}: ")));
    }
}

/// The words of docs/WORDS.md for an error of each form: a kind, two kinds, a byte, nothing.
#[test]
fn words() {
    let gathered = |script: &[u8]| {
        let tree = Tree::parse_collect(script).unwrap_or_else(|e| panic!("{e}"));
        tree.diagnostics().map(|d| d.words().expect("words")).collect::<Vec<_>>()
    };
    assert_eq!(gathered(b"let 1"), ["a name must stand here, not a whole number"]);
    assert_eq!(gathered(b"let x 1"), ["expected '=', but found a whole number"]);
    assert_eq!(gathered(b"\xfe"), ["this character is not part of the language; its byte in hexadecimal is FE"]);
    assert_eq!(gathered(b"\"x"), ["this string has no closing quote"]);
    assert_eq!(gathered(b"1.2.3"), ["a number can have only one dot, and this one has more"]);
    let comment = "a #! comment describes the let, fn or extern after it, but ";
    assert_eq!(gathered(b"#! d"), [comment.to_string() + "the script ends after a #! comment"]);
    assert_eq!(gathered(b"#! d\na"), [comment.to_string() + "something else comes after a #! comment"]);
    let Err(Error::Script(mut d)) = Tree::parse("let 1") else { panic!() };
    d.seen = None;
    assert_eq!((d.words(), d.to_string().as_str()), (None, "line 1, column 5: error 12"));
}

/// The tree and what was gathered: number, span, and kind or byte.
fn collected(script: &[u8]) -> (String, Vec<(u32, std::ops::Range<usize>)>) {
    let tree = Tree::parse_collect(script).unwrap_or_else(|e| panic!("{e}"));
    (text(&tree), tree.diagnostics().map(|d| (d.problem.number(), d.span)).collect())
}

#[test]
fn collecting() {
    assert_eq!(collected(b"let 1 let x = 2"), ("(let [] x 2)".to_string(), vec![(12, 4..5)]));
    assert_eq!(collected(b"a != b"), ("a".to_string(), vec![(19, 2..4)]));
    assert_eq!(collected(b"#!\xffa"), ("a".to_string(), vec![(32, 0..3)]));
    assert_eq!(collected(b"match {} $ a").1, [(33, 9..10), (18, 6..7)]);
    assert_eq!(collected(b"1.2.3 \"x").1, [(34, 0..5), (31, 6..8)]);
    let tree = Tree::parse_collect("$").unwrap();
    let d = tree.diagnostics().next().unwrap();
    assert_eq!((d.problem, d.seen), (Problem::UnknownCharacter(36), None));
    assert_eq!(
        d.to_string(),
        "line 1, column 1: error 33: this character is not part of the language; its byte in hexadecimal is 24"
    );
    assert!(Tree::parse("$").unwrap().diagnostics().next().is_none());
    let deep = "(".repeat(127);
    let Err(Error::Script(d)) = Tree::parse_collect(deep) else { panic!() };
    assert_eq!((d.problem, d.span), (Problem::TooDeep, 127..130));
}

#[test]
fn lookups() {
    let t = tree("[] * a\nlet s = \"str\"");
    let starts: Vec<Option<usize>> = t.nodes().map(|(id, _)| t.start(id)).collect();
    assert_eq!(starts, [None, Some(5), Some(3), Some(15), Some(11)]);
    let (_, last) = t.nodes().last().expect("a node");
    let Node::Let { name, .. } = last else { panic!("{last:?}") };
    assert_eq!((t.span(name), t.line_column(name.start as usize)), (11..12, Some((2, 5))));
    let Node::Atom { raw, .. } = t.node(purple_garden_reader::NodeId(3)) else { panic!() };
    assert_eq!((t.span(raw), t.spelling(raw)), (16..19, "str"));
    assert_eq!((t.line_column(20), t.line_column(21), t.line_column(usize::MAX)), (Some((2, 14)), None, None));
    let t = tree("a as Option<Array<Int>>");
    let tokens: Vec<Kind> = t.types().map(|(id, _)| t.type_token(id).kind).collect();
    assert_eq!(tokens, [Kind::Int; 3]);
    assert_eq!((t.types().len(), t.nodes().len(), t.values()), (3, 2, 2));
}

/// A column counts the bytes since the last line feed that are no UTF-8 continuation bytes.
#[test]
fn columns() {
    let t = Tree::parse_collect("let n = \"José\" $\nlet é = 1").unwrap();
    let places: Vec<_> = t.diagnostics().map(|d| (d.problem.number(), d.span.start, d.line, d.column)).collect();
    assert_eq!(places, [(33, 16, 1, 16), (33, 22, 2, 5), (33, 23, 2, 6), (12, 25, 2, 7)]);
    let t = Tree::parse_collect("match { $ }\n$ é").unwrap();
    let single = |d: &purple_garden_reader::Diagnostic| t.line_column(d.span.start) == Some((d.line, d.column));
    assert!(t.diagnostics().len() > 3 && t.diagnostics().all(|d| single(&d)));
    assert_eq!(t.line_columns(&[]), Some(vec![]));
    assert_eq!(t.line_columns(&[0, 0, 12, 15, 16]), Some(vec![(1, 1), (1, 1), (2, 1), (2, 4), (2, 4)]));
    assert_eq!((t.line_columns(&[1, 0]), t.line_columns(&[17]), t.line_columns(&[usize::MAX])), (None, None, None));
    let t = Tree::parse_collect(b"\x80\xbf\xc0\xff\x7f".as_slice()).unwrap();
    let columns: Vec<_> = (0..=5).map(|at| t.line_column(at).unwrap().1).collect();
    assert_eq!(columns, [1, 1, 1, 2, 3, 4]);
}

#[test]
fn shapes() {
    for (left, right, same) in [
        ("a - b", "a-b # r", true),
        ("a - b", "a -b", false),
        ("(a) + b", "a + ((b))", true),
        ("import \"p\"", "import (\"p\")", true),
        ("fn f() {}", "fn f() Void {}", true),
        ("let a = 1", "let b = 1", false),
        ("#! d\nlet a = 1", "let a = 1", false),
        ("", "# nothing", true),
    ] {
        assert_eq!(tree(left).same_shape(&tree(right)), same, "{left} and {right}");
        assert_eq!(tree(right).same_shape(&tree(left)), same, "{right} and {left}");
    }
}

#[test]
fn scripts_of_every_length() {
    let longest = "a ".repeat(MAX_BYTES / 2);
    for n in (0..=MAX_BYTES).step_by(4099).chain([1, 2, MAX_BYTES - 1, MAX_BYTES]) {
        let t = tree(&longest[..n]);
        assert_eq!((t.roots().len(), t.nodes().len()), (n.div_ceil(2), n.div_ceil(2)));
    }
    assert_eq!(Tree::parse(vec![b'a'; MAX_BYTES + 1]).unwrap_err(), Error::TooLong { bytes: MAX_BYTES + 1 });
}

#[test]
#[should_panic(expected = "no node 1")]
fn a_node_outside() {
    tree("a").node(purple_garden_reader::NodeId(1));
}
