//! Scripts cut into tokens.
use purple_garden_reader::{Diagnostic, Error, Kind, Problem, Tokens, Tree, MAX_BYTES};

fn cut(script: &str) -> Tokens {
    Tokens::cut(script).expect("a short script")
}

#[test]
fn kinds_starts_and_spellings() {
    let tokens = cut("#! one\nfn f(a: Int) { a == 1.5 }");
    let found: Vec<(Kind, u32, &str)> = tokens.iter().map(|(t, spelling)| (t.kind, t.start, spelling)).collect();
    assert_eq!(found[..4], [(Kind::Doc, 0, "one"), (Kind::Fn, 7, "fn"), (Kind::Ident, 10, "f"), (Kind::BraceLeft, 11, "(")]);
    assert_eq!(found.last(), Some(&(Kind::Eof, 32, "eof")));
    assert_eq!(tokens.errors().len(), 0);
}

#[test]
fn no_bytes_are_eof_alone() {
    let tokens = cut("");
    let found: Vec<(Kind, u32, u32)> = tokens.iter().map(|(t, _)| (t.kind, t.start, t.len)).collect();
    assert_eq!((found, tokens.errors().len()), (vec![(Kind::Eof, 0, 3)], 0));
}

#[test]
fn empty_strings_and_docs_have_a_place() {
    let tokens = cut("\"\" #!");
    let found: Vec<(Kind, &str)> = tokens.iter().map(|(t, spelling)| (t.kind, spelling)).collect();
    assert_eq!(found, [(Kind::S, ""), (Kind::Doc, ""), (Kind::Eof, "eof")]);
}

#[test]
fn errors_count_the_tokens_before_them() {
    let tokens = cut("$ a $ \"b");
    let found: Vec<(Problem, usize, usize)> = tokens.errors().map(|(e, before)| (e.problem, e.span.start, before)).collect();
    assert_eq!(found, [(Problem::UnknownCharacter(b'$'), 0, 0), (Problem::UnknownCharacter(b'$'), 4, 1), (Problem::UnterminatedString, 6, 1)]);
    assert_eq!(tokens.script(), b"$ a $ \"b");
}

#[test]
fn a_script_may_be_too_long() {
    assert_eq!(Tokens::cut(vec![b'$'; MAX_BYTES]).map(|t| t.errors().len()).ok(), Some(MAX_BYTES));
    assert_eq!(Tokens::cut(vec![b'a'; MAX_BYTES + 1]).err(), Some(Error::TooLong { bytes: MAX_BYTES + 1 }));
}

/// What a reading says: the tree with its roots and diagnostics, or the error.
fn said(read: Result<Tree, Error>) -> Result<(String, Vec<u32>, Vec<Diagnostic>, u32), Error> {
    read.map(|t| (format!("{t:?}"), t.roots().map(|id| id.0).collect(), t.diagnostics().collect(), t.values()))
}

#[test]
fn trees_are_read_from_tokens() {
    let nested = "(".repeat(2_000);
    let long = "let a = [1 2 \"s\"]\n".repeat(3_000);
    for script in ["", "let a = 1", "#! one\nfn f(a: Int) { a == 1.5 }", "let = 1 $ \"b", "$ $ fn", "match { } let b = 2 \"", &nested, &long] {
        let tokens = cut(script);
        assert_eq!(said(Tree::read(&tokens)), said(Tree::parse(script)), "{script}");
        assert_eq!(said(Tree::read_collect(&tokens)), said(Tree::parse_collect(script)), "{script}");
        assert_eq!(said(Tree::read(&tokens)), said(Tree::parse(script)), "{script}: again");
    }
}

#[test]
fn lexer_errors_are_gathered_from_tokens() {
    let tree = Tree::read_collect(&cut("$ a $ \"b")).expect("a tree");
    let found: Vec<Problem> = tree.diagnostics().map(|d| d.problem).collect();
    assert_eq!(found, [Problem::UnknownCharacter(b'$'), Problem::UnknownCharacter(b'$'), Problem::UnterminatedString]);
}
