//! Spans that end past the script, and bytes by them.
use purple_garden_reader::{Error, Kind, Node, Tree, Type};

#[test]
fn the_end_of_the_script_covers_nothing() {
    let script = b"let x =";
    let Err(Error::Script(d)) = Tree::parse(&script[..]) else { panic!("it has an error") };
    assert_eq!((d.problem.number(), d.span.clone(), d.seen), (19, 7..10, Some(Kind::Eof)));
    assert_eq!(script.get(d.span.clone()), None);
    assert_eq!(d.bytes(script), b"");
    let tree = Tree::parse_collect(&script[..]).expect("a tree");
    assert_eq!(tree.bytes(d.span), b"");
}

#[test]
fn an_error_covers_its_token() {
    let script = b"let x = \"a\" != b";
    let Err(Error::Script(d)) = Tree::parse(&script[..]) else { panic!("it has an error") };
    assert_eq!((d.span.clone(), d.bytes(script)), (12..14, &b"!="[..]));
}

#[test]
fn a_void_that_is_written_nowhere_may_end_past_the_script() {
    let tree = Tree::parse("extern \"p\" {fn f()}").expect("a tree");
    let (id, Type::Atom(token)) = tree.types().next().expect("a type") else { panic!("an atom") };
    assert_eq!((token.kind, tree.type_token(id)), (Kind::Void, token));
    assert_eq!(tree.span(token), 18..22);
    assert_eq!(tree.bytes(tree.span(token)), b"}");
}

#[test]
fn a_doc_is_named_by_its_sign_and_spelled_by_its_words() {
    let tree = Tree::parse("#! a doc\nlet x = \"str\"").expect("a tree");
    let root = tree.roots().next().expect("a root");
    let Node::Let { docs, .. } = tree.node(root) else { panic!("a let") };
    let doc = docs.into_iter().next().expect("a doc");
    assert_eq!(tree.span(doc), 0..5);
    assert_eq!((tree.bytes(tree.span(doc)), tree.spelling(doc)), (&b"#! a "[..], "a doc"));
}
