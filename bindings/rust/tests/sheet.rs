//! Correction sheets. What the words say is looked at only where a test is about it.
use purple_garden_reader::{Error, Tree};

/// The margins of a sheet; a piece that goes on has a blank one.
fn margins(sheet: &str) -> Vec<&str> {
    assert!(sheet.lines().all(|line| line.len() == 72) && sheet.len() == 73 * sheet.lines().count());
    sheet.lines().map(|line| &line[..15]).collect()
}

#[test]
fn each_error_has_its_place() {
    let tree = Tree::parse_collect("let x = 1\nlet y 2\n  $ let").unwrap();
    let sheet = tree.sheet();
    let errors: Vec<&str> = margins(&sheet).into_iter().filter(|m| !m.trim().is_empty()).collect();
    assert_eq!(errors, ["    2     7 11 ", "    3     3 33 ", "    3     8 12 "]);
    assert!(sheet.lines().next().unwrap()[15..].starts_with("expected '=',"));
}

#[test]
fn no_errors_no_lines() {
    assert_eq!(Tree::parse_collect("let x = 1").unwrap().sheet(), "");
    assert_eq!(Tree::parse_collect("").unwrap().sheet(), "");
    assert_eq!(Tree::parse("$").unwrap().sheet(), "");
}

#[test]
fn the_first_error_of_a_strict_reading() {
    let script = b"let x = 1\nlet y 2\nlet";
    let Err(Error::Script(first)) = Tree::parse(&script[..]) else { panic!("an error") };
    let all = Tree::parse_collect(&script[..]).unwrap().sheet();
    assert!(all.starts_with(&first.sheet(script)));
    assert_eq!(margins(&first.sheet(script))[0], "    2     7 11 ");
}

#[test]
fn too_deep_alone() {
    let script = "(".repeat(127) + "a";
    let Err(Error::Script(deep)) = Tree::parse_collect(script.as_str()) else { panic!("too deep") };
    assert_eq!(margins(&deep.sheet(script.as_bytes()))[0], "    1   128 10 ");
}

#[test]
fn every_error_of_a_long_script() {
    let script = "$\n".repeat(32_768);
    let sheet = Tree::parse_collect(script).unwrap().sheet();
    let last = margins(&sheet).into_iter().filter(|m| !m.trim().is_empty()).last().unwrap().to_string();
    assert_eq!(last, "32768     1 33 ");
}

/// docs/FOR-TEACHERS.md has the sheets of the wrong papers, without blanks at the ends of lines.
#[test]
fn the_teachers_page_has_the_sheets() {
    let root = concat!(env!("CARGO_MANIFEST_DIR"), "/../../");
    let page = std::fs::read_to_string(root.to_string() + "docs/FOR-TEACHERS.md").unwrap();
    for (paper, wrong) in [("bracket", true), ("default", true), ("doc", true), ("sign", false)] {
        let name = format!("examples/wrong-{paper}.garden");
        let sheet = Tree::parse_collect(std::fs::read(root.to_string() + &name).unwrap()).unwrap().sheet();
        assert_eq!(margins(&sheet).is_empty(), !wrong);
        let lines: String = sheet.lines().map(|line| format!("    {}\n", line.trim_end())).collect();
        assert!(!wrong || page.contains(&format!("    {name}\n\n{lines}\n")), "{name}:\n{lines}");
    }
}
