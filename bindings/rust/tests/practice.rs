//! Practice sheets through the wrapper: sheets that are known, their reading, and the one refusal.
use purple_garden_reader::practice::{sheet, TooManyLines, MAX_LINES};
use purple_garden_reader::{Node, Tree};

#[test]
fn known_sheets() {
    assert_eq!(sheet(0, 1).unwrap(), "let v0 = (8 + v0)\n");
    assert_eq!(sheet(2, 3).unwrap(), "let v0 = v4\nlet v1 = -v9\nlet v2 = (--58 + 24)\n");
    assert_eq!(sheet(7, 0).unwrap(), "");
    let last = sheet(u32::MAX, 16).unwrap();
    assert!(last.starts_with("let v0 = v1\nlet v1 = --v4\n") && last.ends_with("\nlet v15 = -v8\n"));
    assert_eq!(last.len(), 275);
}

/// The page for teachers shows the sheet of seed 2026 with 6 lines.
#[test]
fn the_teachers_page() {
    let page = include_str!("../../../docs/FOR-TEACHERS.md");
    let shown: String = sheet(2026, 6).unwrap().lines().map(|line| format!("    {line}\n")).collect();
    assert!(page.contains(&format!("with 6 lines:\n\n{shown}\n")), "{shown}");
}

#[test]
fn more_lines_go_on() {
    let whole = sheet(123_456_789, MAX_LINES).unwrap();
    for lines in 0..=MAX_LINES {
        let part = sheet(123_456_789, lines).unwrap();
        assert!(whole.starts_with(&part));
        assert_eq!(part.lines().count(), lines as usize);
    }
}

#[test]
fn accepted_with_a_root_for_each_line() {
    for seed in (0..1000).map(|i: u32| i.wrapping_mul(4_294_967)) {
        let lines = seed % (MAX_LINES + 1);
        let tree = Tree::parse(sheet(seed, lines).unwrap()).expect("strict mode accepts it");
        assert_eq!(tree.roots().len(), lines as usize);
        for (i, root) in tree.roots().enumerate() {
            let Node::Let { name, .. } = tree.node(root) else { panic!("line {i} of seed {seed}") };
            assert_eq!(tree.spelling(name), format!("v{i}"));
        }
    }
}

#[test]
fn too_many_lines() {
    for lines in [17, 18, 1000, u32::MAX] {
        assert_eq!(sheet(1, lines), Err(TooManyLines { lines }));
    }
    let words = "a practice sheet has at most 16 lines, not 17";
    assert_eq!(sheet(1, 17).unwrap_err().to_string(), words);
}
