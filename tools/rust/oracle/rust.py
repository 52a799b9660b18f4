"""Compiles a Rust program over the six unchanged Rust files, where they lie, and over a second copy of parser.rs with added lines.

The copy counts levels, which the Rust has none of, and notes what striking takes. It exists only while a program is built.
"""
import json, os, subprocess, sys

HERE = os.path.dirname(os.path.abspath(__file__))
REPO = os.path.dirname(os.path.dirname(os.path.dirname(HERE)))
SRC = REPO + "/../shared/docs/src/purple-garden-frontend/src"
FILES = ["lex/byte_search.rs", "lex/tok.rs", "lex/mod.rs", "diagnostic.rs", "ast.rs", "parser.rs"]


def stop(message):
    sys.exit(os.path.relpath(sys.argv[0], REPO) + ": " + message)


def wrapped(name, parameters, arguments, result):
    """The read `name`, one level deeper: the old function goes on under another name."""
    head = f"    fn {name}(&mut self{parameters}) -> Result<{result}, Diagnostic> {{\n"
    return head, (
        head
        + "        crate::notes::enter(&self.cur)?;\n"
        + f"        let read = self.{name}_here({arguments});\n"
        + "        crate::notes::leave();\n"
        + "        read\n    }\n\n"
        + head.replace(name, name + "_here")
    )


def before(anchor, line):
    return anchor, line + anchor


VOID = "if self.cur.t == Type::Void {\ncrate::notes::strike(self.cur.start);\n}\n"
STRIKE = "crate::notes::strike(self.cur.start);\n"

# (anchor, what takes its place); each anchor stands in parser.rs exactly once
CHANGES = [
    wrapped("parse_prefix", "", "", "NodeId"),
    wrapped("parse_expr", ", min_bp: u8", "min_bp", "NodeId"),
    wrapped("parse_type", "", "", "TypeExprId"),
    # error 10 ends a collecting reading too
    before("                    self.synchronize_root();\n", "if crate::notes::refused() {\nreturn;\n}\n"),
    # the brackets of an operand
    before("                self.advance()?;\n                let e = self.parse_expr(0)?;\n", STRIKE),
    before("                self.expect(Type::BraceRight)?;\n                e\n", STRIKE),
    # the brackets about a single import path
    before("        self.expect(Type::BraceLeft)?;\n\n        let mut pkgs = self.list();\n", "let open = self.cur.start;\n"),
    before(
        "        self.expect(Type::BraceRight)?;\n        let pkgs = self.arena.alloc_slice(pkgs);\n",
        "if pkgs.len() == 1 {\ncrate::notes::strike(open);\n" + STRIKE + "}\n",
    ),
    # a Void as return type: of a fn, then in an extern
    before("            self.parse_type()?\n        };\n\n        let body", VOID),
    before("                self.parse_type()?\n            };\n            fns.push", VOID),
    # a case or default after a default
    before("            // default case\n", "if default.is_some() {\ncrate::notes::block_after_default();\n}\n"),
]


def counted(text):
    for anchor, new in CHANGES:
        if text.count(anchor) != 1:
            stop(f"expected once in parser.rs, found {text.count(anchor)} times:\n{anchor}")
        text = text.replace(anchor, new)
    for read, calls in (("parse_prefix", 5), ("parse_expr", 7), ("parse_type", 7)):
        # a call that was not seen when the anchors were chosen would be a read that nobody has looked at
        found = text.count(f"self.{read}(")
        if found != calls:
            stop(f"expected {calls} calls of {read} in parser.rs, found {found}")
    return text


# ast.rs is included as text, so that a function beside it may call the private `node_start`
MODULES = """#[path = {diagnostic}]
mod diagnostic;
#[path = {lex}]
mod lex;
#[path = {parser}]
mod parser;
#[path = {counted}]
mod counted;
#[path = {notes}]
mod notes;
mod ast {{
    include!({ast});
    pub fn start_of(ast: &Ast<'_, '_>, id: NodeId) -> Option<u32> {{
        ast.node_start(id)
    }}
}}
"""


def write(path, text):
    with open(path, "w") as f:
        f.write(text)


def rustc(out, *arguments):
    command = ["rustc", "-C", "opt-level=3", "--edition", "2024", "--cap-lints", "allow", "--out-dir", out, "-L", out, *arguments]
    env = dict(os.environ, RUSTC_BOOTSTRAP="1", RUST_MODULES=os.path.join(out, "modules.rs"))
    if subprocess.run(command, env=env).returncode != 0:
        stop("rustc failed")


def build(src, out, name, main, allocators, own, *arguments):
    """Builds the program OUT/NAME from `main` and the stand-in `allocators`, unless it is newer than they, the Rust and the files `own`."""
    src, out = os.path.abspath(src), os.path.abspath(out)
    program = os.path.join(out, name)
    runtime, notes = HERE + "/runtime.rs", HERE + "/notes.rs"
    inputs = [os.path.join(src, f) for f in FILES] + [main, allocators, runtime, notes, os.path.abspath(__file__), *own]
    for f in inputs:
        if not os.path.exists(f):
            stop(f"no file {f}")
    built_from = os.path.join(out, "built-from")
    given = "\n".join([src, *arguments])
    fresh = os.path.exists(program) and os.path.exists(built_from) and open(built_from).read() == given
    if not fresh or max(os.path.getmtime(f) for f in inputs) > os.path.getmtime(program):
        os.makedirs(out, exist_ok=True)
        write(out + "/counted.rs", counted(open(src + "/parser.rs").read()))
        paths = {n: json.dumps(os.path.join(src, n + ".rs")) for n in ("diagnostic", "parser", "ast")}
        write(
            out + "/modules.rs",
            MODULES.format(lex=json.dumps(src + "/lex/mod.rs"), counted=json.dumps(out + "/counted.rs"), notes=json.dumps(notes), **paths),
        )
        rustc(out, "--crate-type", "rlib", "--crate-name", "purple_garden_allocators", allocators)
        rustc(out, "--crate-type", "rlib", "--crate-name", "purple_garden_runtime", runtime)
        rustc(
            out, "--crate-name", name, "--extern", "purple_garden_allocators", "--extern", "purple_garden_runtime", *arguments, main,
        )
        write(built_from, given)
        # no copy of the Rust stays behind, not even in an ignored folder
        os.remove(out + "/counted.rs")
        os.remove(out + "/modules.rs")
    return program
