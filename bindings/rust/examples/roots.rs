//! roots FILE: read a script and print the node of each root, or the error.
//!
//!     cargo run --offline --example roots FILE
use purple_garden_reader::Tree;

fn print(file: &str) -> Result<(), Box<dyn std::error::Error>> {
    let tree = Tree::parse(std::fs::read(file)?)?;
    for root in tree.roots() {
        println!("{:?}", tree.node(root));
    }
    Ok(())
}

fn main() {
    let file = std::env::args().nth(1).expect("usage: roots FILE");
    if let Err(error) = print(&file) {
        eprintln!("{file}: {error}");
        std::process::exit(1);
    }
}
