//! sheet FILE: print the correction sheet of a script, with all its errors.
//!
//!     cargo run --offline --example sheet FILE
use purple_garden_reader::{Error, Tree};

fn sheet(script: Vec<u8>) -> Result<String, Error> {
    match Tree::parse_collect(script.clone()) {
        Ok(tree) => Ok(tree.sheet()),
        // 10 ends the reading, and is the only error on the sheet
        Err(Error::Script(error)) => Ok(error.sheet(&script)),
        Err(error) => Err(error),
    }
}

fn main() {
    let file = std::env::args().nth(1).expect("usage: sheet FILE");
    let printed = std::fs::read(&file).map_err(|e| e.to_string()).and_then(|script| sheet(script).map_err(|e| e.to_string()));
    match printed {
        Ok(sheet) => print!("{sheet}"),
        Err(error) => {
            eprintln!("{file}: {error}");
            std::process::exit(1);
        }
    }
}
